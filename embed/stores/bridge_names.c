/* Names: unlink and rename, of the data file and to it, and their like.

   The image is changed before the names of the host are: so the stand-in is there for as long as the data file is, and where one is left without it, as by a process that was
   killed in between, the next one that looks removes it. What the program has open of the data file becomes the stand-in's own, with its bytes, as of any file
   that has lost its name. Where a call fails all is as before. */
#include "bridge.h"
#include <limits.h>
#include <stdlib.h>
#include <string.h>
#include <unistd.h>

/* What a call is asked to do; `to` is NULL for unlink. */
struct names { int from_folder; const char *from; int to_folder; const char *to; unsigned flags; };

/* Which names are meant */

/* Whether a name, and no link to it, is the data file's. */
static int is_data_name(int folder, const char *name) {
  struct stat st;
  int number = errno;
  if (is_changing) return 0;
  int is = NEXT(fstatat)(folder, name, &st, AT_SYMLINK_NOFOLLOW) == 0 && (is_named_data(&st, name) || is_stand_in_file(&st));
  errno = number;
  return is;
}

static int are_one_folder(int folder, const char *name) {
  char path[PATH_MAX];
  struct stat one, other;
  folder_of(name, path);
  if (NEXT(fstatat)(folder, path, &one, 0) != 0) return 0;
  folder_of(data_path(), path);
  return NEXT(stat)(path, &other) == 0 && one.st_ino == other.st_ino && one.st_dev == other.st_dev;
}

/* Whether a name that nothing has would be the data file's. */
static int would_be_data(int folder, const char *name) {
  struct stat st;
  int number = errno;
  if (!has_data_name(name)) return 0;
  int is = NEXT(fstatat)(folder, name, &st, AT_SYMLINK_NOFOLLOW) != 0 && errno == ENOENT && are_one_folder(folder, name);
  errno = number;
  return is;
}

/* Turns */

/* The image, for a change of names: 1 where it was opened for that, 0 where it was open, or -1 and errno. */
static int take_to_change(void) {
  int is_taken = take_image();
  if (is_taken < 0 || contents.kept == NULL) return is_taken;
  if (is_taken) let_go();
  return refuse("a change of its name, in an image that an older kefsrun made", EPERM);
}

/* An image that was opened for a change is let go, but where the program has the data file open then. */
static void end_change(int is_taken) {
  if (!is_taken || data.is_lent || is_in_use()) return;
  drop_data(-1);
  commit();
  let_go();
}

typedef int change(const struct names *names);

static int make_change(change *make, const struct names *names) {
  int is_taken = take_to_change();
  if (is_taken < 0) return -1;
  is_inside++, is_changing++;
  pthread_rwlock_wrlock(&copying);
  int result = make(names), number = errno;
  forget_files();
  pthread_rwlock_unlock(&copying);
  end_change(is_taken);
  is_inside--, is_changing--;
  return result == 0 ? 0 : fail(number);
}

static int in_turn(change *make, const struct names *names) {
  pthread_mutex_lock(&lock);
  int result = make_change(make, names);
  pthread_mutex_unlock(&lock);
  return result;
}

/* Going */

/* A data file that is there, and has this name alone. */
static int check_going(const struct names *names) {
  struct stat st;
  if (!contents.is_there) return remove_left_over(), fail(ENOENT);
  if (NEXT(fstatat)(names->from_folder, names->from, &st, AT_SYMLINK_NOFOLLOW) != 0) return -1;
  return st.st_nlink == 1 ? 0 : refuse("it has another name too, which would lose its bytes", EPERM);
}

/* Has what the program has open of it, if anything, stay. */
static int keep_open(struct aside *aside, int folder, const char *name) {
  aside->fd = -1;
  if (data.is_lent || !is_in_use()) return 0;
  return attach(-1, 0) == 0 ? put_aside(aside, folder, name) : -1;
}

static int unlink_data(const struct names *names) {
  struct aside aside;
  if (check_going(names) != 0 || keep_open(&aside, names->from_folder, names->from) != 0) return -1;
  int is_removed = remove_data() == 0, result = is_removed ? NEXT(unlinkat)(names->from_folder, names->from, 0) : -1, number = errno;
  if (result != 0) {
    if (is_removed) restore_data();
    take_back(&aside);
    return fail(number);
  }
  drop_data(aside.fd);
  take_removed();
  end_aside(&aside);
  set_stand_in(NULL);
  return 0;
}

/* What rename would find at once. */
static int check_move(const struct names *names) {
  char path[PATH_MAX];
  struct stat from, to;
  folder_of(names->from, path);
  if (NEXT(fstatat)(names->from_folder, path, &from, 0) != 0) return -1;
  folder_of(names->to, path);
  if (NEXT(fstatat)(names->to_folder, path, &to, 0) != 0) return -1;
  if (from.st_dev != to.st_dev) return fail(EXDEV);
  return NEXT(fstatat)(names->to_folder, names->to, &to, AT_SYMLINK_NOFOLLOW) == 0 && S_ISDIR(to.st_mode) ? fail(EISDIR) : 0;
}

/* The other file is durable, with its name, before the data file goes: where that fails both are there. */
static int move_aside(const struct names *names, struct aside *aside) {
  if (NEXT(fsync)(aside->fd) != 0 || NEXT(renameat2)(names->from_folder, aside->other, names->to_folder, names->to, names->flags) != 0) {
    int number = errno;
    take_back(aside);
    return fail(number);
  }
  *aside->other = 0;
  int is_durable = sync_folder(names->to_folder, names->to, aside->fd) == 0 && sync_folder(names->from_folder, names->from, aside->fd) == 0;
  if (is_durable && remove_data() == 0) return 0;
  struct stat st;
  int number = errno;
  if (NEXT(fstatat)(names->from_folder, names->from, &st, AT_SYMLINK_NOFOLLOW) == 0) set_stand_in(&st);
  end_aside(aside);
  return fail(number);
}

static int rename_data(const struct names *names) {
  struct aside aside;
  if (check_going(names) != 0 || check_move(names) != 0 || attach(-1, 0) != 0) return -1;
  if (put_aside(&aside, names->from_folder, names->from) != 0 || move_aside(names, &aside) != 0) return -1;
  NEXT(unlinkat)(names->from_folder, names->from, 0); /* the empty one */
  drop_data(aside.fd);
  take_removed();
  end_aside(&aside);
  set_stand_in(NULL);
  return 0;
}

/* Coming: a file of the host, which becomes the stand-in, so that its descriptors become the data file's. */

static int open_source(const struct names *names, struct stat *st) {
  int fd = NEXT(openat)(names->from_folder, names->from, O_RDWR | O_NOFOLLOW | O_CLOEXEC | O_NONBLOCK);
  if (fd < 0) return errno == EACCES ? refuse("a rename of a file that may not be read and written", EACCES) : -1;
  int result = NEXT(fstat)(fd, st);
  if (result == 0 && st->st_nlink != 1) result = refuse("a rename of a file that has another name too", EPERM);
  if (result == 0 && (uint64_t)st->st_size > contents.most) result = too_long();
  if (result == 0) return fd;
  int number = errno;
  NEXT(close)(fd);
  return fail(number);
}

static int is_as_before(int fd, const struct stat *before) {
  struct stat st;
  return NEXT(fstat)(fd, &st) == 0 && st.st_size == before->st_size && st.st_mtim.tv_sec == before->st_mtim.tv_sec && st.st_mtim.tv_nsec == before->st_mtim.tv_nsec;
}

/* The image has the bytes. That the stand-in has none is durable before the mark goes. */
static int empty_source(int fd, const struct stat *st) {
  if (NEXT(ftruncate)(fd, 0) != 0) return -1;
  futimens(fd, (struct timespec[]){st->st_atim, st->st_mtim});
  NEXT(fsync)(fd);
  return 0;
}

/* What was written to it meanwhile is not in the image: then it is lent too. */
static void take_source(int fd, const struct stat *st, struct data *next) {
  next->is_lent = is_to_lend(fd) || !is_as_before(fd, st) || empty_source(fd, st) != 0;
  take_staged();
  set_data(next, (uint64_t)st->st_size);
  set_stand_in(st);
}

/* There is a stand-in before there is a data file. */
static int make_name(const struct names *names) {
  int fd = NEXT(openat)(names->to_folder, names->to, O_WRONLY | O_CREAT | O_EXCL | O_CLOEXEC, 0600);
  return fd < 0 ? -1 : NEXT(close)(fd);
}

static void take_name_back(const struct names *names, const struct aside *aside) {
  if (contents.is_there) take_back(aside);
  else NEXT(unlinkat)(names->to_folder, names->to, 0);
}

static int replace_by(const struct names *names, int fd, const struct stat *st) {
  struct data next;
  struct aside aside = {.fd = -1};
  if ((contents.is_there ? keep_open(&aside, names->to_folder, names->to) : make_name(names)) != 0) return -1;
  int is_staged = stage_data(&next, fd, (uint64_t)st->st_size) == 0;
  int result = is_staged ? NEXT(renameat)(names->from_folder, names->from, names->to_folder, names->to) : -1, number = errno;
  if (result != 0) {
    if (is_staged) unstage_data(&next);
    take_name_back(names, &aside);
    return fail(number);
  }
  drop_data(aside.fd);
  end_aside(&aside);
  take_source(fd, st, &next);
  return 0;
}

static int replace_data(const struct names *names) {
  struct stat st;
  if (contents.is_there && names->flags & RENAME_NOREPLACE) return fail(EEXIST);
  if (!contents.is_there) remove_left_over();
  if (check_move(names) != 0) return -1;
  int fd = open_source(names, &st);
  if (fd < 0) return -1;
  int result = replace_by(names, fd, &st), number = errno;
  NEXT(close)(fd);
  return result == 0 ? 0 : fail(number);
}

/* Whether a file may be renamed to the data file: one that is not there, or a folder, finds the system's own answer. */
static int rename_to_data(const struct names *names) {
  struct stat st;
  if (NEXT(fstatat)(names->from_folder, names->from, &st, AT_SYMLINK_NOFOLLOW) != 0) return -1;
  if (S_ISDIR(st.st_mode)) return NEXT(renameat2)(names->from_folder, names->from, names->to_folder, names->to, names->flags);
  return S_ISREG(st.st_mode) ? in_turn(replace_data, names) : refuse("a rename of what is no file with bytes", EPERM);
}

/* The calls */

static int unlink_name(int folder, const char *name) { return in_turn(unlink_data, &(struct names){folder, name, 0, NULL, 0}); }

int unlink(const char *path) { return is_data_name(AT_FDCWD, path) ? unlink_name(AT_FDCWD, path) : NEXT(unlink)(path); }
int unlinkat(int folder, const char *path, int flags) {
  return flags == 0 && is_data_name(folder, path) ? unlink_name(folder, path) : NEXT(unlinkat)(folder, path, flags);
}
int remove(const char *path) { return is_data_name(AT_FDCWD, path) ? unlink_name(AT_FDCWD, path) : NEXT(remove)(path); }

/* 0 where the data file is meant by neither name, or by both. */
static int is_ours(int folder, const char *from, int to_folder, const char *to) {
  int is_from = is_data_name(folder, from), is_to = is_data_name(to_folder, to);
  return is_from != (is_to || would_be_data(to_folder, to));
}

static int change_names(const struct names *names) {
  if (names->flags & ~(unsigned)RENAME_NOREPLACE) return refuse("an exchange of names, or another form of rename", EINVAL);
  return is_data_name(names->from_folder, names->from) ? in_turn(rename_data, names) : rename_to_data(names);
}

int rename(const char *from, const char *to) {
  return is_ours(AT_FDCWD, from, AT_FDCWD, to) ? change_names(&(struct names){AT_FDCWD, from, AT_FDCWD, to, 0}) : NEXT(rename)(from, to);
}
int renameat(int folder, const char *from, int to_folder, const char *to) {
  return is_ours(folder, from, to_folder, to) ? change_names(&(struct names){folder, from, to_folder, to, 0}) : NEXT(renameat)(folder, from, to_folder, to);
}
int renameat2(int folder, const char *from, int to_folder, const char *to, unsigned flags) {
  int ours = is_ours(folder, from, to_folder, to);
  return ours ? change_names(&(struct names){folder, from, to_folder, to, flags}) : NEXT(renameat2)(folder, from, to_folder, to, flags);
}

/* Links. A second name would be the empty file's, and bytes that the data file shared with another file would not be one. */

static int is_linked_from(int folder, const char *from, int flags) {
  struct stat st;
  int number = errno;
  int is = NEXT(fstatat)(folder, from, &st, (flags & AT_EMPTY_PATH) | (flags & AT_SYMLINK_FOLLOW ? 0 : AT_SYMLINK_NOFOLLOW)) == 0;
  errno = number;
  return is && !is_changing && (is_named_data(&st, from) || is_stand_in_file(&st));
}

int linkat(int folder, const char *from, int to_folder, const char *to, int flags) {
  if (is_linked_from(folder, from, flags)) return refuse("a second name", EPERM);
  return would_be_data(to_folder, to) ? refuse("a link to another file", EPERM) : NEXT(linkat)(folder, from, to_folder, to, flags);
}
int link(const char *from, const char *to) {
  if (is_linked_from(AT_FDCWD, from, 0)) return refuse("a second name", EPERM);
  return would_be_data(AT_FDCWD, to) ? refuse("a link to another file", EPERM) : NEXT(link)(from, to);
}
int symlinkat(const char *what, int folder, const char *name) {
  return would_be_data(folder, name) ? refuse("a link to another file", EPERM) : NEXT(symlinkat)(what, folder, name);
}
int symlink(const char *what, const char *name) {
  return would_be_data(AT_FDCWD, name) ? refuse("a link to another file", EPERM) : NEXT(symlink)(what, name);
}
