/* Descriptors, and facts: open and close in their forms, the end by _exit and exec, and what stat says. */
#include "bridge.h"
#include <ctype.h>
#include <dirent.h>
#include <limits.h>
#include <stdarg.h>
#include <stdlib.h>
#include <string.h>
#include <sys/sysmacros.h>
#include <unistd.h>

/* Opening */

/* What a call of open asks for. The system is not asked to cut the stand-in off, whose bytes another process may have lent: that is done with the image. */
struct wanted { int folder; const char *path; int flags; unsigned mode; int is_to_cut; };

static int are_same(const struct stat *one, const struct stat *other) { return one->st_ino == other->st_ino && one->st_dev == other->st_dev; }

static int leads_to_stand_in(const struct wanted *wanted) {
  struct stat st, now;
  if (data_path() == NULL || is_changing || NEXT(fstatat)(wanted->folder, wanted->path, &st, 0) != 0) return 0;
  return S_ISREG(st.st_mode) && NEXT(stat)(data_path(), &now) == 0 && are_same(&st, &now);
}

/* Whether a file that is to be made is only there since its stand-in was left over. */
static int is_left_over(const struct wanted *wanted) {
  uint64_t length;
  int number = errno;
  int is = number == EEXIST && wanted->flags & O_CREAT && is_data_path(wanted->path) && length_now(&length) != 0 && errno == ENOENT;
  errno = number;
  return is;
}

static int is_opened_data(const struct wanted *wanted, int fd) {
  struct stat st;
  return NEXT(fstat)(fd, &st) == 0 && is_named_data(&st, wanted->path) && is_data(fd);
}

/* Whether the data file's name, or one like it, has meanwhile become another file's: what was opened then is what has no bytes any more, or not yet. */
static int has_moved(const struct wanted *wanted, int fd) {
  struct stat st, now;
  if (!has_data_name(wanted->path) || (wanted->flags & O_TMPFILE) == O_TMPFILE || NEXT(fstat)(fd, &st) != 0 || !S_ISREG(st.st_mode)) return 0;
  return NEXT(fstatat)(wanted->folder, wanted->path, &now, 0) != 0 || !are_same(&st, &now);
}

/* A file that is not the data file, or that is lent. */
static int open_other(const struct wanted *wanted, int fd) {
  if (has_moved(wanted, fd) || (wanted->is_to_cut && !is_stand_in(fd))) return fail(ESTALE);
  return wanted->is_to_cut ? NEXT(ftruncate)(fd, 0) : 0;
}

/* The data file's image is opened with it, so that where another process has it, open says so. A path alone (O_PATH) reads nothing. 0, or -1 and errno. */
static int open_with_image(const struct wanted *wanted, int fd) {
  if (!is_opened_data(wanted, fd)) return open_other(wanted, fd);
  if (wanted->flags & O_PATH) return 0;
  return attach(fd, wanted->flags) == 0 && (!(wanted->flags & O_TRUNC) || resize(0) == 0) ? 0 : -1;
}

/* Whether the file is to be opened again, since its name has become another one's. */
static int is_to_open_again(const struct wanted *wanted, int *fd) {
  if (*fd < 0) return is_left_over(wanted);
  if (open_with_image(wanted, *fd) == 0) return after_change(*fd), 0;
  int number = errno;
  NEXT(close)(*fd);
  *fd = fail(number);
  return number == ESTALE;
}

/* hold_name, but where the system may have the caller wait for another process. */
static int hold_to_open(const struct wanted *wanted) {
  struct stat st;
  int is_held = hold_name(wanted->path);
  if (!is_held || NEXT(fstatat)(wanted->folder, wanted->path, &st, 0) != 0 || S_ISREG(st.st_mode)) return is_held;
  return let_name_go(is_held), 0;
}

typedef int system_open(const struct wanted *wanted, int flags);

static int open_file(struct wanted *wanted, system_open *next) {
  enum { TRIES = 100 };
  int is_held = hold_to_open(wanted), fd, tries = 0;
  do {
    wanted->is_to_cut = wanted->flags & O_TRUNC && (wanted->flags & O_ACCMODE) != O_RDONLY && leads_to_stand_in(wanted);
    fd = next(wanted, wanted->is_to_cut ? wanted->flags & ~O_TRUNC : wanted->flags);
  } while (is_to_open_again(wanted, &fd) && tries++ < TRIES);
  let_name_go(is_held);
  return fd;
}

static unsigned mode_of(int flags, va_list rest) { return flags & (O_CREAT | O_TMPFILE) ? va_arg(rest, unsigned) : 0; }

#define OPENS(name) \
  static int next_##name(const struct wanted *wanted, int flags) { return NEXT(name)(wanted->path, flags, wanted->mode); } \
  int name(const char *path, int flags, ...) { \
    va_list rest; \
    va_start(rest, flags); \
    unsigned mode = mode_of(flags, rest); \
    va_end(rest); \
    return open_file(&(struct wanted){AT_FDCWD, path, flags, mode, 0}, next_##name); \
  }
OPENS(open)
OPENS(open64)

#define OPENS_AT(name) \
  static int next_##name(const struct wanted *wanted, int flags) { return NEXT(name)(wanted->folder, wanted->path, flags, wanted->mode); } \
  int name(int folder, const char *path, int flags, ...) { \
    va_list rest; \
    va_start(rest, flags); \
    unsigned mode = mode_of(flags, rest); \
    va_end(rest); \
    return open_file(&(struct wanted){folder, path, flags, mode, 0}, next_##name); \
  }
OPENS_AT(openat)
OPENS_AT(openat64)

int creat(const char *path, mode_t mode) { return open(path, O_CREAT | O_WRONLY | O_TRUNC, mode); }
int creat64(const char *path, mode_t mode) { return creat(path, mode); }

/* The forms that programs call which are built with _FORTIFY_SOURCE. */
int __open_2(const char *path, int flags) { return open(path, flags); }
int __open64_2(const char *path, int flags) { return open64(path, flags); }
int __openat_2(int folder, const char *path, int flags) { return openat(folder, path, flags); }
int __openat64_2(int folder, const char *path, int flags) { return openat64(folder, path, flags); }

/* Closing */

/* Whether of the descriptors of the data file all that are open are among these, and there is one. */
static int are_last(unsigned first, unsigned last) {
  DIR *folder = opendir("/proc/self/fd");
  int within = 0, beside = 0;
  for (struct dirent *entry; folder != NULL && (entry = readdir(folder)) != NULL;) {
    unsigned fd = (unsigned)atoi(entry->d_name);
    if (!isdigit((unsigned char)*entry->d_name) || !is_synced((int)fd)) continue;
    if (fd < first || fd > last) beside = 1;
    else within = 1;
  }
  if (folder != NULL) closedir(folder);
  return within && !beside;
}

/* Commits where these descriptors, which will be closed, are the last ones of the data file: 0, or -1 and errno. */
static int before_close(unsigned first, unsigned last) { return data.base != NULL && are_last(first, last) ? commit_own() : 0; }

/* Where the commit of the last one fails, the descriptor is closed all the same. */
int close(int fd) {
  int result = is_synced(fd) ? before_close((unsigned)fd, (unsigned)fd) : 0, number = errno;
  if (NEXT(close)(fd) != 0) return -1;
  return result == 0 ? 0 : fail(number);
}

int close_range(unsigned first, unsigned last, int flags) {
  int result = flags & CLOSE_RANGE_CLOEXEC ? 0 : before_close(first, last), number = errno;
  if (NEXT(close_range)(first, last, flags) != 0) return -1;
  return result == 0 ? 0 : fail(number);
}
void closefrom(int first) {
  before_close(first < 0 ? 0 : (unsigned)first, UINT_MAX);
  NEXT(closefrom)(first);
}

/* What is open by the number `to` will be closed. */
static int before_dup(int from, int to) {
  if (from == to || fcntl(from, F_GETFD) < 0) return 0;
  before_change(to);
  return is_synced(to) ? before_close((unsigned)to, (unsigned)to) : 0;
}
int dup(int from) { return after_change(NEXT(dup)(from)); }
int dup2(int from, int to) { return before_dup(from, to) != 0 ? -1 : after_change(NEXT(dup2)(from, to)); }
int dup3(int from, int to, int flags) { return before_dup(from, to) != 0 ? -1 : after_change(NEXT(dup3)(from, to, flags)); }

/* The end of the program, or of this one for another */

_Noreturn static void leave(int status, void (*next)(int)) {
  end_program();
  next(status);
  abort();
}
void _exit(int status) { leave(status, NEXT(_exit)); }
void _Exit(int status) { leave(status, NEXT(_exit)); }

int execve(const char *path, char *const words[], char *const environment[]) {
  return commit_own() != 0 ? -1 : NEXT(execve)(path, words, environment);
}
int execv(const char *path, char *const words[]) { return commit_own() != 0 ? -1 : NEXT(execv)(path, words); }
int execvp(const char *name, char *const words[]) { return commit_own() != 0 ? -1 : NEXT(execvp)(name, words); }
int execvpe(const char *name, char *const words[], char *const environment[]) {
  return commit_own() != 0 ? -1 : NEXT(execvpe)(name, words, environment);
}
int fexecve(int fd, char *const words[], char *const environment[]) { return commit_own() != 0 ? -1 : NEXT(fexecve)(fd, words, environment); }

/* How many words there are, with the first one, which is no part of the list, and the NULL at the end. */
static size_t count_words(va_list list) {
  size_t count = 2;
  while (va_arg(list, char *) != NULL) count++;
  return count;
}

/* A form of exec that has its words in a list. */
#define EXEC_LIST(name, call) \
  int name(const char *path, const char *first, ...) { \
    va_list list; \
    va_start(list, first); \
    char *words[count_words(list)]; \
    va_end(list); \
    va_start(list, first); \
    words[0] = (char *)first; \
    for (size_t i = 1; i < sizeof words / sizeof *words; i++) words[i] = va_arg(list, char *); \
    int result = call; \
    va_end(list); \
    return result; \
  }
EXEC_LIST(execl, execv(path, words))
EXEC_LIST(execlp, execvp(path, words))
EXEC_LIST(execle, execve(path, words, va_arg(list, char **)))

/* Facts */

/* What a file of this length would have on a disk, in units of 512 bytes: where it had less, a copy would take the rest for holes. */
static uint64_t blocks_of(uint64_t length) { return (length + KEFS_PAGE - 1) / KEFS_PAGE * (KEFS_PAGE / 512); }

/* Puts the length of the data file in what the system says of the empty one. */
static int with_length(int result, const char *path, struct stat *st) {
  uint64_t now;
  if (result != 0 || !is_named_data(st, path)) return result;
  if (length_now(&now) != 0) return -1;
  st->st_size = (off_t)now, st->st_blocks = (blkcnt_t)blocks_of(now);
  return 0;
}
int fstat(int fd, struct stat *st) { return with_length(NEXT(fstat)(fd, st), "", st); }
/* Facts of a file that has the data file's name no more, or not yet, are asked for again. */
static int fstatat_held(int folder, const char *path, struct stat *st, int flags) {
  struct stat now;
  int result = NEXT(fstatat)(folder, path, st, flags);
  if (result != 0 || !has_data_name(path) || !S_ISREG(st->st_mode) || is_named_data(st, path)) return with_length(result, path, st);
  return NEXT(fstatat)(folder, path, &now, flags) == 0 && are_same(st, &now) ? 0 : with_length(NEXT(fstatat)(folder, path, st, flags), path, st);
}
int fstatat(int folder, const char *path, struct stat *st, int flags) {
  int is_held = hold_name(path), result = fstatat_held(folder, path, st, flags);
  return let_name_go(is_held), result;
}
int stat(const char *path, struct stat *st) { return fstatat(AT_FDCWD, path, st, 0); }
int lstat(const char *path, struct stat *st) { return fstatat(AT_FDCWD, path, st, AT_SYMLINK_NOFOLLOW); }
int fstat64(int fd, struct stat64 *st) { return fstat(fd, (struct stat *)st); }
int stat64(const char *path, struct stat64 *st) { return stat(path, (struct stat *)st); }
int lstat64(const char *path, struct stat64 *st) { return lstat(path, (struct stat *)st); }
int fstatat64(int folder, const char *path, struct stat64 *st, int flags) { return fstatat(folder, path, (struct stat *)st, flags); }

static int statx_held(int folder, const char *path, int flags, unsigned mask, struct statx *st) {
  uint64_t now;
  int result = NEXT(statx)(folder, path, flags, mask | STATX_INO | STATX_TYPE | STATX_SIZE, st);
  if (result != 0) return result;
  struct stat seen = {.st_ino = st->stx_ino, .st_dev = makedev(st->stx_dev_major, st->stx_dev_minor), .st_mode = st->stx_mode, .st_size = (off_t)st->stx_size};
  if (!is_named_data(&seen, path)) return 0;
  if (length_now(&now) != 0) return -1;
  st->stx_size = now, st->stx_blocks = blocks_of(now);
  return 0;
}
int statx(int folder, const char *path, int flags, unsigned mask, struct statx *st) {
  int is_held = hold_name(path), result = statx_held(folder, path, flags, mask, st);
  return let_name_go(is_held), result;
}

/* The forms of programs that were built with a C library before 2.33. */
int __fxstat(int version, int fd, struct stat *st) { return (void)version, fstat(fd, st); }
int __xstat(int version, const char *path, struct stat *st) { return (void)version, stat(path, st); }
int __lxstat(int version, const char *path, struct stat *st) { return (void)version, lstat(path, st); }
int __fxstatat(int version, int folder, const char *path, struct stat *st, int flags) { return (void)version, fstatat(folder, path, st, flags); }
int __fxstat64(int version, int fd, struct stat64 *st) { return (void)version, fstat64(fd, st); }
int __xstat64(int version, const char *path, struct stat64 *st) { return (void)version, stat64(path, st); }
int __lxstat64(int version, const char *path, struct stat64 *st) { return (void)version, lstat64(path, st); }
int __fxstatat64(int version, int folder, const char *path, struct stat64 *st, int flags) { return (void)version, fstatat64(folder, path, st, flags); }
