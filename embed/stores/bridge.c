/* kefsrun.so, which kefsrun preloads: a program that keeps its data in ONE file runs on an image of libkefs, unmodified. By the environment:
     KEFS_IMAGE=/abs/path    the image, which has the data file, bytes and length, which become durable at once (bridge_contents.h)
     KEFS_FILE=/abs/path     the data file by the name that the program has for it: an empty file, for its name and its locks, where there is a data file
     KEFS_COMMIT_AT=every    each msync(MS_SYNC), fsync and fdatasync is a commit of all that is written (the default)
                   fsync    msync is left to the fsync that follows it, as Kyoto and Tokyo Cabinet make both
                   part     an msync of the whole mapping is left to that of a part of it, as LMDB makes both
     KEFS_PIECES=1           a sync of more pages than a commit takes is made by several commits: for a program that has a journal of its own
     KEFS_TRACKER=signal     finds written pages by SIGSEGV, as where the system has no PAGEMAP_SCAN
     KEFS_VERBOSE=1          says at the end how many commits there were

   A commit is also made when the last descriptor of the data file is closed, when the program ends by itself and when it calls another by exec: an orderly end
   keeps what was stored. What no commit took is lost when the program is killed, which a mapping of a file keeps.

   A descriptor is one of the data file where the system says so, however it was made. Answered are open, creat, close, dup and their like; stat, lstat, fstat,
   fstatat and statx; unlink, remove and rename, and their like; mmap, mremap in its place, munmap, madvise, msync; fsync, fdatasync, syncfs, sync; lseek, truncate,
   fallocate without a mode; read and write in each of their forms but those with flags; fopen, fdopen and what is done with their streams. Refused in a line are a private
   mapping, one at a fixed address, mremap to elsewhere, an exchange of names, links, freopen, aio and other modes of fallocate; and without one, as between two file
   systems, so that a program does it by reads and writes, copy_file_range, sendfile, splice and clones; kefsrun takes io_uring away. Refused in a line too is a read with
   O_DIRECT from another file into the mapping, which nothing notes. System calls that the program makes by itself, past the C library, reach the empty file, and where bytes
   of it are found at the end, a line says so. What mprotect says of the mapping holds for calls too.
   Failures of the library are told in a line on standard error, and to the program as errno. */
#include "bridge.h"
#include <limits.h>
#include <stdlib.h>
#include <string.h>
#include <sys/mman.h>
#include <unistd.h>

pthread_mutex_t lock = PTHREAD_RECURSIVE_MUTEX_INITIALIZER_NP;
pthread_rwlock_t copying = PTHREAD_RWLOCK_INITIALIZER;
pthread_rwlock_t changing = PTHREAD_RWLOCK_WRITER_NONRECURSIVE_INITIALIZER_NP;
kefs_image *image;
struct contents contents;
struct data data;
__thread int is_inside; /* so a signal's handler that ends the program must not make another */
__thread int is_changing;
enum commit_at commit_at;

static int has_image;              /* else the program runs without one */
static char file[PATH_MAX];        /* KEFS_FILE */
static int has_pieces;             /* KEFS_PIECES */
static struct { dev_t device; ino_t number; } stand_in; /* its number is 0 where there is none */
static pid_t owner;                /* the process that has the image. A child of vfork has this memory too, and another number */
static int is_child;               /* a process before it had the image, and this one has its descriptors */
static int is_over;                /* the end of the program has closed the image */
static pid_t first;                /* the process that the program began as, until it has looked at its end for what went past this */

static int has_its_number(const struct stat *st) { return stand_in.number != 0 && st->st_ino == stand_in.number && st->st_dev == stand_in.device; }

/* While nobody here has the image another process may give the stand-in's name to another file, and the system its number to a third one. */
int is_stand_in_file(const struct stat *st) {
  struct stat now;
  if (!has_its_number(st) || image != NULL) return has_its_number(st);
  int number = errno, is_there = NEXT(stat)(file, &now) == 0 && S_ISREG(now.st_mode);
  if (!is_there || !has_its_number(&now)) set_stand_in(is_there ? &now : NULL);
  errno = number;
  return has_its_number(st);
}

int fail(int number) {
  errno = number;
  return -1;
}

static void say(const char *what, const char *why) { fprintf(stderr, "kefsrun: %s: %s\n", what, why); }

int refuse(const char *what, int number) {
  fprintf(stderr, "kefsrun: %s: refused, and nothing was done: %s\n", data_path(), what);
  return fail(number);
}

int too_long(void) { return refuse("it may not get so long, as kefsrun -m said, or as an image may have it", EFBIG); }

const char *data_path(void) { return has_image ? file : NULL; }

/* The image */

static int errno_of(int result) {
  switch (result) {
    case KEFS_BUSY: return EBUSY;
    case KEFS_TOO_MANY: return E2BIG;
    case KEFS_READ_ONLY: return EROFS;
    case KEFS_NOT_IMAGE: case KEFS_BAD_JOURNAL: case KEFS_NO_FILE: return EINVAL;
    default: return result > 0 ? result : EIO;
  }
}

/* Tells a failure of a call on this image, or on none, and gives -1 and errno; 0 where there is none. */
static int told_of(const kefs_image *of, int result) {
  if (result == KEFS_OK) return 0;
  const char *detail = of == NULL ? "" : kefs_errmsg(of);
  say(getenv("KEFS_IMAGE"), *detail != 0 ? detail : kefs_strerror(result));
  return fail(errno_of(result));
}

int told(int result) { return told_of(image, result); }

/* Several commits, one of each so many pages. Where the length changes, the first one has all new pages and the length. A page of the directory goes with it, and one at
   the end of what was there. */
static int commit_pieces(void) {
  enum { BESIDES = 16 };
  struct kefs_stat facts = {.size = sizeof facts};
  int result = kefs_stat(image, &facts);
  size_t step = (size_t)(facts.most_pages - BESIDES) * KEFS_PAGE;
  for (size_t at = 0; at < *data.length && result == KEFS_OK; at += step)
    result = kefs_commit(image, &(struct kefs_range){data.base + at, step}, 1, NULL);
  return result == KEFS_OK ? kefs_commit(image, NULL, 0, NULL) : result;
}

static int commit_all(void) {
  int result = kefs_commit(image, NULL, 0, NULL);
  if (result != KEFS_TOO_MANY || data.base == NULL) return result;
  if (has_pieces) return commit_pieces();
  static int is_said;
  if (!is_said++) say(data_path(), "kefsrun -j makes such a sync by several commits, for a program that has a journal of its own");
  return result;
}

static int commit_shared(void) {
  pthread_rwlock_rdlock(&changing);
  int result = image == NULL ? fail(EIO) : told(commit_all());
  if (result == 0) is_new_data = 0;
  pthread_rwlock_unlock(&changing);
  return result;
}

int commit(void) {
  int is_lent = data.is_lent;
  is_inside++;
  int result = is_lent ? bring_lent() : 0;
  if (result == 0) result = commit_shared();
  if (result == 0 && is_lent) end_lent(0);
  is_inside--;
  return result;
}

int commit_own(void) {
  if (is_inside) return 0;
  pthread_mutex_lock(&lock);
  int result = image != NULL && owner == getpid() ? commit() : 0;
  pthread_mutex_unlock(&lock);
  return result;
}

/* Reads what the files of an image are: 0, or -1 and errno, and a line. */
static int look_into(kefs_image *of, struct contents *to) {
  int result = read_contents(of, to);
  if (result != KEFS_OTHER_FILES) return told_of(of, result);
  say(getenv("KEFS_IMAGE"), "its files are not those of an image that kefsrun makes");
  return fail(EINVAL);
}

/* Programs may map more than the data file may get, as LMDB does: behind it are more addresses, and a touch of these is a SIGBUS, as past the end of any file. */
static const size_t more = (size_t)1 << 40;

/* Keeps so many addresses in a row by a mapping of an empty file: where they begin, or NULL where there are not as many. A dump of the memory leaves them out,
   which would take long. */
static unsigned char *keep_addresses(size_t bytes) {
  int nothing = memfd_create("kefsrun", MFD_CLOEXEC);
  void *at = nothing < 0 ? MAP_FAILED : NEXT(mmap)(NULL, bytes, PROT_READ | PROT_WRITE, MAP_SHARED | MAP_NORESERVE, nothing, 0);
  if (nothing >= 0) NEXT(close)(nothing);
  if (at == MAP_FAILED) return NULL;
  NEXT(madvise)(at, bytes, MADV_DONTDUMP);
  return at;
}

/* Maps a data file where `wanted` has addresses for it and for more behind it, or anywhere where that is NULL. */
static int map_at(unsigned number, unsigned char *wanted, struct data *to) {
  void *base;
  if (wanted != NULL) NEXT(munmap)(wanted, to->kept);
  int result = kefs_map_growing(image, number, wanted, to->kept, &base, NULL);
  if (result == KEFS_OK) to->base = base, to->room = to->kept + (wanted == NULL ? 0 : more);
  else if (wanted != NULL) NEXT(munmap)(wanted + to->kept, more);
  return result;
}

/* There may be fewer addresses to have than the data file may get bytes; and another thread may take some of them meanwhile. */
int map_bytes(unsigned number, struct data *to) {
  enum { LEAST = 1 << 30 };
  size_t most = to->kept = (to->most + KEFS_PAGE - 1) / KEFS_PAGE * KEFS_PAGE;
  unsigned char *wanted = keep_addresses(most + more);
  int result = wanted == NULL ? ENOMEM : map_at(number, wanted, to);
  if (result == EEXIST || wanted == NULL) result = map_at(number, NULL, to);
  for (; result == ENOMEM && to->kept > LEAST; result = map_at(number, NULL, to)) to->kept = to->kept / 2 / KEFS_PAGE * KEFS_PAGE;
  return result;
}

/* A thread that looks at it meanwhile finds no addresses, and, where there are some, a length. */
void set_data(const struct data *to, uint64_t length) {
  static uint64_t now;
  struct data next = *to;
  now = length;
  if (next.base != NULL && next.length == NULL) next.length = &now;
  next.base = NULL, next.room = 0;
  __atomic_store_n(&data.room, 0, __ATOMIC_SEQ_CST);
  data = next;
  __atomic_store_n(&data.base, to->base, __ATOMIC_SEQ_CST);
  __atomic_store_n(&data.room, to->room, __ATOMIC_SEQ_CST);
}

static int map_data(void) {
  struct data next = {.most = contents.most, .grows = contents.kept == NULL, .length = contents.kept};
  uint64_t length = contents.length;
  is_inside++;
  int result = map_bytes(contents.number, &next);
  if (result == KEFS_OK && next.grows) result = kefs_length(image, contents.number, &length);
  if (result == KEFS_OK) set_data(&next, length);
  is_inside--;
  return told(result);
}

/* Closes the image. Its memory stays where it is, since munmap leaves it: at the end of a program threads may still store to it. */
void let_go(void) {
  kefs_image *closed = image;
  image = NULL;
  kefs_close(closed);
  data = (struct data){0};
}

static void before_fork(void) { pthread_mutex_lock(&lock); }
static void in_parent(void) { pthread_mutex_unlock(&lock); }

/* A child has no image: what it inherits answers with EIO, and the parent's files stay as they are. */
static void in_child(void) {
  lock = (pthread_mutex_t)PTHREAD_RECURSIVE_MUTEX_INITIALIZER_NP;
  copying = (pthread_rwlock_t)PTHREAD_RWLOCK_INITIALIZER;
  changing = (pthread_rwlock_t)PTHREAD_RWLOCK_WRITER_NONRECURSIVE_INITIALIZER_NP;
  if (image != NULL) is_child = 1;
  let_go();
}

/* Opens the image. The library's own handlers of fork are there then, and those here are called before them, as its lock is taken under the one here. */
static int open_image(kefs_image **to, unsigned flags) {
  static int is_registered;
  is_inside++;
  int result = kefs_open(to, getenv("KEFS_IMAGE"), flags | KEFS_NOWAIT);
  is_inside--;
  if (!is_registered) is_registered = pthread_atfork(before_fork, in_parent, in_child) == 0;
  return told_of(NULL, result);
}

/* What a process that was killed has left unfinished is brought to its end by the next commit. */
static int take_contents(void) {
  struct stat st;
  if (look_into(image, &contents) != 0) return -1;
  if (contents.is_unfinished && settle_stand_in(image, &contents, data_path()) > 0 && NEXT(stat)(data_path(), &st) == 0) set_stand_in(&st);
  forget_files();
  return 0;
}

int take_image(void) {
  const char *tracker = getenv("KEFS_TRACKER");
  if (image != NULL) return 0;
  if (is_over) return refuse("a call after the end of the program", EIO);
  if (open_image(&image, tracker != NULL && strcmp(tracker, "signal") == 0 ? KEFS_TRACK_SIGNAL : 0) != 0) return -1;
  owner = getpid();
  is_inside++, is_changing++;
  int result = take_contents(), number = errno;
  is_inside--, is_changing--;
  if (result == 0) return 1;
  let_go();
  return fail(number);
}

/* Before the image was had, another process may have removed the data file, or given its name to another file. */
static int has_lost_its_name(int fd) {
  struct stat st;
  return NEXT(fstat)(fd, &st) == 0 && (st.st_nlink == 0 || !is_stand_in_file(&st));
}

/* Maps the data file of an image that is open; made where it is not there, if that may be. */
static int map_or_create(int flags) {
  if (!contents.is_there && !(flags & O_CREAT)) return remove_left_over(), fail(ENOENT);
  return contents.is_there || create_data() == 0 ? map_data() : -1;
}

static int attach_locked(int fd, int flags) {
  int is_taken = take_image();
  if (is_taken < 0 || data.base != NULL) return is_taken < 0 ? -1 : 0;
  int result = is_taken && has_lost_its_name(fd) ? fail(ESTALE) : map_or_create(flags), number = errno;
  if (result == 0) return 0;
  if (is_taken) let_go();
  return fail(number);
}

int attach(int fd, int flags) {
  pthread_mutex_lock(&lock);
  int result = fd >= 0 && is_another() ? fail(ESTALE) : attach_locked(fd, flags);
  pthread_mutex_unlock(&lock);
  return result;
}

int answers(int fd) {
  if (is_another()) return fail(ESTALE);
  if (data.base != NULL) return 0;
  int result = is_child ? fail(EIO) : attach(fd, 0);
  if (result != 0 && errno == ESTALE && !is_another()) say(data_path(), "another process has removed what this descriptor had");
  return result;
}

/* The length */

/* Reads the length and lets the image go: a look at a file is no reason why another program should not have it. */
static int peek(uint64_t *to) {
  kefs_image *looked;
  struct contents found;
  if (open_image(&looked, KEFS_RDONLY) != 0) return -1;
  int result = look_into(looked, &found), number = errno;
  if (result == 0 && !found.is_there) remove_left_over(), result = -1, number = ENOENT;
  if (result == 0) *to = found.length;
  kefs_close(looked);
  return result == 0 ? 0 : fail(number);
}

/* Of an image that is open, and the data file not mapped. */
static int look_up_length(uint64_t *to) {
  size_t length;
  if (!contents.is_there) return remove_left_over(), fail(ENOENT);
  int result = told(kefs_length(image, contents.number, &length));
  if (result == 0) *to = length;
  return result;
}

int length_now(uint64_t *to) {
  pthread_mutex_lock(&lock);
  int result = 0;
  if (data.length != NULL) *to = *data.length;
  else result = image != NULL ? look_up_length(to) : peek(to);
  pthread_mutex_unlock(&lock);
  return result;
}

static void set_length(uint64_t to) {
  if (*data.length != to) __atomic_store_n(data.length, to, __ATOMIC_RELEASE);
}

/* The image's file gets this length. A library that has no files so long may say so by EINVAL. */
static int resize_image(uint64_t to) {
  is_inside++;
  int result = kefs_resize(image, contents.number, to);
  is_inside--;
  return told(result == EINVAL ? EFBIG : result);
}

int make_room(uint64_t end) { return data.grows && *data.length < end ? resize_image(end) : 0; }

void reach(uint64_t end) {
  if (*data.length < end) set_length(end);
}

int lengthen(uint64_t end) {
  int result = make_room(end);
  if (result == 0) reach(end);
  return result;
}

/* Makes the bytes from `at` on zeros. Pages of zeros are not stored to. */
static void clear_from(size_t at) {
  while (at < *data.length) {
    size_t end = (at / KEFS_PAGE + 1) * KEFS_PAGE;
    if (end > *data.length) end = *data.length;
    while (at < end && data.base[at] == 0) at++;
    memset(data.base + at, 0, end - at);
    at = end;
  }
}

/* What the data file has lost reads as zeros when it grows again. */
static int shorten(uint64_t to) {
  pthread_rwlock_wrlock(&copying);
  if (!data.grows) clear_from((size_t)to);
  int result = data.grows ? resize_image(to) : 0;
  if (result == 0) set_length(to);
  pthread_rwlock_unlock(&copying);
  return result;
}

int resize(off_t to) {
  if (to < 0) return fail(EINVAL);
  if ((size_t)to > data.most) return too_long();
  pthread_mutex_lock(&lock);
  int result = (uint64_t)to < *data.length ? shorten((uint64_t)to) : lengthen((uint64_t)to);
  pthread_mutex_unlock(&lock);
  return result;
}

/* Which file is meant */

static unsigned changes;       /* how often the stand-in has become another file, or lent, or none */
static __thread unsigned seen; /* and how often it had when this thread asked last */

void set_stand_in(const struct stat *st) {
  pthread_mutex_lock(&lock);
  stand_in.number = st == NULL ? 0 : st->st_ino, stand_in.device = st == NULL ? 0 : st->st_dev;
  __atomic_add_fetch(&changes, 1, __ATOMIC_SEQ_CST);
  pthread_mutex_unlock(&lock);
}

int has_stand_in_open(void) {
  struct stat st = {.st_dev = stand_in.device, .st_ino = stand_in.number};
  return stand_in.number != 0 && has_descriptor(&st, -1);
}

int is_another(void) { return seen != __atomic_load_n(&changes, __ATOMIC_SEQ_CST); }
int is_to_repeat(ssize_t result) { return result == -1 && errno == ESTALE && is_another(); }

int is_data_file(const struct stat *st) { return !is_changing && !data.is_lent && is_stand_in_file(st); }

int is_stand_in(int fd) {
  struct stat st;
  int number = errno;
  seen = __atomic_load_n(&changes, __ATOMIC_SEQ_CST);
  int is = stand_in.number != 0 && fd >= 0 && NEXT(fstat)(fd, &st) == 0 && is_stand_in_file(&st);
  errno = number;
  return is;
}

int is_data(int fd) { return !is_changing && is_stand_in(fd) && !data.is_lent; }
int is_synced(int fd) { return !is_changing && is_stand_in(fd); }

const char *last_name(const char *path) {
  const char *slash = path == NULL ? NULL : strrchr(path, '/');
  return slash != NULL ? slash + 1 : path != NULL ? path : "";
}

int has_data_name(const char *path) { return has_image && !is_changing && strcmp(last_name(path), last_name(file)) == 0; }

int hold_name(const char *path) {
  if (!has_data_name(path)) return 0;
  pthread_mutex_lock(&lock);
  return 1;
}

void let_name_go(int is_held) {
  int number = errno;
  if (is_held) pthread_mutex_unlock(&lock);
  errno = number;
}

/* One that is made anew is empty but for a moment, and has its name. The system is asked no more than that of other files. */
int is_named_data(const struct stat *st, const char *path) {
  struct stat now;
  int number = errno;
  if (!has_image || is_changing || is_stand_in_file(st) || data.base != NULL || !S_ISREG(st->st_mode)) return is_data_file(st);
  if (st->st_size != 0 && strcmp(last_name(path), last_name(file)) != 0) return 0;
  int is = NEXT(stat)(file, &now) == 0 && now.st_ino == st->st_ino && now.st_dev == st->st_dev;
  if (is) set_stand_in(st);
  errno = number;
  return is;
}

/* Of a path that leads to nothing realpath gives what it leads to. */
static int would_lead_to_data(const char *path) {
  char absolute[PATH_MAX];
  struct stat st;
  if (!has_image || (strcmp(last_name(path), last_name(file)) != 0 && NEXT(lstat)(path, &st) != 0)) return 0;
  return realpath(path, absolute) == NULL && errno == ENOENT && strcmp(absolute, file) == 0;
}

int is_data_path(const char *path) {
  struct stat st;
  int number = errno;
  int is = NEXT(stat)(path, &st) == 0 ? is_named_data(&st, path) : would_lead_to_data(path);
  errno = number;
  return is;
}

void remove_left_over(void) {
  struct stat st;
  if (NEXT(lstat)(data_path(), &st) == 0 && S_ISREG(st.st_mode) && st.st_size == 0 && st.st_nlink == 1) NEXT(unlink)(data_path());
  set_stand_in(NULL);
}

/* Begin and end */

static void commit_at_end(void) { commit_own(); }

/* Reads the environment before the program begins. */
__attribute__((constructor)) static void begin(void) {
  const char *path = getenv("KEFS_FILE"), *at = getenv("KEFS_COMMIT_AT");
  struct stat st;
  has_image = path != NULL && getenv("KEFS_IMAGE") != NULL && snprintf(file, sizeof file, "%s", path) < (int)sizeof file;
  set_stand_in(has_image && NEXT(stat)(file, &st) == 0 && S_ISREG(st.st_mode) ? &st : NULL);
  commit_at = at != NULL && strcmp(at, "fsync") == 0 ? AT_FSYNC : at != NULL && strcmp(at, "part") == 0 ? AT_PART : EVERY;
  has_pieces = getenv("KEFS_PIECES") != NULL;
  first = getpid();
  pthread_atfork(NULL, NULL, begin_streams);
  at_quick_exit(commit_at_end);
  begin_streams();
}

/* How many commits there were, where it is asked for. */
static void say_counts(void) {
  struct kefs_stat stat = {.size = sizeof stat};
  if (getenv("KEFS_VERBOSE") == NULL || kefs_stat(image, &stat) != KEFS_OK) return;
  fprintf(stderr, "kefsrun: %lu commits of %lu pages, %lu syncs, tracker %s\n", (unsigned long)stat.commits, (unsigned long)stat.committed_pages,
          (unsigned long)stat.syncs, stat.tracker);
}

/* Whether bytes in the stand-in are known to somebody: to a process that has the image, or to the image. */
static int are_expected(void) {
  kefs_image *looked;
  struct contents found;
  if (image != NULL && owner == getpid()) return data.is_lent;
  int result = kefs_open(&looked, getenv("KEFS_IMAGE"), KEFS_RDONLY | KEFS_NOWAIT);
  if (result == KEFS_OK) result = read_contents(looked, &found), kefs_close(looked);
  return result == KEFS_BUSY || (result == KEFS_OK && found.is_unfinished);
}

/* Bytes in the empty file are what a call past the C library wrote, or a program that was not preloaded, as one that is linked statically: this one sees them too, where it
   ends after that. A child of fork leaves it to its parent. */
static void say_bypass(void) {
  struct stat st;
  if (!has_image || is_changing || getpid() != first) return;
  first = 0;
  if (NEXT(stat)(data_path(), &st) != 0 || !S_ISREG(st.st_mode) || st.st_size == 0 || are_expected()) return;
  say(data_path(), "a program wrote to it by a call that is not answered, and the image has none of that");
}

void end_program(void) {
  if (!is_inside && commit_own() == 0 && data.is_lent && owner == getpid()) end_lent(1);
  say_bypass();
}

static void end_image(void) {
  flush_streams();
  if (commit() == 0 && data.is_lent) end_lent(1);
  say_counts();
  let_go();
  is_over = 1;
}

__attribute__((destructor)) static void end(void) {
  pthread_mutex_lock(&lock);
  if (image != NULL) end_image();
  pthread_mutex_unlock(&lock);
  say_bypass();
}
