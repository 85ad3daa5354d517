/* What the tests of readers beside a writer share: images, of the layout that tests.h says, processes that stop, calls that fail, and cases that are
   run each in a process of its own, which has to end well and in time. */
#ifndef KEFS_READERS_TESTS_H
#define KEFS_READERS_TESTS_H
#include "tests.h"
#include <errno.h>
#include <fcntl.h>
#include <poll.h>
#include <pthread.h>
#include <setjmp.h>
#include <signal.h>
#include <stdio.h>
#include <stdlib.h>
#include <string.h>
#include <sys/file.h>
#include <sys/mman.h>
#include <sys/prctl.h>
#include <sys/resource.h>
#include <sys/stat.h>
#include <sys/syscall.h>
#include <sys/uio.h>
#include <sys/wait.h>
#include <time.h>
#include <unistd.h>

enum { PAGE = KEFS_PAGE, PAGES = 64, TWO_TURNS = 1500, LIMIT = 300 }; /* pages of an image that is read in one turn, and in two */
static const char *const PATH = "readers.img";
static kefs_image *writer, *reader;
static unsigned char *a, *r; /* file 0 as the writer has it, and the reader */

static inline void check_that(int holds, const char *what, const char *file, int line) {
  if (!holds) dprintf(2, "%s:%d: not so: %s (%s)\n", file, line, what, kefs_errmsg(NULL)), _exit(1);
}
#define CHECK(condition) check_that((condition) != 0, #condition, __FILE__, __LINE__)

static inline void check_result(int wanted, int result, const char *call, const char *file, int line) {
  const char *words = kefs_strerror(result);
  if (result != wanted) dprintf(2, "%s:%d: %s returned %s: %s (%s)\n", file, line, call, kefs_name(result), words, kefs_errmsg(NULL)), _exit(1);
}
#define RETURNS(wanted, call) check_result(wanted, call, #call, __FILE__, __LINE__)
#define DONE(call) RETURNS(KEFS_OK, call)

static inline double now(void) {
  struct timespec time;
  clock_gettime(CLOCK_MONOTONIC, &time);
  return (double)time.tv_sec + (double)time.tv_nsec * 1e-9;
}

/* The exit status of a child, or -1 where a signal ended it. */
static inline int status_of(pid_t child) {
  int status;
  return waitpid(child, &status, 0) == child && WIFEXITED(status) ? WEXITSTATUS(status) : -1;
}

/* Kills a child: whether it had not ended well before. */
static inline int end_child(pid_t child) {
  kill(child, SIGKILL);
  int status = status_of(child);
  CHECK(status == 0 || status == -1);
  return status == -1;
}

/* Memory that children share. */
static inline void *shared_memory(size_t length) {
  void *at = mmap(NULL, length, PROT_READ | PROT_WRITE, MAP_SHARED | MAP_ANONYMOUS, -1, 0);
  CHECK(at != MAP_FAILED);
  return at;
}

static inline long get(const long *at) { return __atomic_load_n(at, __ATOMIC_SEQ_CST); }
static inline void set(long *at, long value) { __atomic_store_n(at, value, __ATOMIC_SEQ_CST); }

static inline void raise_to(long *at, long value) {
  for (long old = get(at); old < value && !__atomic_compare_exchange_n(at, &old, value, 0, __ATOMIC_SEQ_CST, __ATOMIC_SEQ_CST);) continue;
}

/* Calls of the library, which a case may hold up, or have fail */

static void (*before_sync)(void), (*before_write)(void), (*before_read)(void);
static int failing_sync, failing_read;
static long bytes_read, drops; /* of host files, and how often the system was told to drop what it keeps */

int fdatasync(int fd) {
  if (before_sync != NULL) before_sync();
  if (failing_sync > 0 && --failing_sync == 0) return errno = EIO, -1;
  return (int)syscall(SYS_fdatasync, fd);
}

ssize_t pwritev(int fd, const struct iovec *parts, int count, off_t at) {
  if (before_write != NULL) before_write();
  return syscall(SYS_pwritev, fd, parts, count, at, 0);
}

ssize_t pwrite(int fd, const void *from, size_t bytes, off_t at) {
  if (before_write != NULL) before_write();
  return syscall(SYS_pwrite64, fd, from, bytes, at);
}

ssize_t pread(int fd, void *to, size_t bytes, off_t at) {
  if (before_read != NULL) before_read();
  if (failing_read > 0 && --failing_read == 0) return errno = EIO, -1;
  __atomic_add_fetch(&bytes_read, (long)bytes, __ATOMIC_SEQ_CST);
  return syscall(SYS_pread64, fd, to, bytes, at);
}

int posix_fadvise(int fd, off_t at, off_t length, int advice) {
  drops += at == 0 && length == 0 && advice == POSIX_FADV_DONTNEED;
  return (int)syscall(SYS_fadvise64, fd, at, length, advice);
}

static _Thread_local double slept; /* seconds that waits of this thread were to sleep */

int ppoll(struct pollfd *of, nfds_t count, const struct timespec *pause, const sigset_t *blocked) {
  struct timespec left = *pause;
  slept += (double)pause->tv_sec + (double)pause->tv_nsec * 1e-9;
  return (int)syscall(SYS_ppoll, of, count, &left, blocked, (size_t)8);
}

static inline void stop(void) { raise(SIGSTOP); }

/* Images */

static inline void make_files(const char *path, const struct kefs_file *files, size_t count) {
  unlink(path);
  DONE(format_image(path, 0600, files, count));
}

static inline void make_file(const char *path, uint32_t length, unsigned char byte) {
  unsigned char *content = malloc(length);
  memset(content, byte, length);
  make_files(path, &(struct kefs_file){length, 0, content}, 1);
  free(content);
}

static inline void *opened(kefs_image **to, const char *path, unsigned flags) {
  void *at;
  DONE(kefs_open(to, path, flags));
  DONE(kefs_map(*to, 0, NULL, &at, NULL));
  return at;
}

static inline void open_reader(void) { r = opened(&reader, PATH, KEFS_SNAPSHOT); }

static inline void begin(uint32_t pages) {
  make_file(PATH, pages * PAGE, 0);
  a = opened(&writer, PATH, 0);
  open_reader();
}

static inline void end(void) {
  DONE(kefs_close(reader));
  DONE(kefs_close(writer));
}

static inline void commit(int page, unsigned char value) {
  a[(size_t)page * PAGE] = value;
  DONE(kefs_commit(writer, NULL, 0, NULL));
}

static inline int refreshed(void) {
  int changed = 9;
  DONE(kefs_refresh(reader, &changed));
  return changed;
}

static inline int opened_within(kefs_image **to, unsigned flags, uint32_t wait) {
  struct kefs_options options = {.size = sizeof options, .wait = wait};
  return kefs_open_with(to, PATH, flags, &options);
}

/* Processes that stop */

static inline void takes(double least, double most, double start) {
  double taken = now() - start;
  if (taken < least || taken > most) dprintf(2, "it took %.0f ms, and not %.0f to %.0f\n", taken * 1e3, least * 1e3, most * 1e3), _exit(1);
}

/* A process with the image open to write, that runs `then`. */
static inline pid_t other_writer(void (*then)(void)) {
  pid_t child = fork();
  if (child != 0) return child;
  prctl(PR_SET_PDEATHSIG, SIGKILL);
  a = opened(&writer, PATH, 0);
  then();
  _exit(0);
}

static inline void stopped(pid_t child) {
  int status;
  CHECK(waitpid(child, &status, WUNTRACED) == child && WIFSTOPPED(status));
}

/* Lets it go on to its end. */
static inline void let_end(pid_t child) {
  int status = 0;
  do CHECK(kill(child, SIGCONT) == 0 && waitpid(child, &status, WUNTRACED) == child);
  while (WIFSTOPPED(status));
  CHECK(WIFEXITED(status) && WEXITSTATUS(status) == 0);
}

static inline void let_go_on(pid_t child) {
  CHECK(kill(child, SIGCONT) == 0);
  stopped(child);
}

/* Running */

struct test { void (*run)(void); const char *name; };
#define TEST(name) {name, #name}

static inline int try(const struct test *test) {
  fflush(NULL);
  double start = now();
  pid_t child = fork();
  if (child == 0) {
    alarm(LIMIT);
    srandom((unsigned)getpid());
    test->run();
    fflush(NULL);
    _exit(0);
  }
  int status = 0;
  waitpid(child, &status, 0);
  if (getenv("TIMES") != NULL) printf("%6.2f s %s\n", now() - start, test->name);
  if (WIFSIGNALED(status)) printf("%s: signal %d\n", test->name, WTERMSIG(status));
  if (status != 0) printf("%s: FAILED\n", test->name);
  return status != 0;
}

static inline int is_chosen(const char *name, const char *chosen) {
  return chosen == NULL || (*chosen == '-' ? strcmp(name, chosen + 1) != 0 : strcmp(name, chosen) == 0);
}

/* All of them, that of this name, or after a minus all but it: the exit status of the program. */
static inline int try_all(const char *program, const struct test *tests, size_t count, const char *chosen) {
  int tried = 0, failed = 0;
  for (size_t i = 0; i < count; i++)
    if (is_chosen(tests[i].name, chosen)) failed += try(&tests[i]), tried++;
  printf("%s: %d cases: %d failed\n", program, tried, failed);
  return failed > 0;
}
#endif
