/* What the tests of files that get other lengths share. A program says its name in PROGRAM before it takes this in. */
#ifndef KEFS_GROWS_H
#define KEFS_GROWS_H
#include "cases.h"
#include <errno.h>
#include <setjmp.h>
#include <sys/syscall.h>
#include <sys/uio.h>

enum { KEPT = 8 << 20 };

/* A device of which one call fails, or is the last of the process */

static long calls_left = -1; /* writes, holes and syncs until the one that fails, or none does */
static int failing_number;   /* the errno value, or 0: the process ends */
static int modes_without;    /* modes of fallocate(2) that the file system has not */
static int waits_for_no_disk; /* syncs do nothing: what a process has written is there when it has ended */

static inline int fails(void) {
  if (calls_left < 0 || calls_left-- > 0) return 0;
  if (failing_number == 0) kill(getpid(), SIGKILL);
  return errno = failing_number, 1;
}

int fdatasync(int fd) { return fails() ? -1 : waits_for_no_disk ? 0 : (int)syscall(SYS_fdatasync, fd); }
ssize_t pwrite(int fd, const void *bytes, size_t length, off_t at) { return fails() ? -1 : syscall(SYS_pwrite64, fd, bytes, length, at); }
ssize_t pwritev(int fd, const struct iovec *parts, int count, off_t at) { return fails() ? -1 : syscall(SYS_pwritev, fd, parts, count, at, 0); }

int fallocate(int fd, int mode, off_t at, off_t length) {
  if ((mode & modes_without) != 0) return errno = EOPNOTSUPP, -1;
  if ((mode & (FALLOC_FL_PUNCH_HOLE | FALLOC_FL_ZERO_RANGE)) != 0 && fails()) return -1;
  return (int)syscall(SYS_fallocate, fd, mode, at, length);
}

/* Files */

static inline unsigned char *map_growing(unsigned file) {
  void *at;
  DONE(kefs_map_growing(image, file, NULL, KEPT, &at, NULL));
  CHECK(at != NULL);
  return at;
}

/* Files of these lengths, file 0 full of a byte and mapped so that it may grow. */
static inline void begin_with(uint32_t length, unsigned char byte, uint32_t other) {
  unsigned char *content = malloc(length + 1);
  memset(content, byte, length);
  struct kefs_file files[] = {{length, 0, content}, {other, 0, NULL}, {PAGE, KEFS_FILE_READ_ONLY, NULL}};
  unlink(PATH);
  DONE(kefs_format(PATH, 0600, files, COUNT_OF(files)));
  free(content);
  DONE(kefs_open(&image, PATH, flags));
  a = map_growing(0);
}

static inline void reopen(void) {
  DONE(kefs_close(image));
  DONE(kefs_open(&image, PATH, flags));
  a = map_growing(0);
}

static inline size_t length_of(unsigned file) {
  size_t length;
  DONE(kefs_length(image, file, &length));
  return length;
}

static inline size_t committed(void) {
  size_t taken, dirty = written();
  DONE(kefs_commit(image, NULL, 0, &taken));
  CHECK(taken == dirty && written() == 0);
  return taken;
}

static inline struct kefs_stat facts(void) {
  struct kefs_stat stat = {.size = sizeof stat};
  DONE(kefs_stat(image, &stat));
  return stat;
}

static inline int is_full_of(const unsigned char *at, size_t length, unsigned char byte) {
  return length == 0 || (at[0] == byte && memcmp(at, at + 1, length - 1) == 0);
}

/* Whether file 0 is `full` bytes of this, and then zeros up to this length. */
static inline int is_file(size_t full, unsigned char byte, size_t length) {
  return length_of(0) == length && is_full_of(a, full, byte) && is_full_of(a + full, length - full, 0);
}

/* Whether a system call may store to a byte, as it may where the page is dirty. */
static inline int is_open_to_calls(unsigned char *at) {
  int fd = open("/dev/zero", O_RDONLY | O_CLOEXEC);
  ssize_t made = read(fd, at, 1);
  close(fd);
  return made == 1;
}

/* Touches past the end */

/* The handlers are there before any image is opened, which passes on to them what is not its own. */
static sigjmp_buf elsewhere;
static volatile int is_touching;

static inline void on_fault(int number) {
  if (!is_touching) signal(number, SIG_DFL);
  else siglongjmp(elsewhere, number);
}

/* The signal that a touch gives, or 0. */
static inline int signal_of_touch(volatile unsigned char *at, int stores) {
  int number = sigsetjmp(elsewhere, 1);
  is_touching = number == 0;
  if (number == 0 && stores) *at = 1;
  else if (number == 0) (void)*at;
  is_touching = 0;
  return number;
}

static inline int is_outside(unsigned char *at) { return signal_of_touch(at, 0) == SIGBUS && signal_of_touch(at, 1) == SIGBUS; }

static inline int run_growing(int argc, char **argv, const struct test *once, size_t count, const struct test *with_each_tracker, size_t each) {
  signal(SIGBUS, on_fault), signal(SIGSEGV, on_fault);
  return argc < 2 ? 2 : run_cases(argv, once, count, with_each_tracker, each);
}
#endif
