/* killer.so, preloaded: kills a program before one of its calls that change a file or a name, for test_names.py.
     KILL_AT=n      the call, from 1 on; fewer calls than that are all made. Programs that it calls go on */
#define _GNU_SOURCE
#include "next.h"
#include <fcntl.h>
#include <signal.h>
#include <stdarg.h>
#include <stdlib.h>
#include <sys/types.h>
#include <sys/uio.h>
#include <unistd.h>

static long left; /* calls until the one that is not made */

__attribute__((constructor)) static void begin(void) {
  const char *at = getenv("KILL_AT");
  if (at != NULL) left = atol(at);
  unsetenv("KILL_AT");
}

static void count(void) {
  if (left > 0 && --left == 0) kill(getpid(), SIGKILL);
}

/* A call by its name, its parameters and its arguments. */
#define COUNTED(type, name, parameters, arguments) \
  type name parameters { \
    count(); \
    return NEXT(name) arguments; \
  }
COUNTED(ssize_t, pwrite, (int fd, const void *from, size_t bytes, off_t at), (fd, from, bytes, at))
COUNTED(ssize_t, pwrite64, (int fd, const void *from, size_t bytes, off_t at), (fd, from, bytes, at))
COUNTED(ssize_t, pwritev, (int fd, const struct iovec *parts, int count_, off_t at), (fd, parts, count_, at))
COUNTED(ssize_t, pwritev64, (int fd, const struct iovec *parts, int count_, off_t at), (fd, parts, count_, at))
COUNTED(int, fsync, (int fd), (fd))
COUNTED(int, fdatasync, (int fd), (fd))
COUNTED(int, ftruncate, (int fd, off_t to), (fd, to))
COUNTED(int, ftruncate64, (int fd, off_t to), (fd, to))
COUNTED(int, unlink, (const char *path), (path))
COUNTED(int, unlinkat, (int folder, const char *path, int flags), (folder, path, flags))
COUNTED(int, rename, (const char *from, const char *to), (from, to))
COUNTED(int, renameat, (int folder, const char *from, int to_folder, const char *to), (folder, from, to_folder, to))
COUNTED(int, renameat2, (int folder, const char *from, int to_folder, const char *to, unsigned flags), (folder, from, to_folder, to, flags))

/* Those that may make a file. */
#define COUNTED_OPEN(name, parameters, ...) \
  int name parameters { \
    va_list rest; \
    va_start(rest, flags); \
    unsigned mode = flags & (O_CREAT | O_TMPFILE) ? va_arg(rest, unsigned) : 0; \
    va_end(rest); \
    if (flags & O_CREAT) count(); \
    return NEXT(name)(__VA_ARGS__, flags, mode); \
  }
COUNTED_OPEN(open, (const char *path, int flags, ...), path)
COUNTED_OPEN(open64, (const char *path, int flags, ...), path)
COUNTED_OPEN(openat, (int folder, const char *path, int flags, ...), folder, path)
COUNTED_OPEN(openat64, (int folder, const char *path, int flags, ...), folder, path)
