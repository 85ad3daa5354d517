/* recorder.so, preloaded: records the writes and syncs that a program makes of one file, in their order, for powercuts.py.
     RECORDED=/abs/path   the file, by the name that the program opens it by
     LOGGED=/abs/path     its log, which is recorded beside it; else that has the same path and .wal at its end
     TRACE=/abs/path      the trace, which is made anew
   What a program stores to a shared mapping is found when it makes a call of the file, a sector at a time: what the kernel writes
   back by itself between two calls is not seen. For programs of one thread. */
#define _GNU_SOURCE
#include "next.h"
#include <fcntl.h>
#include <stdarg.h>
#include <stdint.h>
#include <stdio.h>
#include <stdlib.h>
#include <string.h>
#include <sys/mman.h>
#include <sys/stat.h>
#include <sys/uio.h>
#include <unistd.h>

enum { PAGE = 4096, SECTOR = 512, FDS = 1024, MAPPED_MOST = 1 << 28 };

/* An event of the trace: this head, and of a write its bytes. Sectors that one call wrote, or that were found at one look, have the
   same number of a call. */
enum kind { WRITE = 1, SYNC = 2, LENGTH = 3, ACKNOWLEDGED = 4 };
enum file { DATA = 0, LOG = 1 };
#define NO_FILE UINT64_MAX /* the length of a file that is not there */
struct event { uint16_t kind, file; uint32_t call; uint64_t at, length; };

static const char *recorded;
static char logged[4096];
static int trace = -1;
static struct { int is_recorded, is_dsync; enum file file; } opened[FDS];
static int readable[2] = {-1, -1};       /* by which descriptor the bytes of a file are read */
static uint64_t known[2] = {0, NO_FILE}; /* the length that the trace has last */
static uint32_t call;
static unsigned char *mapped, *shadow;   /* the data as it is mapped, and as the trace has it */
static size_t mapped_length;

static void quit(const char *why) {
  fprintf(stderr, "recorder: %s\n", why);
  abort();
}

/* Reads what the file holds already, so that it is not taken for written. */
static void read_file(void) {
  int fd = NEXT(open)(recorded, O_RDONLY | O_CLOEXEC);
  if (fd < 0) return;
  ssize_t length = NEXT(pread)(fd, shadow, MAPPED_MOST, 0);
  if (length < 0 || length == MAPPED_MOST) quit("the file cannot be read, or is too large");
  known[DATA] = (uint64_t)length;
  NEXT(close)(fd);
}

/* Reads the environment before the program begins. One that names no file is not recorded. */
__attribute__((constructor)) static void begin(void) {
  const char *path = getenv("RECORDED");
  if (path == NULL || getenv("TRACE") == NULL) return;
  trace = NEXT(open)(getenv("TRACE"), O_CREAT | O_TRUNC | O_WRONLY | O_APPEND | O_CLOEXEC, 0644);
  shadow = NEXT(mmap)(NULL, MAPPED_MOST, PROT_READ | PROT_WRITE, MAP_PRIVATE | MAP_ANONYMOUS | MAP_NORESERVE, -1, 0);
  if (trace < 0 || shadow == MAP_FAILED) quit("no trace");
  recorded = path;
  if (getenv("LOGGED") != NULL) snprintf(logged, sizeof logged, "%s", getenv("LOGGED"));
  else snprintf(logged, sizeof logged, "%s.wal", path);
  read_file();
}

static void append(enum kind kind, enum file file, uint64_t at, const void *bytes, uint64_t length) {
  struct event event = {(uint16_t)kind, (uint16_t)file, call, at, length};
  struct iovec parts[2] = {{&event, sizeof event}, {(void *)bytes, bytes == NULL ? 0 : length}};
  if (trace >= 0 && NEXT(writev)(trace, parts, 2) < 0) quit("the trace cannot be written");
}

static void note_write(enum file file, uint64_t at, const void *row) { append(WRITE, file, at, row, SECTOR); }

/* Notes an event that is a call of its own. `at`: a new length, the number of a transaction, 0 of a sync. */
static void note(enum kind kind, enum file file, uint64_t at) {
  call++;
  append(kind, file, at, NULL, 0);
  call++;
}

static void set_length(enum file file, uint64_t length) { note(LENGTH, file, known[file] = length); }

static void note_length(enum file file) {
  struct stat st;
  if (readable[file] >= 0 && NEXT(fstat)(readable[file], &st) == 0 && (uint64_t)st.st_size != known[file]) set_length(file, (uint64_t)st.st_size);
}

/* Notes each sector of the mapped data that differs from what the trace has. */
static void look(void) {
  if (trace < 0 || readable[DATA] < 0) return;
  call++;
  note_length(DATA);
  if (mapped == NULL) return;
  size_t end = known[DATA] < mapped_length ? known[DATA] : mapped_length;
  for (size_t page = 0; page < end; page += PAGE) {
    if (memcmp(mapped + page, shadow + page, PAGE) == 0) continue;
    for (size_t at = page; at < page + PAGE; at += SECTOR)
      if (memcmp(mapped + at, shadow + at, SECTOR) != 0) note_write(DATA, at, memcpy(shadow + at, mapped + at, SECTOR));
  }
}

/* The workload calls it when a transaction was acknowledged. */
void recorder_acknowledged(uint32_t number) {
  look();
  note(ACKNOWLEDGED, DATA, number);
}

static int is_recorded(int fd) { return fd >= 0 && fd < FDS && opened[fd].is_recorded; }

/* Notes the sectors that a call wrote, whole: the bytes beside the call's own are read. */
static void wrote(int fd, off_t at, ssize_t length) {
  enum file file = opened[fd].file;
  call++;
  if (readable[file] < 0) quit("a file that is opened for writing alone");
  for (off_t sector = at / SECTOR * SECTOR; sector < at + length; sector += SECTOR) {
    unsigned char row[SECTOR] = {0};
    if (NEXT(pread)(readable[file], row, SECTOR, sector) < 0) quit("a sector cannot be read again");
    note_write(file, (uint64_t)sector, row);
    if (file == DATA && sector < MAPPED_MOST) memcpy(shadow + sector, row, SECTOR);
  }
  note_length(file);
  if (opened[fd].is_dsync) note(SYNC, file, 0);
}

/* Opening */

/* 0 for the data, 1 for the log, -1 for any other file. */
static int file_of(const char *path) {
  if (recorded == NULL) return -1;
  return strcmp(path, recorded) == 0 ? DATA : strcmp(path, logged) == 0 ? LOG : -1;
}

static int after_open(int fd, const char *path, int flags) {
  int file = fd < 0 ? -1 : file_of(path);
  if (file < 0) return fd;
  if (fd >= FDS) quit("too many descriptors");
  opened[fd].is_recorded = 1, opened[fd].file = (enum file)file, opened[fd].is_dsync = (flags & O_DSYNC) != 0;
  if ((flags & O_ACCMODE) == O_RDWR) readable[file] = fd;
  look();
  note_length((enum file)file);
  return fd;
}

static int mode_of(int flags, va_list rest) { return flags & (O_CREAT | O_TMPFILE) ? va_arg(rest, int) : 0; }

int open(const char *path, int flags, ...) {
  va_list rest;
  va_start(rest, flags);
  int mode = mode_of(flags, rest);
  va_end(rest);
  return after_open(NEXT(open)(path, flags, mode), path, flags);
}

int open64(const char *path, int flags, ...) {
  va_list rest;
  va_start(rest, flags);
  int mode = mode_of(flags, rest);
  va_end(rest);
  return after_open(NEXT(open64)(path, flags, mode), path, flags);
}

int unlink(const char *path) {
  int is_log = file_of(path) == LOG;
  if (is_log) look();
  int result = NEXT(unlink)(path);
  if (result == 0 && is_log) set_length(LOG, NO_FILE);
  return result;
}

int close(int fd) {
  if (is_recorded(fd)) {
    look();
    if (readable[opened[fd].file] == fd) readable[opened[fd].file] = -1;
    opened[fd].is_recorded = 0;
  }
  return NEXT(close)(fd);
}

/* Mapping */

void *mmap(void *wanted, size_t length, int prot, int flags, int fd, off_t offset) {
  void *at = NEXT(mmap)(wanted, length, prot, flags, fd, offset);
  if (at == MAP_FAILED || !is_recorded(fd) || !(prot & PROT_WRITE) || !(flags & MAP_SHARED)) return at;
  if (offset != 0 || length > MAPPED_MOST) quit("a mapping that is too large, or begins within the file");
  mapped = at, mapped_length = length;
  return at;
}
void *mmap64(void *wanted, size_t length, int prot, int flags, int fd, off_t offset) { return mmap(wanted, length, prot, flags, fd, offset); }

int munmap(void *at, size_t length) {
  if (at != NULL && at == mapped) look(), mapped = NULL;
  return NEXT(munmap)(at, length);
}

int msync(void *at, size_t length, int flags) {
  int is_data = mapped != NULL && (unsigned char *)at >= mapped && (unsigned char *)at < mapped + mapped_length;
  if (is_data) look();
  int result = NEXT(msync)(at, length, flags);
  if (is_data && flags & MS_SYNC) note(SYNC, DATA, 0);
  return result;
}

/* Calls of a descriptor */

/* A sync of a folder, which is the log's, keeps its name, or that it has none. */
static int is_folder(int fd) {
  struct stat st;
  return trace >= 0 && NEXT(fstat)(fd, &st) == 0 && S_ISDIR(st.st_mode);
}

static int synced(int fd, int (*next)(int)) {
  int is_noted = is_recorded(fd) || is_folder(fd);
  if (is_noted) look();
  int result = next(fd);
  if (is_noted) note(SYNC, is_recorded(fd) ? opened[fd].file : LOG, 0);
  return result;
}
int fsync(int fd) { return synced(fd, NEXT(fsync)); }
int fdatasync(int fd) { return synced(fd, NEXT(fdatasync)); }

ssize_t pwritev(int fd, const struct iovec *parts, int count, off_t at) {
  if (is_recorded(fd)) look();
  ssize_t result = NEXT(pwritev)(fd, parts, count, at);
  if (is_recorded(fd) && result > 0) wrote(fd, at, result);
  return result;
}
ssize_t pwritev64(int fd, const struct iovec *parts, int count, off_t at) { return pwritev(fd, parts, count, at); }

ssize_t pwrite(int fd, const void *from, size_t length, off_t at) { return pwritev(fd, &(struct iovec){(void *)from, length}, 1, at); }
ssize_t pwrite64(int fd, const void *from, size_t length, off_t at) { return pwrite(fd, from, length, at); }

ssize_t writev(int fd, const struct iovec *parts, int count) {
  if (!is_recorded(fd)) return NEXT(writev)(fd, parts, count);
  look();
  off_t at = NEXT(lseek)(fd, 0, SEEK_CUR);
  ssize_t result = NEXT(writev)(fd, parts, count);
  if (result > 0) wrote(fd, at, result);
  return result;
}
ssize_t write(int fd, const void *from, size_t length) { return writev(fd, &(struct iovec){(void *)from, length}, 1); }

/* A hole is zeros, written by one call. Room is none of it. */
int fallocate(int fd, int mode, off_t at, off_t length) {
  int empties = (mode & (FALLOC_FL_PUNCH_HOLE | FALLOC_FL_ZERO_RANGE)) != 0;
  if (is_recorded(fd)) look();
  int result = NEXT(fallocate)(fd, mode, at, length);
  if (is_recorded(fd) && result == 0 && empties) wrote(fd, at, (ssize_t)length);
  return result;
}
int fallocate64(int fd, int mode, off_t at, off_t length) { return fallocate(fd, mode, at, length); }

int ftruncate(int fd, off_t length) {
  if (is_recorded(fd)) look();
  int result = NEXT(ftruncate)(fd, length);
  if (is_recorded(fd)) note_length(opened[fd].file);
  return result;
}
int ftruncate64(int fd, off_t length) { return ftruncate(fd, length); }
