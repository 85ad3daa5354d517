/* Streams of stdio.h on the data file. Those of the C library read and write by calls of its own, which no preloaded library sees; so fopen and fdopen give a stream
   that reads and writes by the calls here, and that has the descriptor for fileno. C++'s file streams are made over those of fopen. */
#include "bridge.h"
#include <stdio_ext.h>
#include <string.h>
#include <unistd.h>

static int is_made; /* a stream was made */

static ssize_t read_stream(void *cookie, char *to, size_t bytes) { return read((int)(intptr_t)cookie, to, bytes); }
static int close_stream(void *cookie) { return close((int)(intptr_t)cookie); }

/* As stdio has it, 0 and errno say that nothing was written. */
static ssize_t write_stream(void *cookie, const char *from, size_t bytes) {
  ssize_t written = write((int)(intptr_t)cookie, from, bytes);
  return written < 0 ? 0 : written;
}

static int seek_stream(void *cookie, off64_t *to, int from) {
  off_t place = lseek((int)(intptr_t)cookie, *to, from);
  if (place < 0) return -1;
  *to = place;
  return 0;
}

static FILE *stream_of(int fd, const char *mode, cookie_close_function_t *closes) {
  FILE *stream = fopencookie((void *)(intptr_t)fd, mode, (cookie_io_functions_t){read_stream, write_stream, seek_stream, closes});
  if (stream == NULL) return NULL;
  stream->_fileno = fd, is_made = 1;
  return stream;
}

void flush_streams(void) {
  if (is_made || data.is_lent) fflush(NULL);
}

/* stdin and stdout, whose descriptors a program or a shell makes those of the data file for a while. */

static FILE *own[2], *usual[2]; /* streams of the data file, and what stood there before */
static pid_t self;              /* a child of vfork has this memory too, and another number: its descriptors are not these */

static FILE **place_of(int fd) { return fd == STDIN_FILENO ? &stdin : &stdout; }
static int has_own(int fd) { return (fd == STDIN_FILENO || fd == STDOUT_FILENO) && own[fd] != NULL && *place_of(fd) == own[fd] && getpid() == self; }

static int close_own(void *cookie) {
  own[(intptr_t)cookie] = NULL;
  return close_stream(cookie);
}

void before_change(int fd) {
  if (fd == STDOUT_FILENO && has_own(fd)) fflush(stdout);
}

/* Puts the stream of the data file in its place. What an earlier file's was read to is no part of it. */
static void take_place(int fd) {
  if (own[fd] == NULL) own[fd] = stream_of(fd, fd == STDIN_FILENO ? "r" : "w", close_own);
  if (own[fd] == NULL) return;
  if (fd == STDIN_FILENO) __fpurge(own[fd]);
  clearerr(own[fd]);
  usual[fd] = *place_of(fd), *place_of(fd) = own[fd];
}

int after_change(int fd) {
  if ((fd != STDIN_FILENO && fd != STDOUT_FILENO) || getpid() != self) return fd;
  if (!has_own(fd) && is_data(fd)) take_place(fd);
  else if (has_own(fd) && !is_data(fd)) *place_of(fd) = usual[fd];
  return fd;
}

void begin_streams(void) {
  self = getpid();
  after_change(STDIN_FILENO);
  after_change(STDOUT_FILENO);
}

/* The C library's list of its streams, as its own programs for debugging see it. */
extern FILE *_IO_list_all __attribute__((weak));
extern void _IO_list_lock(void) __attribute__((weak)), _IO_list_unlock(void) __attribute__((weak));

int has_stream(const struct stat *st) {
  struct stat it;
  int has = 0;
  if (&_IO_list_all == NULL || _IO_list_lock == NULL || _IO_list_unlock == NULL) return 0;
  _IO_list_lock();
  for (FILE *stream = _IO_list_all; stream != NULL && !has; stream = stream->_chain)
    has = stream->_fileno >= 0 && NEXT(fstat)(stream->_fileno, &it) == 0 && it.st_ino == st->st_ino && it.st_dev == st->st_dev;
  _IO_list_unlock();
  return has;
}

/* The flags of open that a mode of fopen means; -1 and errno for none, and for one that asks for a character set. */
static int flags_of(const char *mode) {
  int flags = *mode == 'r' ? 0 : *mode == 'w' ? O_CREAT | O_TRUNC : *mode == 'a' ? O_CREAT | O_APPEND : -1;
  if (flags < 0) return fail(EINVAL);
  if (strchr(mode, ',') != NULL) return refuse("a stream with a character set", EINVAL);
  flags |= strchr(mode, '+') != NULL ? O_RDWR : *mode == 'r' ? O_RDONLY : O_WRONLY;
  return flags | (strchr(mode, 'x') != NULL ? O_EXCL : 0) | (strchr(mode, 'e') != NULL ? O_CLOEXEC : 0);
}

FILE *fopen(const char *path, const char *mode) {
  if (!is_data_path(path)) return NEXT(fopen)(path, mode);
  int flags = flags_of(mode), fd = flags < 0 ? -1 : open(path, flags, 0666);
  FILE *stream = fd < 0 ? NULL : stream_of(fd, mode, close_stream);
  if (fd >= 0 && stream == NULL) close(fd);
  return stream;
}
FILE *fopen64(const char *path, const char *mode) { return fopen(path, mode); }

FILE *fdopen(int fd, const char *mode) {
  if (!is_data(fd)) return NEXT(fdopen)(fd, mode);
  return flags_of(mode) < 0 ? NULL : stream_of(fd, mode, close_stream);
}

/* A stream that is there, as stdin, keeps the calls that it was made with. */
FILE *freopen(const char *path, const char *mode, FILE *stream) {
  if (path != NULL && is_data_path(path)) return refuse("freopen", ENOTSUP), NULL;
  return NEXT(freopen)(path, mode, stream);
}
FILE *freopen64(const char *path, const char *mode, FILE *stream) { return freopen(path, mode, stream); }
