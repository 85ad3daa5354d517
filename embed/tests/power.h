/* A device for programs of cases (cases.h): calls that the library makes of the image, of which one may fail, or be the last before power is cut. What was written
   since the last sync is then there in some sectors and not in others. */
#ifndef KEFS_POWER_H
#define KEFS_POWER_H
#include "cases.h"
#include <errno.h>
#include <sys/syscall.h>
#include <sys/uio.h>

enum { MOST_UNSYNCED = 1 << 15, SECTOR = 512, IS_CUT = SIGKILL /* what wait(2) says of the process */ };
static struct unsynced { int fd; off_t at; unsigned char before[SECTOR]; } unsynced[MOST_UNSYNCED];
static size_t unsynced_count;
static int is_armed, is_failing; /* calls count; and the last one of them fails, and power is not cut */
static long calls, last_call;

/* Of what was not synced some sectors have reached the disk. */
static inline void cut_power(void) {
  for (size_t i = unsynced_count; i-- > 0;)
    if (random() % 2 == 0) syscall(SYS_pwrite64, unsynced[i].fd, unsynced[i].before, SECTOR, unsynced[i].at);
  raise(SIGKILL);
}

static inline int fails(void) {
  if (!is_armed || ++calls != last_call) return 0;
  if (!is_failing) cut_power();
  return errno = EIO, 1;
}

static inline void note_write(int fd, off_t at, size_t length) {
  for (size_t done = 0; done < length && is_armed; done += SECTOR) {
    struct unsynced *it = &unsynced[unsynced_count++];
    CHECK(unsynced_count < MOST_UNSYNCED);
    *it = (struct unsynced){.fd = fd, .at = at + (off_t)done};
    CHECK(pread(fd, it->before, SECTOR, it->at) >= 0);
  }
}

ssize_t pwritev(int fd, const struct iovec *parts, int count, off_t at) {
  ssize_t made = 0;
  if (fails()) return -1;
  for (const struct iovec *part = parts; part < parts + count; at += (off_t)part++->iov_len) {
    note_write(fd, at, part->iov_len);
    ssize_t length = syscall(SYS_pwrite64, fd, part->iov_base, part->iov_len, at);
    if (length < 0) return -1;
    made += length;
  }
  return made;
}

ssize_t pwrite(int fd, const void *from, size_t length, off_t at) { return pwritev(fd, &(struct iovec){(void *)(uintptr_t)from, length}, 1, at); }

/* What becomes a hole is written as any other bytes are. Room is none of it. */
int fallocate(int fd, int mode, off_t at, off_t length) {
  if ((mode & (FALLOC_FL_PUNCH_HOLE | FALLOC_FL_ZERO_RANGE)) != 0) {
    if (fails()) return -1;
    note_write(fd, at, (size_t)length);
  }
  return (int)syscall(SYS_fallocate, fd, mode, at, length);
}

/* What is made durable is seen after the cut alone, and no test waits for a disk. */
int fdatasync(int fd) {
  (void)fd;
  if (fails()) return -1;
  unsynced_count = 0;
  return 0;
}

int fsync(int fd) { return fdatasync(fd); }
#endif
