/* A device for tests that cut power. The calls on files that the library makes are those of the program that includes this. Of those on the file that is
   watched it is noted what they write, zeros of holes too, and how long they make it, and what a sync makes durable of it. What a power cut may leave is put into another
   file: each sector that was not synced as it was, as it became, cut in its midst or of any bytes; in blocks of 4,096 bytes that have such a sector
   others of any bytes too; and the file with any length that it had since the last sync. A sync that fails leaves its sectors unsynced and clean:
   some have reached the disk, no later sync writes the others, and reads show them until the system is told to drop what it keeps. */
#ifndef KEFS_DEVICE_H
#define KEFS_DEVICE_H
#include <errno.h>
#include <fcntl.h>
#include <stdarg.h>
#include <stdint.h>
#include <stdio.h>
#include <stdlib.h>
#include <string.h>
#include <sys/mman.h>
#include <sys/syscall.h>
#include <sys/uio.h>
#include <unistd.h>

enum { SECTOR = 512, BLOCK = 8, MOST_SECTORS = 1 << 18, MOST_LENGTHS = 16, FILLINGS = 4 };
static const char *const LEFT = "lengths_left.img";

/* Sectors, each once. */
struct sectors_of { uint32_t list[MOST_SECTORS]; unsigned char has[MOST_SECTORS]; size_t count; };

static unsigned char disk[SECTOR * MOST_SECTORS], cached[SECTOR * MOST_SECTORS]; /* what the disk holds, and what a read gives */
static struct sectors_of dirty, lost, changed; /* that the next sync writes; that none writes; and in which the file that is left is not as the disk */
static off_t synced_length, lengths[MOST_LENGTHS]; /* of the file: as synced, and those that it has had since */
static int length_count;
static unsigned char *left;              /* the file that is left, mapped, */
static off_t left_length;                /* and its length */
static const char *watched_path = "";
static int watched = -1, left_file = -1; /* their descriptors */
static size_t piece = SIZE_MAX;          /* a write of more bytes is several */
static long calls, failing;              /* how many there were, and the one that fails, or 0 */
static int failing_number = EIO, reaching; /* with what, and how many of four dirty sectors reach the disk in a sync that fails */
static long syncs, left_out;             /* and the sync that is left out, as a control, or 0 */
static long holes, zeroed;               /* calls that made zeros of many sectors, and sectors that were other bytes before */
static int leaves_bytes;                 /* these calls do nothing, as a control */
static int modes_without;                /* modes of fallocate(2) that the file system has not */
static int is_cutting;                   /* power is cut before each call */
static void cut_power(void);

static void die(const char *what) { perror(what), exit(1); }

static void add_sector(struct sectors_of *to, size_t sector) {
  if (!to->has[sector]) to->has[sector] = 1, to->list[to->count++] = (uint32_t)sector;
}

static void drop_all(struct sectors_of *of) {
  for (size_t i = 0; i < of->count; i++) of->has[of->list[i]] = 0;
  of->count = 0;
}

static void add_bytes(struct sectors_of *to, off_t at, size_t length) {
  int fits = at % SECTOR == 0 && length % SECTOR == 0 && at / SECTOR + length / SECTOR <= MOST_SECTORS;
  if (!fits) fprintf(stderr, "device: %zu bytes at %ld\n", length, (long)at), exit(1);
  for (size_t s = 0; s < length / SECTOR; s++) add_sector(to, (size_t)at / SECTOR + s);
}

static off_t length_now(void) { return length_count == 0 ? synced_length : lengths[length_count - 1]; }

/* What is left */

static void set_left_length(off_t length) {
  if (length != left_length && syscall(SYS_truncate, LEFT, length) != 0) die(LEFT);
  left_length = length;
}

static off_t choose_length(int filling) {
  int n = filling == 0 ? -1 : filling == 1 ? length_count - 1 : (int)(random() % (length_count + 1)) - 1;
  return n < 0 ? synced_length : lengths[n];
}

/* A sector as it was, as it became, cut in its midst, or of any bytes. */
static void fill_sector(size_t sector, int way) {
  unsigned char *to = left + SECTOR * sector;
  size_t cut = way == 0 ? 0 : way == 1 ? SECTOR : (size_t)random() % SECTOR;
  memcpy(to, cached + SECTOR * sector, cut);
  for (size_t i = 0; way == 3 && i < SECTOR; i++) to[i] = (unsigned char)random();
  add_sector(&changed, sector);
}

/* The sectors of a block that were not written have other bytes too. */
static void tear_block(size_t sector, size_t end) {
  for (size_t s = sector / BLOCK * BLOCK, stop = s + BLOCK; s < stop && stop <= end; s++)
    if (!dirty.has[s] && !changed.has[s]) fill_sector(s, 3);
}

/* In half of the fillings of any bytes, a few blocks are torn. */
static void leave(int filling) {
  size_t end = (size_t)choose_length(filling) / SECTOR;
  int tears = filling >= 2 && random() % 2 == 0;
  set_left_length((off_t)(SECTOR * end));
  for (size_t i = 0; i < dirty.count && filling > 0; i++)
    if (dirty.list[i] < end) fill_sector(dirty.list[i], filling == 1 ? 1 : (int)(random() % 4));
  for (size_t i = 0; i < dirty.count && tears; i++)
    if (random() % 4 == 0 && dirty.list[i] < end) tear_block(dirty.list[i], end);
}

/* Has the file that is left be as the disk again. */
static void restore(void) {
  set_left_length(synced_length);
  for (size_t i = 0; i < changed.count; i++) {
    size_t s = changed.list[i];
    if ((off_t)(SECTOR * s) < synced_length) memcpy(left + SECTOR * s, disk + SECTOR * s, SECTOR);
  }
  drop_all(&changed);
}

/* Calls */

static int fails(void) {
  if (is_cutting) cut_power();
  if (++calls != failing) return 0;
  errno = failing_number;
  return 1;
}

static void write_watched(int fd, const unsigned char *from, size_t length, off_t at) {
  for (size_t done = 0, part; done < length; done += part) {
    part = length - done < piece ? length - done : piece;
    if (done > 0 && is_cutting) cut_power();
    memcpy(cached + at + done, from + done, part);
    add_bytes(&dirty, at + (off_t)done, part);
    if (syscall(SYS_pwrite64, fd, from + done, part, at + (off_t)done) != (long)part) die("pwrite");
  }
}

ssize_t pwritev(int fd, const struct iovec *parts, int count, off_t at) {
  ssize_t made = 0;
  if (fd == watched && fails()) return -1;
  for (const struct iovec *part = parts; part < parts + count; at += (off_t)part->iov_len, made += (ssize_t)part++->iov_len) {
    if (fd == left_file) add_bytes(&changed, at, part->iov_len);
    if (fd == watched) write_watched(fd, part->iov_base, part->iov_len, at);
    else if (syscall(SYS_pwrite64, fd, part->iov_base, part->iov_len, at) != (long)part->iov_len) die("pwrite");
  }
  return made;
}

ssize_t pwrite(int fd, const void *from, size_t length, off_t at) { return pwritev(fd, &(struct iovec){(void *)(uintptr_t)from, length}, 1, at); }

/* The file that is left is as the disk between cuts. */
static void reach_disk(size_t sector) {
  memcpy(disk + SECTOR * sector, cached + SECTOR * sector, SECTOR);
  memcpy(left + SECTOR * sector, cached + SECTOR * sector, SECTOR);
}

static void sync_length(void) {
  synced_length = length_now(), length_count = 0;
  set_left_length(synced_length);
}

/* Where a sync fails, a length that is not durable yet still comes with the next one: a file system that loses it takes no more writes. */
static void sync_watched(int is_failing) {
  if (!is_failing) sync_length();
  for (size_t i = 0; i < dirty.count; i++) {
    size_t s = dirty.list[i];
    if ((off_t)(SECTOR * s) < synced_length && (!is_failing || random() % 4 < reaching)) reach_disk(s);
    else add_sector(&lost, s);
  }
  drop_all(&dirty);
}

int fdatasync(int fd) {
  if (fd != watched) return 0; /* what is left of an image has only to be read */
  int is_failing = fails();
  if (++syncs == left_out) return 0;
  sync_watched(is_failing);
  return is_failing ? errno = failing_number, -1 : 0;
}

int fsync(int fd) { return fdatasync(fd); }

/* What is dropped is read from the disk again. */
int posix_fadvise(int fd, off_t at, off_t length, int advice) {
  if (fd != watched || advice != POSIX_FADV_DONTNEED || at != 0 || length != 0) return 0;
  for (size_t i = 0; i < lost.count; i++) {
    size_t s = lost.list[i];
    if (dirty.has[s]) continue;
    memcpy(cached + SECTOR * s, disk + SECTOR * s, SECTOR);
    if (syscall(SYS_pwrite64, fd, disk + SECTOR * s, SECTOR, SECTOR * s) != SECTOR) die("pwrite");
  }
  drop_all(&lost);
  return 0;
}

int ftruncate(int fd, off_t length) {
  if (fd == watched && fails()) return -1;
  if (syscall(SYS_ftruncate, fd, length) != 0) return -1;
  if (fd == left_file) left_length = length;
  if (fd != watched || length == length_now()) return 0;
  int fits = length > length_now() && length <= SECTOR * (off_t)MOST_SECTORS && length_count < MOST_LENGTHS;
  if (!fits) fprintf(stderr, "device: a length of %ld\n", (long)length), exit(1);
  lengths[length_count++] = length;
  return 0;
}

/* What is a hole from here on is written as any other bytes are: each of its sectors may have become zeros, or be as it was. */
static void empty_watched(off_t at, size_t length) {
  static const unsigned char zeros[SECTOR];
  add_bytes(&dirty, at, length), holes++;
  for (off_t s = at; s < at + (off_t)length; s += SECTOR) zeroed += memcmp(cached + s, zeros, SECTOR) != 0;
  memset(cached + at, 0, length);
}

int fallocate(int fd, int mode, off_t at, off_t length) {
  int empties = (mode & (FALLOC_FL_PUNCH_HOLE | FALLOC_FL_ZERO_RANGE)) != 0;
  if ((mode & modes_without) != 0) return errno = EOPNOTSUPP, -1;
  if (fd == watched && fails()) return -1;
  if (fd == watched && empties && leaves_bytes) return 0;
  int result = (int)syscall(SYS_fallocate, fd, mode, at, length);
  if (fd == left_file && empties) add_bytes(&changed, at, (size_t)length);
  if (fd == watched && empties && result == 0) empty_watched(at, (size_t)length);
  return result;
}

int open(const char *path, int flags, ...) {
  va_list more;
  va_start(more, flags);
  mode_t mode = (flags & (O_CREAT | O_TMPFILE)) != 0 ? va_arg(more, mode_t) : 0;
  va_end(more);
  int fd = (int)syscall(SYS_openat, AT_FDCWD, path, flags, mode);
  if (strcmp(path, watched_path) == 0) watched = fd;
  if (strcmp(path, LEFT) == 0) left_file = fd;
  return fd;
}

/* Devices */

/* Watches the file at `path` from its next opening on. All of it is synced. */
static void begin_device(const char *path) {
  int from = (int)syscall(SYS_openat, AT_FDCWD, path, O_RDONLY), to = (int)syscall(SYS_openat, AT_FDCWD, LEFT, O_RDWR | O_CREAT | O_TRUNC, 0600);
  if (left != NULL) munmap(left, SECTOR * MOST_SECTORS);
  left = mmap(NULL, SECTOR * MOST_SECTORS, PROT_READ | PROT_WRITE, MAP_SHARED, to, 0);
  if (from < 0 || to < 0 || left == MAP_FAILED) die(path);
  memset(disk, 0, (size_t)length_now()), memset(cached, 0, (size_t)length_now());
  synced_length = lseek(from, 0, SEEK_END), length_count = 0, left_length = 0;
  set_left_length(synced_length);
  if (pread(from, disk, (size_t)synced_length, 0) != synced_length) die(path);
  memcpy(cached, disk, (size_t)synced_length), memcpy(left, disk, (size_t)synced_length);
  drop_all(&dirty), drop_all(&lost), drop_all(&changed);
  close(from), close(to);
  watched_path = path, watched = left_file = -1, failing = 0;
}
#endif
