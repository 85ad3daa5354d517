/* The files that the pager opens, `image` and `swap`: the two disks. These are C functions that the pager's object calls by their names;
   what none of them does, as locks and permissions, has no meaning for a disk that nobody else has. */
#include "kernel.h"

enum { ENOENT = 2, FIRST_FILE = 3, NULL_DEVICE = FIRST_FILE + DISKS };
static const char *names[] = {"image", "swap", "/dev/null"};
static int error_number;

int rattle_errno(void) { return error_number; }
void rattle_set_errno(int n) { error_number = n; }

static long fails(int error) {
  error_number = error;
  return -1;
}

static int is_disk(int file) { return file >= FIRST_FILE && file < NULL_DEVICE; }

int open(const char *path, int flags, ...) {
  for (int i = 0; i <= DISKS; i++)
    if (!memcmp(path, names[i], strlen(names[i]))) return FIRST_FILE + i;
  return fails(ENOENT);
}

int close(int file) { return 0; }
int flock(int file, int how) { return 0; }
int fchmod(int file, u32 mode) { return 0; }
u64 __sysv_signal(int number, u64 handler) { return 0; }

/* A disk has its size: it can't grow, and need not shrink. */
int ftruncate(int file, long bytes) { return is_disk(file) && (u64)bytes <= disk_bytes(file - FIRST_FILE) ? 0 : fails(EINVAL); }

struct statx {
  u32 mask, block_bytes;
  u64 attributes;
  u32 links, user, group;
  u16 mode, padding;
  u64 number, size, blocks, more[25];
};
_Static_assert(sizeof(struct statx) == 256, "as Linux has it");

int statx(int file, const char *path, int flags, u32 mask, struct statx *to) {
  enum { BASIC = 0x7ff, REGULAR_FILE = 0100600 };
  if (path && *path) file = open(path, 0);
  if (!is_disk(file)) return fails(EBADF);
  u64 size = disk_bytes(file - FIRST_FILE);
  *to = (struct statx){.mask = BASIC, .block_bytes = PAGE, .links = 1, .mode = REGULAR_FILE, .number = file, .size = size, .blocks = size / 512};
  return 0;
}

/* How many of n bytes at a place are in the file, or -1 where it is none. */
static long inside(int file, u64 n, u64 at) {
  if (!is_disk(file)) return fails(EBADF);
  u64 size = disk_bytes(file - FIRST_FILE);
  return at >= size ? 0 : n < size - at ? n : size - at;
}

long pread(int file, void *to, u64 n, long at) {
  long some = inside(file, n, at);
  return some > 0 && disk_read(file - FIRST_FILE, at, to, some) ? fails(EIO) : some;
}

long pwrite(int file, const void *from, u64 n, long at) {
  long some = inside(file, n, at);
  if (some == 0 && n) return fails(EINVAL);
  return some > 0 && disk_write(file - FIRST_FILE, at, from, some) ? fails(EIO) : some;
}

int fsync(int file) { return !is_disk(file) ? fails(EBADF) : disk_flush(file - FIRST_FILE) ? fails(EIO) : 0; }
int fdatasync(int file) { return fsync(file); }
