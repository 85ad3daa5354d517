/* Calls on the host file. */
#define _GNU_SOURCE
#include "internal.h"
#include <errno.h>
#include <fcntl.h>
#include <signal.h>
#include <sys/mman.h>
#include <sys/uio.h>
#include <unistd.h>

/* Opening */

/* Those of the three lowest descriptors that are free are taken for the time being, so that no line which another thread
   writes to a closed stream gets into the file. */
int open_high(const char *path, int flags, mode_t mode) {
  int low[3], count = 0, fd;
  while ((fd = open("/", O_PATH | O_CLOEXEC)) >= 0 && fd <= 2 && count < 3) low[count++] = fd;
  if (fd >= 0) close(fd);
  fd = move_high(open(path, flags, mode));
  int number = errno;
  while (count > 0) close(low[--count]);
  errno = number;
  return fd;
}

int move_high(int fd) {
  if (fd < 0 || fd > 2) return fd;
  int moved = fcntl(fd, F_DUPFD_CLOEXEC, 3), number = errno;
  close(fd);
  errno = number;
  return moved;
}

/* Kernels before 6.3 have not the flag that says that nobody runs it as a program. */
int new_memory_file(void) {
  enum { NO_PROGRAM = 8 };
  int fd = memfd_create("kefs", MFD_CLOEXEC | NO_PROGRAM);
  return move_high(fd < 0 && errno == EINVAL ? memfd_create("kefs", MFD_CLOEXEC) : fd);
}

/* Lengths */

/* A file longer than the process may have is a signal, by default its end, and the error besides: a reader whose copy is a file in memory asks for none. */
int set_length(int fd, off_t length) {
  sigset_t too_long, before, pending;
  sigemptyset(&too_long), sigaddset(&too_long, SIGXFSZ);
  pthread_sigmask(SIG_BLOCK, &too_long, &before);
  sigpending(&pending);
  int number = ftruncate(fd, length) == 0 ? KEFS_OK : errno;
  if (number == EFBIG && !sigismember(&pending, SIGXFSZ)) sigtimedwait(&too_long, NULL, &(struct timespec){0});
  pthread_sigmask(SIG_SETMASK, &before, NULL);
  return number;
}

/* Calls */

/* Writes parts one after the other. It changes them. */
static int write_parts(int fd, struct iovec *parts, int count, off_t offset) {
  while (count > 0) {
    ssize_t made = count == 1 ? pwrite(fd, parts->iov_base, parts->iov_len, offset) : pwritev(fd, parts, count, offset);
    if (made < 0 && errno == EINTR) continue;
    if (made <= 0) return made < 0 ? errno : EIO;
    offset += made;
    for (; count > 0 && (size_t)made >= parts->iov_len; parts++, count--) made -= (ssize_t)parts->iov_len;
    if (made > 0) parts->iov_base = (char *)parts->iov_base + made, parts->iov_len -= (size_t)made;
  }
  return KEFS_OK;
}

int write_all(int fd, const void *bytes, size_t length, off_t offset) {
  struct iovec part = {(void *)(uintptr_t)bytes, length};
  return write_parts(fd, &part, length > 0, offset);
}

/* A file that ends too early is an error like any other. */
int read_all(int fd, void *to, size_t length, off_t offset) {
  unsigned char *at = to;
  while (length > 0) {
    ssize_t made = pread(fd, at, length, offset);
    if (made < 0 && errno == EINTR) continue;
    if (made <= 0) return made < 0 ? errno : EIO;
    at += made, length -= (size_t)made, offset += made;
  }
  return KEFS_OK;
}

off_t next_data(int fd, off_t at, off_t end, off_t *hole) {
  off_t data = lseek(fd, at, SEEK_DATA);
  if ((data < 0 && errno == ENXIO) || data >= end) return *hole = end;
  if (data < 0) return *hole = end, at;
  *hole = lseek(fd, data, SEEK_HOLE);
  if (*hole <= data || *hole > end) *hole = end;
  return data;
}

int read_data(int fd, void *to, size_t length, off_t offset, size_t *read) {
  int number = KEFS_OK;
  off_t end = offset + (off_t)length, hole;
  for (off_t data = next_data(fd, offset, end, &hole); data < end && number == KEFS_OK; data = next_data(fd, hole, end, &hole)) {
    number = read_all(fd, (unsigned char *)to + (data - offset), (size_t)(hole - data), data);
    *read += (size_t)(hole - data);
  }
  return number;
}

int sync_data(int fd) {
  while (fdatasync(fd) != 0)
    if (errno != EINTR) return errno;
  return KEFS_OK;
}

int take_room(int fd, off_t offset, off_t length) {
  while (fallocate(fd, 0, offset, length) != 0) {
    if (errno == EOPNOTSUPP || errno == ENOSYS) return KEFS_OK;
    if (errno != EINTR) return errno;
  }
  return KEFS_OK;
}

/* Room */

enum { ROOM = PAGE / SECTOR }; /* sectors of a bit of `roomless` */

static int lacks_room(const unsigned char *roomless, size_t k) { return (__atomic_load_n(&roomless[k / 8], __ATOMIC_SEQ_CST) >> k % 8 & 1) != 0; }

/* A page of layout 2 lies in two such parts. */
int may_lack_room(const struct kefs_image *image, size_t sector) {
  const unsigned char *roomless = __atomic_load_n(&image->roomless, __ATOMIC_ACQUIRE);
  return roomless != NULL && (lacks_room(roomless, sector / ROOM) || lacks_room(roomless, (sector + ROOM - 1) / ROOM));
}

static int take_parts(struct kefs_image *image, size_t first, size_t end) {
  size_t stop = ROOM * end < image->sectors ? ROOM * end : image->sectors;
  int number = take_room(image->fd, (off_t)(SECTOR * ROOM * first), (off_t)(SECTOR * (stop - ROOM * first)));
  if (number != KEFS_OK) return fail(image, device_result(number), "room for sectors %zu to %zu: %s", ROOM * first, stop - 1, kefs_strerror(number));
  for (size_t k = first; k < end; k++) drop_mark(&image->roomless[k / 8], (unsigned char)(1 << k % 8));
  return KEFS_OK;
}

int take_sectors(struct kefs_image *image, size_t first, size_t end) {
  if (end > image->sectors) end = image->sectors;
  int result = KEFS_OK;
  size_t last = (end + ROOM - 1) / ROOM;
  for (size_t k = first / ROOM, stop; k < last && first < end && image->roomless != NULL && result == KEFS_OK; k = stop) {
    for (stop = k; stop < last && lacks_room(image->roomless, stop);) stop++;
    if (stop > k) result = take_parts(image, k, stop);
    else stop++;
  }
  return result;
}

/* Whether a call writes bytes that lie somewhere. */
static int is_write(const struct famsync_call *call) { return call->kind != FAMSYNC_SYNC && call->kind != FAMSYNC_ZERO; }

static size_t sectors_of(const struct famsync_call *call) { return call->kind == FAMSYNC_WRITE ? 1 : PAGE / SECTOR; }

/* How many calls from `first` on copy pages of which each lies just before the one that is copied before it. So a plan may bring home what was added to a
   file. */
static size_t falling_calls(const struct plan *plan, size_t first) {
  const struct famsync_call *calls = plan->calls;
  size_t end = first + 1;
  if (calls[first].kind != FAMSYNC_COPY) return 1;
  while (end < plan->used && calls[end].kind == FAMSYNC_COPY && calls[end].sector + PAGE / SECTOR == calls[end - 1].sector) end++;
  return end - first;
}

/* Calls that write neighbouring sectors, in rising or in falling order: the number of the next one, and the sectors. */
struct run { size_t next, sector, end; };

static struct run run_of_calls(const struct plan *plan, size_t i) {
  size_t falling = falling_calls(plan, i);
  struct run run = {i, plan->calls[i].sector, plan->calls[i].sector};
  if (falling > 1) return (struct run){i + falling, plan->calls[i + falling - 1].sector, plan->calls[i].sector + PAGE / SECTOR};
  for (; run.next < plan->used && is_write(&plan->calls[run.next]) && plan->calls[run.next].sector == run.end; run.next++)
    run.end += sectors_of(&plan->calls[run.next]);
  return run;
}

/* What becomes a hole is noted as without room, for which there has to be memory. */
static int make_roomless(struct kefs_image *image) {
  if (image->roomless == NULL) __atomic_store_n(&image->roomless, new_memory(room_bytes(image->sectors)), __ATOMIC_RELEASE);
  return image->roomless != NULL ? KEFS_OK : fail(image, ENOMEM, "which pages have no room");
}

/* All of a run at once: a file system that gives room page by page in falling order may end in an error, since its tree of them gets too deep. Zeros take none: they
   become a hole, or stand in the place of bytes that are there. */
static int take_plan(struct kefs_image *image) {
  const struct plan *plan = &image->plan;
  int result = KEFS_OK;
  for (size_t i = 0; i < plan->used && result == KEFS_OK;) {
    if (!is_write(&plan->calls[i])) {
      i++;
      continue;
    }
    struct run run = run_of_calls(plan, i);
    result = take_sectors(image, run.sector, run.end);
    i = run.next;
  }
  return result;
}

static int has_zeros(const struct plan *plan) {
  for (const struct famsync_call *it = plan->calls; it < plan->calls + plan->used; it++)
    if (it->kind == FAMSYNC_ZERO) return 1;
  return 0;
}

/* A commit is refused before its first call where there is no room: after it the image would have to be recovered. A journal's pages are written to their homes by
   the opening that comes next, so these have room by then. */
int take_rooms(struct kefs_image *image) {
  int result = has_zeros(&image->plan) ? make_roomless(image) : KEFS_OK;
  if (image->roomless == NULL) return result;
  const struct taken *taken = image->planned;
  for (size_t i = 0; i < taken->count && image->layout.blocks == 0 && result == KEFS_OK; i++) {
    size_t sector = home_sector(&image->layout, home_of_page(&image->files[taken->pages[i].file], taken->pages[i].page));
    result = take_sectors(image, sector, sector + PAGE / SECTOR);
  }
  return result == KEFS_OK ? take_plan(image) : result;
}

/* Zeros */

/* In ways of which the first is taken that the file system has: a hole, room that reads as zeros, or bytes. */
enum { HOLE, EMPTY_ROOM, BYTES };

static int try_zeros(int fd, int mode, off_t at, off_t length) {
  while (fallocate(fd, mode | FALLOC_FL_KEEP_SIZE, at, length) != 0)
    if (errno != EINTR) return errno;
  return KEFS_OK;
}

static int write_zeros(int fd, off_t at, off_t end) {
  static unsigned char zeros[1 << 18]; /* nobody stores to it, so it takes no memory */
  int number = KEFS_OK;
  for (off_t part; at < end && number == KEFS_OK; at += part) {
    part = end - at < (off_t)sizeof zeros ? end - at : (off_t)sizeof zeros;
    number = write_all(fd, zeros, (size_t)part, at);
  }
  return number;
}

/* Of these bytes whole pages have no room from here on. */
static void note_hole(struct kefs_image *image, off_t at, off_t end) {
  size_t k = (size_t)(at + PAGE - 1) / PAGE, last = (size_t)end / PAGE;
  while (k < last) {
    if (k % 8 == 0 && last - k >= 8) __atomic_store_n(&image->roomless[k / 8], 0xff, __ATOMIC_SEQ_CST), k += 8;
    else add_mark(&image->roomless[k / 8], (unsigned char)(1 << k % 8)), k++;
  }
}

static int clear_bytes(struct kefs_image *image, off_t at, off_t end) {
  static const int modes[] = {[HOLE] = FALLOC_FL_PUNCH_HOLE, [EMPTY_ROOM] = FALLOC_FL_ZERO_RANGE};
  for (; image->way_of_zeros < BYTES; image->way_of_zeros++) {
    int number = try_zeros(image->fd, modes[image->way_of_zeros], at, end - at);
    if (number == KEFS_OK && image->way_of_zeros == HOLE) note_hole(image, at, end);
    if (number != EOPNOTSUPP && number != ENOSYS) return number;
  }
  return write_zeros(image->fd, at, end);
}

/* The next bytes of the file that are no hole, as far as it was looked for them up to an end. */
struct looked { off_t data, hole, end; };

/* Makes these bytes zeros. A hole is left as it is: mostly there is nothing else where files grow. */
static int clear_gap(struct kefs_image *image, struct looked *looked, off_t at, off_t end) {
  int number = KEFS_OK;
  while (at < end && number == KEFS_OK) {
    if (looked->hole <= at) looked->data = next_data(image->fd, at, looked->end, &looked->hole);
    off_t from = looked->data > at ? looked->data : at, to = looked->hole < end ? looked->hole : end;
    if (from < to) number = clear_bytes(image, from, to);
    at = to;
  }
  return number;
}

/* What calls write that come before the next sync is left out: until then a stop may leave any bytes there, and it has got room. */
static int make_zeros(struct kefs_image *image, size_t i) {
  const struct plan *plan = &image->plan;
  uint64_t sector = plan->calls[i].sector, end = sector + ROOM * plan->calls[i].from;
  struct looked looked = {.hole = (off_t)(SECTOR * sector), .end = (off_t)(SECTOR * end)};
  int number = KEFS_OK;
  for (size_t k = i + 1; k < plan->used && plan->calls[k].kind != FAMSYNC_SYNC && number == KEFS_OK; k++) {
    const struct famsync_call *call = &plan->calls[k];
    if (!is_write(call) || call->sector < sector || call->sector >= end) continue;
    number = clear_gap(image, &looked, (off_t)(SECTOR * sector), (off_t)(SECTOR * call->sector));
    sector = call->sector + sectors_of(call);
  }
  return number == KEFS_OK ? clear_gap(image, &looked, (off_t)(SECTOR * sector), looked.end) : number;
}

/* Plans */

static int halt(struct kefs_image *image, size_t k, size_t bytes, int number) {
  const struct famsync_call *call = &image->plan.calls[k];
  const char *reason = kefs_strerror(number);
  unsigned long long sector = call->sector, pages = call->from;
  famsync_failed(&image->handle);
  image->halted = 1;
  image->failed = k;
  if (call->kind == FAMSYNC_SYNC) return fail(image, device_result(number), "fdatasync: %s", reason);
  if (call->kind == FAMSYNC_ZERO) return fail(image, device_result(number), "zeros in %llu pages at sector %llu: %s", pages, sector, reason);
  return fail(image, device_result(number), "pwrite of %zu bytes at sector %llu: %s", bytes, sector, reason);
}

/* One call of the system writes as many parts. */
enum { MOST_PARTS = 256 };

/* Where the bytes of a call lie. A page of a mapped file is written from there, once, to the journal; its home is written from the journal, so
   that both are the same whatever is stored to the page meanwhile. */
static struct iovec bytes_of(const struct kefs_image *image, size_t k) {
  const struct famsync_call *call = &image->plan.calls[k];
  const void *at = call->kind == FAMSYNC_WRITE  ? image->plan.rows[k]
                   : call->kind == FAMSYNC_LENT ? image->planned->bytes[call->from].at
                                                : image->bytes + SECTOR * call->from;
  return (struct iovec){(void *)(uintptr_t)at, call->kind == FAMSYNC_WRITE ? SECTOR : PAGE};
}

/* The writes of neighbouring sectors from call `first` on, and where their bytes lie, neighbouring bytes as one part. */
static size_t gather(const struct kefs_image *image, size_t first, struct iovec *parts, int *count) {
  const struct plan *plan = &image->plan;
  uint64_t sector = plan->calls[first].sector;
  size_t i = first;
  for (*count = 0; i < plan->used && is_write(&plan->calls[i]) && plan->calls[i].sector == sector; i++) {
    struct iovec more = bytes_of(image, i), *last = *count == 0 ? NULL : &parts[*count - 1];
    if (last != NULL && (char *)last->iov_base + last->iov_len == (char *)more.iov_base) last->iov_len += more.iov_len;
    else if (*count == MOST_PARTS) break;
    else parts[(*count)++] = more;
    sector += more.iov_len / SECTOR;
  }
  return i - first;
}

/* The same of copies in falling order, the last one first. */
static size_t gather_falling(const struct kefs_image *image, size_t first, struct iovec *parts, int *count) {
  size_t falling = falling_calls(&image->plan, first), made = falling < MOST_PARTS ? falling : MOST_PARTS;
  *count = 0;
  for (size_t i = first + made; i-- > first;) {
    struct iovec more = bytes_of(image, i), *last = *count == 0 ? NULL : &parts[*count - 1];
    if (last != NULL && (char *)last->iov_base + last->iov_len == (char *)more.iov_base) last->iov_len += more.iov_len;
    else parts[(*count)++] = more;
  }
  return made;
}

static size_t bytes_of_parts(const struct iovec *parts, int count) {
  size_t length = 0;
  for (int i = 0; i < count; i++) length += parts[i].iov_len;
  return length;
}

/* How many calls of the plan, from `i` on, one call of the system makes that writes these parts; none where it is a sync or of zeros. */
static size_t gather_next(const struct kefs_image *image, size_t i, struct iovec *parts, int *count) {
  if (!is_write(&image->plan.calls[i])) return *count = 0, 1;
  return (falling_calls(&image->plan, i) > 1 ? gather_falling : gather)(image, i, parts, count);
}

static int make_call(struct kefs_image *image, size_t i, size_t made, struct iovec *parts, int count) {
  const struct famsync_call *calls = image->plan.calls;
  if (calls[i].kind == FAMSYNC_SYNC) return sync_data(image->fd);
  if (calls[i].kind == FAMSYNC_ZERO) return make_zeros(image, i);
  uint64_t last = calls[i + made - 1].sector;
  return write_parts(image->fd, parts, count, (off_t)(SECTOR * (last < calls[i].sector ? last : calls[i].sector)));
}

int carry_out(struct kefs_image *image) {
  const struct plan *plan = &image->plan;
  struct iovec parts[MOST_PARTS];
  change_places(image, image->planned->count + image->resizing.directory + image->resizing.listed);
  for (size_t i = 0, made; i < plan->used; i += made) {
    int count = 0;
    made = gather_next(image, i, parts, &count);
    size_t bytes = bytes_of_parts(parts, count);
    let_in(image);
    int number = make_call(image, i, made, parts, count);
    keep_out(image);
    if (number != KEFS_OK) return halt(image, i, bytes, number);
    image->stat.written_bytes += bytes;
    image->stat.syncs += (uint64_t)(plan->calls[i].kind == FAMSYNC_SYNC);
  }
  famsync_done(&image->handle);
  return KEFS_OK;
}
