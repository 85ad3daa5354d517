/* The bytes of the data file: mappings, syncs, reads and writes, its length, and what is refused of them. */
#include "bridge.h"
#include <aio.h>
#include <linux/fiemap.h>
#include <linux/fs.h>
#include <stdarg.h>
#include <stdlib.h>
#include <string.h>
#include <sys/ioctl.h>
#include <sys/mman.h>
#include <sys/sendfile.h>
#include <sys/uio.h>
#include <unistd.h>

/* The flags of a descriptor of the data file by which bytes may be read, or written: -1 and errno where they may not (`wrong` is its mode then), or this process
   cannot have the image. */
static int flags_for(int fd, int wrong) {
  int flags = fcntl(fd, F_GETFL);
  if (flags < 0 || flags & O_PATH || (flags & O_ACCMODE) == wrong) return fail(EBADF);
  return answers(fd) == 0 ? flags : -1;
}
static int flags_to_read(int fd) { return flags_for(fd, O_WRONLY); }
static int flags_to_write(int fd) { return flags_for(fd, O_RDONLY); }

/* Mapping */

static int in_data(const void *at) { return data.base != NULL && (unsigned char *)at >= data.base && (unsigned char *)at < data.base + data.room; }

/* Whether a mapping at this place would take memory of the data file away. */
static int covers_data(const void *at, size_t bytes) {
  unsigned char *begin = (unsigned char *)at;
  return data.base != NULL && begin < data.base + data.room && bytes > 0 && (begin >= data.base || (size_t)(data.base - begin) < bytes);
}

static void *refuse_map(const char *what, int number) { return refuse(what, number), MAP_FAILED; }

static size_t whole_pages(size_t bytes) { return (bytes + KEFS_PAGE - 1) / KEFS_PAGE * KEFS_PAGE; }

static void *map_data_file(size_t bytes, int prot, int flags, int fd, off_t offset) {
  int mode = flags_to_read(fd);
  if (mode < 0) return errno = errno == EBADF ? EACCES : errno, MAP_FAILED;
  if (flags & (MAP_FIXED | MAP_FIXED_NOREPLACE)) return refuse_map("a mapping at a fixed address", ENOTSUP);
  if (!(flags & MAP_SHARED)) return refuse_map("a private mapping", ENOTSUP);
  if (prot & PROT_WRITE && (mode & O_ACCMODE) != O_RDWR) return errno = EACCES, MAP_FAILED;
  if (bytes == 0 || offset < 0 || offset % KEFS_PAGE != 0) return errno = EINVAL, MAP_FAILED;
  if ((size_t)offset > data.room || bytes > data.room - (size_t)offset) return refuse_map("a mapping of so many bytes", ENOMEM);
  if (offset == 0) data.mapped = bytes;
  data.in_use += whole_pages(bytes);
  if (data.end < (size_t)offset + bytes) data.end = (size_t)offset + bytes;
  data.is_stored_to |= (prot & PROT_WRITE) != 0;
  return data.base + offset;
}

void *mmap(void *wanted, size_t bytes, int prot, int flags, int fd, off_t offset) {
  if (flags & MAP_ANONYMOUS || !is_data(fd)) {
    if (flags & MAP_FIXED && covers_data(wanted, bytes) && !is_inside) return refuse_map("a mapping over its own", ENOTSUP);
    return NEXT(mmap)(wanted, bytes, prot, flags, fd, offset);
  }
  pthread_mutex_lock(&lock);
  void *at = map_data_file(bytes, prot, flags, fd, offset);
  pthread_mutex_unlock(&lock);
  return at == MAP_FAILED && is_to_repeat(-1) ? mmap(wanted, bytes, prot, flags, fd, offset) : at;
}
void *mmap64(void *wanted, size_t bytes, int prot, int flags, int fd, off_t offset) { return mmap(wanted, bytes, prot, flags, fd, offset); }

/* Takes note that the program has so many bytes of its mappings no more. Several may be of the same bytes: all have the same addresses. */
static void unmap_pages(size_t bytes) {
  pthread_mutex_lock(&lock);
  data.in_use -= whole_pages(bytes) < data.in_use ? whole_pages(bytes) : data.in_use;
  if (data.in_use == 0) data.end = 0, data.is_stored_to = 0;
  pthread_mutex_unlock(&lock);
}

/* All has its addresses already, so a mapping grows and shrinks where it is. */
static void *remap(void *at, size_t bytes, size_t to, int flags) {
  size_t offset = (size_t)((unsigned char *)at - data.base);
  if (flags & ~MREMAP_MAYMOVE) return refuse_map("mremap to elsewhere", ENOTSUP);
  if (to > data.room - offset) return refuse_map("a mapping of so many bytes", ENOMEM);
  if (offset == 0) data.mapped = to;
  pthread_mutex_lock(&lock);
  data.in_use += whole_pages(to);
  if (data.end < offset + to) data.end = offset + to;
  pthread_mutex_unlock(&lock);
  unmap_pages(bytes);
  return at;
}

void *mremap(void *at, size_t bytes, size_t to, int flags, ...) {
  va_list rest;
  va_start(rest, flags);
  void *wanted = flags & MREMAP_FIXED ? va_arg(rest, void *) : NULL;
  va_end(rest);
  if (in_data(at)) return bytes == 0 ? refuse_map("a second mapping by mremap", ENOTSUP) : to == 0 ? (errno = EINVAL, MAP_FAILED) : remap(at, bytes, to, flags);
  if (is_shared_former(at, bytes)) return refuse_map("mremap of one of several mappings that it had", ENOMEM);
  if (covers_data(at, bytes) || (wanted != NULL && covers_data(wanted, to))) return refuse_map("mremap over its mapping", ENOTSUP);
  return NEXT(mremap)(at, bytes, to, flags, wanted);
}

/* The library keeps the file mapped. */
int munmap(void *at, size_t bytes) {
  if (in_data(at)) return is_inside ? 0 : (unmap_pages(bytes), 0);
  if (!is_inside && unmap_former(at, bytes)) return 0;
  return covers_data(at, bytes) ? refuse("munmap of more than its mapping", EINVAL) : NEXT(munmap)(at, bytes);
}

/* Advice is no more than that, but for MADV_DONTNEED, which would drop what is not committed. */
int madvise(void *at, size_t bytes, int advice) { return in_data(at) && !is_inside ? 0 : NEXT(madvise)(at, bytes, advice); }

/* Syncs */

/* Of a lent file it is not known whether the mapping is one of it. */
static int sync_other(void *at, size_t bytes, int flags) {
  int result = NEXT(msync)(at, bytes, flags);
  return result == 0 && data.is_lent && flags & MS_SYNC && commit_at != AT_FSYNC ? commit() : result;
}

int msync(void *at, size_t bytes, int flags) {
  if (!in_data(at)) return sync_other(at, bytes, flags);
  int is_whole = at == data.base && bytes >= data.mapped;
  if (!(flags & MS_SYNC) || commit_at == AT_FSYNC || (commit_at == AT_PART && is_whole)) return 0;
  return commit();
}

/* What the descriptor had before it was another file needs no sync. */
static int commit_of(int fd) {
  if (answers(fd) != 0) return is_to_repeat(-1) ? 0 : -1;
  return commit();
}
int fsync(int fd) { return is_synced(fd) ? commit_of(fd) : NEXT(fsync)(fd); }
int fdatasync(int fd) { return is_synced(fd) ? commit_of(fd) : NEXT(fdatasync)(fd); }
int syncfs(int fd) { return is_synced(fd) ? commit_of(fd) : NEXT(syncfs)(fd); }
void sync(void) {
  commit_own();
  NEXT(sync)();
}

/* Reads */

static ssize_t copy_locked(off_t at, void *to, size_t bytes) {
  if (is_another()) return fail(ESTALE);
  uint64_t end = __atomic_load_n(data.length, __ATOMIC_ACQUIRE), left = (uint64_t)at < end ? end - (uint64_t)at : 0;
  if (bytes > left) bytes = left;
  memcpy(to, data.base + at, bytes);
  return (ssize_t)bytes;
}

/* Copies bytes of the file: how many there were, or -1 and ESTALE. */
static ssize_t copy_from(off_t at, void *to, size_t bytes) {
  pthread_rwlock_rdlock(&copying);
  ssize_t copied = copy_locked(at, to, bytes);
  pthread_rwlock_unlock(&copying);
  return copied;
}

static ssize_t copy_parts(int fd, const struct iovec *parts, int count, off_t at) {
  ssize_t given = 0, copied = 0;
  if (at < 0 || count < 0) return fail(EINVAL);
  if (flags_to_read(fd) < 0) return -1;
  for (int i = 0; i < count && copied >= 0; i++) {
    copied = copy_from(at + given, parts[i].iov_base, parts[i].iov_len);
    given += copied < 0 ? 0 : copied;
  }
  return given > 0 ? given : copied;
}

/* Whether a read from another file would put bytes past the page cache into the mapping: nothing notes these, and a commit beside it could lose them. */
static int is_unnoted(int fd, const struct iovec *parts, int count) {
  for (int i = 0; i < count && data.base != NULL; i++)
    if (covers_data(parts[i].iov_base, parts[i].iov_len)) return (fcntl(fd, F_GETFL) & O_DIRECT) != 0;
  return 0;
}

static ssize_t refuse_direct(void) { return refuse("a read with O_DIRECT into its mapping", EINVAL); }

ssize_t preadv(int fd, const struct iovec *parts, int count, off_t at) {
  if (!is_data(fd)) return is_unnoted(fd, parts, count) ? refuse_direct() : NEXT(preadv)(fd, parts, count, at);
  ssize_t given = copy_parts(fd, parts, count, at);
  return is_to_repeat(given) ? preadv(fd, parts, count, at) : given;
}
ssize_t preadv64(int fd, const struct iovec *parts, int count, off_t at) { return preadv(fd, parts, count, at); }

ssize_t pread(int fd, void *to, size_t bytes, off_t at) {
  const struct iovec part = {to, bytes};
  if (is_data(fd)) return preadv(fd, &part, 1, at);
  return is_unnoted(fd, &part, 1) ? refuse_direct() : NEXT(pread)(fd, to, bytes, at);
}
ssize_t pread64(int fd, void *to, size_t bytes, off_t at) { return pread(fd, to, bytes, at); }
ssize_t __pread_chk(int fd, void *to, size_t bytes, off_t at, size_t room) { return bytes > room ? (abort(), -1) : pread(fd, to, bytes, at); }
ssize_t __pread64_chk(int fd, void *to, size_t bytes, off_t at, size_t room) { return __pread_chk(fd, to, bytes, at, room); }

/* A descriptor's place is the system's, in the empty file: so those that dup made, and those of a child, have one place together. Gives what a call gave there. */
static ssize_t moved(int fd, off_t place, ssize_t result) {
  return result > 0 && NEXT(lseek)(fd, place + result, SEEK_SET) < 0 ? -1 : result;
}

ssize_t readv(int fd, const struct iovec *parts, int count) {
  if (!is_data(fd)) return is_unnoted(fd, parts, count) ? refuse_direct() : NEXT(readv)(fd, parts, count);
  pthread_mutex_lock(&lock);
  off_t place = NEXT(lseek)(fd, 0, SEEK_CUR);
  ssize_t result = place < 0 ? -1 : moved(fd, place, preadv(fd, parts, count, place));
  pthread_mutex_unlock(&lock);
  return result;
}
ssize_t read(int fd, void *to, size_t bytes) {
  const struct iovec part = {to, bytes};
  if (is_data(fd)) return readv(fd, &part, 1);
  return is_unnoted(fd, &part, 1) ? refuse_direct() : NEXT(read)(fd, to, bytes);
}
ssize_t __read_chk(int fd, void *to, size_t bytes, size_t room) { return bytes > room ? (abort(), -1) : read(fd, to, bytes); }

/* Writes */

/* Stores bytes that lie in the file as it is: whether they do. */
static int store_within(off_t at, const void *from, size_t bytes) {
  pthread_rwlock_rdlock(&copying);
  int is_within = !is_another() && (uint64_t)at + bytes <= __atomic_load_n(data.length, __ATOMIC_ACQUIRE);
  if (is_within) memcpy(data.base + at, from, bytes);
  pthread_rwlock_unlock(&copying);
  return is_within;
}

/* Stores bytes of which some may lie behind the end: 0, or -1 and errno. Nobody sees the new length before the bytes are there. */
static int store_beyond(off_t at, const void *from, size_t bytes) {
  pthread_mutex_lock(&lock);
  int result = is_another() ? fail(ESTALE) : make_room((uint64_t)at + bytes);
  if (result == 0) memcpy(data.base + at, from, bytes), reach((uint64_t)at + bytes);
  pthread_mutex_unlock(&lock);
  return result;
}

/* Stores bytes, and lengthens the file where they end beyond it: 0, or -1 and errno. No bytes lengthen nothing. */
static int store(off_t at, const void *from, size_t bytes) {
  if (bytes == 0) return 0;
  if ((size_t)at > data.most || bytes > data.most - (size_t)at) return too_long();
  return store_within(at, from, bytes) ? 0 : store_beyond(at, from, bytes);
}

/* Stores parts one after the other: how many bytes, or -1 and errno where the first ones did not go. */
static ssize_t store_parts(const struct iovec *parts, int count, off_t at) {
  ssize_t stored = 0;
  for (int i = 0; i < count; stored += (ssize_t)parts[i++].iov_len)
    if (store(at + stored, parts[i].iov_base, parts[i].iov_len) != 0) return stored > 0 ? stored : -1;
  return stored;
}

static ssize_t append_parts(const struct iovec *parts, int count, off_t *place) {
  pthread_mutex_lock(&lock);
  int is_stale = is_another();
  if (!is_stale) *place = (off_t)*data.length;
  ssize_t stored = is_stale ? fail(ESTALE) : store_parts(parts, count, *place);
  pthread_mutex_unlock(&lock);
  return stored;
}

/* Writes at a place or, by a descriptor with O_APPEND, at the end, as Linux does in each of these calls. *place is where the bytes began. */
static ssize_t write_parts(int fd, const struct iovec *parts, int count, off_t *place) {
  if (*place < 0 || count < 0) return fail(EINVAL);
  int flags = flags_to_write(fd);
  if (flags < 0) return -1;
  ssize_t stored = flags & O_APPEND ? append_parts(parts, count, place) : store_parts(parts, count, *place);
  return stored > 0 && flags & O_DSYNC && commit() != 0 ? -1 : stored;
}

ssize_t pwritev(int fd, const struct iovec *parts, int count, off_t at) {
  if (!is_data(fd)) return NEXT(pwritev)(fd, parts, count, at);
  ssize_t stored = write_parts(fd, parts, count, &at);
  return is_to_repeat(stored) ? pwritev(fd, parts, count, at) : stored;
}
ssize_t pwritev64(int fd, const struct iovec *parts, int count, off_t at) { return pwritev(fd, parts, count, at); }

ssize_t pwrite(int fd, const void *from, size_t bytes, off_t at) {
  return is_data(fd) ? pwritev(fd, &(struct iovec){(void *)from, bytes}, 1, at) : NEXT(pwrite)(fd, from, bytes, at);
}
ssize_t pwrite64(int fd, const void *from, size_t bytes, off_t at) { return pwrite(fd, from, bytes, at); }

ssize_t writev(int fd, const struct iovec *parts, int count) {
  if (!is_data(fd)) return NEXT(writev)(fd, parts, count);
  pthread_mutex_lock(&lock);
  off_t place = NEXT(lseek)(fd, 0, SEEK_CUR);
  ssize_t result = place < 0 ? -1 : write_parts(fd, parts, count, &place);
  result = moved(fd, place, result);
  pthread_mutex_unlock(&lock);
  return is_to_repeat(result) ? writev(fd, parts, count) : result;
}
ssize_t write(int fd, const void *from, size_t bytes) {
  return is_data(fd) ? writev(fd, &(struct iovec){(void *)from, bytes}, 1) : NEXT(write)(fd, from, bytes);
}

/* With flags, which ask for a write or a read that differs, they are refused; at -1 is the descriptor's place. */
ssize_t preadv2(int fd, const struct iovec *parts, int count, off_t at, int flags) {
  if (!is_data(fd)) return is_unnoted(fd, parts, count) ? refuse_direct() : NEXT(preadv2)(fd, parts, count, at, flags);
  if (flags != 0) return fail(EOPNOTSUPP);
  return at == -1 ? readv(fd, parts, count) : preadv(fd, parts, count, at);
}
ssize_t pwritev2(int fd, const struct iovec *parts, int count, off_t at, int flags) {
  if (!is_data(fd)) return NEXT(pwritev2)(fd, parts, count, at, flags);
  if (flags != 0) return fail(EOPNOTSUPP);
  return at == -1 ? writev(fd, parts, count) : pwritev(fd, parts, count, at);
}
ssize_t preadv64v2(int fd, const struct iovec *parts, int count, off_t at, int flags) { return preadv2(fd, parts, count, at, flags); }
ssize_t pwritev64v2(int fd, const struct iovec *parts, int count, off_t at, int flags) { return pwritev2(fd, parts, count, at, flags); }

/* The place, and the length */

/* Where lseek goes to: -1 and errno where it can't. The file has no holes. */
static off_t sought(int fd, off_t to, int from) {
  off_t end = (off_t)__atomic_load_n(data.length, __ATOMIC_ACQUIRE), start;
  switch (from) {
    case SEEK_SET: return to;
    case SEEK_CUR: start = NEXT(lseek)(fd, 0, SEEK_CUR); break;
    case SEEK_END: start = end; break;
    case SEEK_DATA: return to < 0 || to >= end ? fail(ENXIO) : to;
    case SEEK_HOLE: return to < 0 || to >= end ? fail(ENXIO) : end;
    default: return fail(EINVAL);
  }
  return start < 0 ? -1 : __builtin_add_overflow(start, to, &start) ? fail(EOVERFLOW) : start;
}

off_t lseek(int fd, off_t to, int from) {
  if (!is_data(fd)) return NEXT(lseek)(fd, to, from);
  int is_had = answers(fd) == 0;
  pthread_mutex_lock(&lock);
  if (is_had) errno = 0;
  off_t place = !is_had ? -1 : is_another() ? fail(ESTALE) : sought(fd, to, from);
  if (place >= 0 || errno == 0) place = NEXT(lseek)(fd, place, SEEK_SET);
  pthread_mutex_unlock(&lock);
  return is_to_repeat(place) ? lseek(fd, to, from) : place;
}
off_t lseek64(int fd, off_t to, int from) { return lseek(fd, to, from); }

static int cut(int fd, off_t to) {
  if (flags_to_write(fd) < 0) return errno == EBADF ? fail(EINVAL) : -1;
  pthread_mutex_lock(&lock);
  int result = is_another() ? fail(ESTALE) : resize(to);
  pthread_mutex_unlock(&lock);
  return result;
}
int ftruncate(int fd, off_t to) {
  if (!is_data(fd)) return NEXT(ftruncate)(fd, to);
  int result = cut(fd, to);
  return is_to_repeat(result) ? ftruncate(fd, to) : result;
}
int ftruncate64(int fd, off_t to) { return ftruncate(fd, to); }

int truncate(const char *path, off_t to) {
  if (!is_data_path(path)) return NEXT(truncate)(path, to);
  int fd = open(path, O_WRONLY | O_CLOEXEC);
  if (fd < 0) return -1;
  int result = ftruncate(fd, to), number = errno;
  if (close(fd) != 0) return -1;
  return result == 0 ? 0 : fail(number);
}
int truncate64(const char *path, off_t to) { return truncate(path, to); }

/* What gets longer is zeros. Many of them have no room on the disk, which commits take: so a sync may be refused for want of it. */
static int allocate(int fd, int mode, off_t at, off_t bytes) {
  off_t end;
  if (flags_to_write(fd) < 0) return -1;
  if (at < 0 || bytes <= 0) return fail(EINVAL);
  if (mode != 0 && mode != FALLOC_FL_KEEP_SIZE) return refuse("fallocate in this mode", EOPNOTSUPP);
  if (__builtin_add_overflow(at, bytes, &end) || (size_t)end > data.most) return too_long();
  if (mode != 0) return 0;
  pthread_mutex_lock(&lock);
  int result = is_another() ? fail(ESTALE) : lengthen((uint64_t)end);
  pthread_mutex_unlock(&lock);
  return result;
}
int fallocate(int fd, int mode, off_t at, off_t bytes) {
  if (!is_data(fd)) return NEXT(fallocate)(fd, mode, at, bytes);
  int result = allocate(fd, mode, at, bytes);
  return is_to_repeat(result) ? fallocate(fd, mode, at, bytes) : result;
}
int fallocate64(int fd, int mode, off_t at, off_t bytes) { return fallocate(fd, mode, at, bytes); }
int posix_fallocate(int fd, off_t at, off_t bytes) {
  if (!is_data(fd)) return NEXT(posix_fallocate)(fd, at, bytes);
  return fallocate(fd, 0, at, bytes) == 0 ? 0 : errno;
}
int posix_fallocate64(int fd, off_t at, off_t bytes) { return posix_fallocate(fd, at, bytes); }

/* Refused as between two file systems, so that the program falls back on reads and writes. */

ssize_t copy_file_range(int from, off64_t *from_at, int to, off64_t *to_at, size_t bytes, unsigned flags) {
  return is_data(from) || is_data(to) ? fail(EXDEV) : NEXT(copy_file_range)(from, from_at, to, to_at, bytes, flags);
}
ssize_t sendfile(int to, int from, off_t *at, size_t bytes) {
  return is_data(from) || is_data(to) ? fail(EINVAL) : NEXT(sendfile)(to, from, at, bytes);
}
ssize_t sendfile64(int to, int from, off_t *at, size_t bytes) { return sendfile(to, from, at, bytes); }
ssize_t splice(int from, off64_t *from_at, int to, off64_t *to_at, size_t bytes, unsigned flags) {
  return is_data(from) || is_data(to) ? fail(EINVAL) : NEXT(splice)(from, from_at, to, to_at, bytes, flags);
}

/* The descriptor that a request clones from; -1 where it clones none. */
static int source_of(unsigned long request, const void *argument) {
  if (request == FICLONE) return (int)(intptr_t)argument;
  return request == FICLONERANGE ? (int)((const struct file_clone_range *)argument)->src_fd : -1;
}

/* Requests of the bytes of a file would see the empty one, as a clone of it, which some file systems make. */
int ioctl(int fd, unsigned long request, ...) {
  va_list rest;
  va_start(rest, request);
  void *argument = va_arg(rest, void *);
  va_end(rest);
  int is_clone = request == FICLONE || request == FICLONERANGE || request == FIDEDUPERANGE;
  if (is_clone && (is_data(fd) || is_data(source_of(request, argument)))) return fail(EXDEV);
  if ((request == FS_IOC_FIEMAP || request == FIONREAD) && is_data(fd)) return fail(EOPNOTSUPP);
  return NEXT(ioctl)(fd, request, argument);
}

/* These are done by threads of the C library, whose reads and writes are not seen here. */

static int refuse_aio(void) { return refuse("asynchronous reads and writes of aio.h", EOPNOTSUPP); }
int aio_read(struct aiocb *job) { return is_data(job->aio_fildes) ? refuse_aio() : NEXT(aio_read)(job); }
int aio_write(struct aiocb *job) { return is_data(job->aio_fildes) ? refuse_aio() : NEXT(aio_write)(job); }
int aio_fsync(int kind, struct aiocb *job) { return is_data(job->aio_fildes) ? refuse_aio() : NEXT(aio_fsync)(kind, job); }
int aio_read64(struct aiocb64 *job) { return is_data(job->aio_fildes) ? refuse_aio() : NEXT(aio_read64)(job); }
int aio_write64(struct aiocb64 *job) { return is_data(job->aio_fildes) ? refuse_aio() : NEXT(aio_write64)(job); }
int aio_fsync64(int kind, struct aiocb64 *job) { return is_data(job->aio_fildes) ? refuse_aio() : NEXT(aio_fsync64)(kind, job); }

int lio_listio(int mode, struct aiocb *const jobs[], int count, struct sigevent *event) {
  for (int i = 0; i < count; i++)
    if (jobs[i] != NULL && is_data(jobs[i]->aio_fildes)) return refuse_aio();
  return NEXT(lio_listio)(mode, jobs, count, event);
}
int lio_listio64(int mode, struct aiocb64 *const jobs[], int count, struct sigevent *event) {
  for (int i = 0; i < count; i++)
    if (jobs[i] != NULL && is_data(jobs[i]->aio_fildes)) return refuse_aio();
  return NEXT(lio_listio64)(mode, jobs, count, event);
}
