/* Preloaded into a program, in front of the C library: requests for memory are counted, and some refused.
 *
 * Counted is each call that asks for memory from the start of the program on, by the program or by the C library for it, but none of the loader
 * before. The REFUSE_FIRST-th to the REFUSE_LAST-th fail with ENOMEM. REFUSE_TOLD is a file of four numbers of 8 bytes, which are those of
 * `counts` at each moment. */
#define _GNU_SOURCE
#include <errno.h>
#include <fcntl.h>
#include <stdint.h>
#include <stdlib.h>
#include <sys/mman.h>
#include <sys/syscall.h>
#include <sys/uio.h>
#include <unistd.h>

/* How many requests there were, how many of them were refused, and how many there were before standard input was read first and before
 * standard output was written first; -1 as long as it wasn't. */
struct counts {
    int64_t requests, refused, before_reading, before_writing;
};

static struct counts *counts;
static int64_t first, last;

void *__libc_malloc(size_t);
void *__libc_calloc(size_t, size_t);
void *__libc_realloc(void *, size_t);
void *__libc_memalign(size_t, size_t);

static int64_t number(const char *name) {
    const char *word = getenv(name);
    return word ? atoll(word) : 0;
}

/* The start of the program: the loader is done. */
__attribute__((constructor)) static void start(void) {
    const char *path = getenv("REFUSE_TOLD");
    int file = path ? open(path, O_RDWR | O_CREAT | O_CLOEXEC, 0600) : -1;
    if (file < 0 || ftruncate(file, sizeof *counts)) abort();
    first = number("REFUSE_FIRST");
    last = number("REFUSE_LAST");
    void *place = (void *)syscall(SYS_mmap, NULL, sizeof *counts, PROT_READ | PROT_WRITE, MAP_SHARED, file, 0);
    if (place == MAP_FAILED) abort();
    close(file);
    counts = place;
    *counts = (struct counts){.before_reading = -1, .before_writing = -1};
}

/* Counts a request; whether it is to fail. */
static int is_refused(void) {
    if (!counts) return 0;
    counts->requests++;
    if (counts->requests < first || last < counts->requests) return 0;
    counts->refused++;
    errno = ENOMEM;
    return 1;
}

void *malloc(size_t size) { return is_refused() ? NULL : __libc_malloc(size); }
void *calloc(size_t count, size_t size) { return is_refused() ? NULL : __libc_calloc(count, size); }
void *realloc(void *block, size_t size) { return is_refused() ? NULL : __libc_realloc(block, size); }
void *memalign(size_t to, size_t size) { return is_refused() ? NULL : __libc_memalign(to, size); }
void *aligned_alloc(size_t to, size_t size) { return is_refused() ? NULL : __libc_memalign(to, size); }

int posix_memalign(void **block, size_t to, size_t size) {
    if (is_refused()) return ENOMEM;
    void *found = __libc_memalign(to, size);
    if (found) *block = found;
    return found ? 0 : ENOMEM;
}

void *mmap64(void *at, size_t size, int prot, int flags, int file, off_t offset) {
    return is_refused() ? MAP_FAILED : (void *)syscall(SYS_mmap, at, size, prot, flags, file, offset);
}

void *mmap(void *at, size_t size, int prot, int flags, int file, off_t offset) {
    return is_refused() ? MAP_FAILED : (void *)syscall(SYS_mmap, at, size, prot, flags, file, offset);
}

/* Notes how many requests there were before the first use of a standard stream. */
static void use(int fd) {
    if (!counts) return;
    if (fd == STDIN_FILENO && counts->before_reading < 0) counts->before_reading = counts->requests;
    if (fd == STDOUT_FILENO && counts->before_writing < 0) counts->before_writing = counts->requests;
}

ssize_t read(int fd, void *bytes, size_t size) {
    use(fd);
    return syscall(SYS_read, fd, bytes, size);
}

ssize_t readv(int fd, const struct iovec *parts, int count) {
    use(fd);
    return syscall(SYS_readv, fd, parts, count);
}

ssize_t write(int fd, const void *bytes, size_t size) {
    use(fd);
    return syscall(SYS_write, fd, bytes, size);
}

ssize_t writev(int fd, const struct iovec *parts, int count) {
    use(fd);
    return syscall(SYS_writev, fd, parts, count);
}
