/* Preloaded into a program, in front of the C library: calls of a store device and of a swap device fail, or the power goes.
 *
 * TORN_FILE is the store's file. The TORN_CALL-th call on it (writes and syncs, and with TORN_READS reads too) fails with EIO where TORN_KIND is
 * "fail", and the TORN_CALL-th sync where it is "sync"; where it is "stop" the program ends at that call, and each sector that was written since the last
 * sync holds its old bytes, its new ones, zeros, noise or half of each, by chance (TORN_SEED). That is what the disk model lets a stop leave.
 *
 * The store's file holds what the system's cache shows. A sync that fails leaves what was written since the last one clean, as Linux does: reads give
 * it, and no later sync writes it, so the disk keeps what it held, until the sector is written again. With TORN_DEAF no write counts that comes after a
 * sync that failed. What the disk holds in the place of what is cached stands in the file TORN_CACHE, where there is one, from one program to the next; a
 * stop leaves what the disk holds.
 *
 * TORN_SWAP is the swap device's file. TORN_SWAP_COUNT calls on it (reads, writes and syncs) fail with EIO, from the TORN_SWAP_CALL-th on.
 *
 * With TORN_LOCK the store's file gets no lock: that fails with ENOLCK.
 *
 * A write that fails leaves its sectors as a stop would, and a read that fails leaves noise. TORN_TOLD is a file that gets a line for each call that
 * failed: store, swap or stop. */
#define _GNU_SOURCE
#include <dlfcn.h>
#include <errno.h>
#include <fcntl.h>
#include <stddef.h>
#include <stdint.h>
#include <stdlib.h>
#include <string.h>
#include <sys/file.h>
#include <sys/mman.h>
#include <sys/stat.h>
#include <unistd.h>

enum { SECTOR = 512, MOST = 1 << 16 };

/* A sector of which the disk may hold something else than the cache: what it held, and what was written. Of one that is lost the write counts as done. */
struct unsynced {
    int64_t at, is_lost;
    unsigned char before[SECTOR], after[SECTOR];
};

struct unsynced_sectors {
    int64_t count;
    struct unsynced each[MOST];
};

/* A device: how many calls of it are still to succeed, and how many are to fail then. */
struct device {
    const char *name, *path;
    int counts_reads;
    long left, failing;
};

static struct device store = {.name = "store\n"}, swap = {.name = "swap\n"};
static struct unsynced_sectors *written;
static int written_file = -1;
static uint64_t noise;
static int is_deaf, has_failed_sync;

static ssize_t (*next_pread)(int, void *, size_t, off_t);
static ssize_t (*next_pwrite)(int, const void *, size_t, off_t);
static int (*next_fsync)(int);
static int (*next_fdatasync)(int);
static int (*next_flock)(int, int);

static long number(const char *name) {
    const char *word = getenv(name);
    return word ? atol(word) : 0;
}

/* Whether the calls of the store that count are of this kind. */
static int is_kind(const char *kind) {
    const char *word = getenv("TORN_KIND");
    return word && !strcmp(word, kind);
}

/* Has room for so many sectors in the file that keeps them. */
static void keep(int64_t count) {
    off_t size = (off_t)(offsetof(struct unsynced_sectors, each) + (size_t)count * sizeof written->each[0]);
    if (written_file >= 0 && ftruncate(written_file, size)) abort();
}

/* The sectors that earlier programs left, or none. */
static void find_written(void) {
    const char *path = getenv("TORN_CACHE");
    struct stat it;
    int flags = MAP_PRIVATE | MAP_ANONYMOUS | MAP_NORESERVE;
    if (path) {
        written_file = open(path, O_RDWR | O_CREAT | O_CLOEXEC, 0600);
        if (written_file < 0 || fstat(written_file, &it)) abort();
        if (!it.st_size) keep(0);
        flags = MAP_SHARED;
    }
    written = mmap(NULL, sizeof *written, PROT_READ | PROT_WRITE, flags, written_file, 0);
    if (written == MAP_FAILED) abort();
}

__attribute__((constructor)) static void find(void) {
    next_pread = dlsym(RTLD_NEXT, "pread64");
    next_pwrite = dlsym(RTLD_NEXT, "pwrite64");
    next_fsync = dlsym(RTLD_NEXT, "fsync");
    next_fdatasync = dlsym(RTLD_NEXT, "fdatasync");
    next_flock = dlsym(RTLD_NEXT, "flock");
    store.path = getenv("TORN_FILE");
    store.counts_reads = getenv("TORN_READS") != NULL;
    store.left = number("TORN_CALL") - 1;
    store.failing = store.left >= 0;
    swap.path = getenv("TORN_SWAP");
    swap.counts_reads = 1;
    swap.left = number("TORN_SWAP_CALL") - 1;
    swap.failing = number("TORN_SWAP_COUNT");
    noise = 0x9e3779b97f4a7c15u * (uint64_t)(number("TORN_SEED") + 1);
    is_deaf = getenv("TORN_DEAF") != NULL;
    find_written();
}

static uint64_t chance(void) {
    noise ^= noise << 13;
    noise ^= noise >> 7;
    noise ^= noise << 17;
    return noise;
}

static void fill(unsigned char *bytes, size_t size) {
    for (size_t i = 0; i < size; i++) bytes[i] = (unsigned char)chance();
}

static int is_at(const char *path, const struct stat *it) {
    struct stat wanted;
    return path && !stat(path, &wanted) && it->st_ino == wanted.st_ino && it->st_dev == wanted.st_dev;
}

/* The device whose file the descriptor is of, or none. */
static struct device *device_of(int fd) {
    struct stat it;
    if (fstat(fd, &it)) return NULL;
    return is_at(store.path, &it) ? &store : is_at(swap.path, &it) ? &swap : NULL;
}

/* What a sector holds after a stop, or after a write that failed. */
static void tear(const struct unsynced *it, unsigned char *left) {
    uint64_t kind = chance() % 5;
    memcpy(left, kind == 0 ? it->before : it->after, SECTOR);
    if (kind == 2) memset(left, 0, SECTOR);
    if (kind == 3) memcpy(left + SECTOR / 2, it->before + SECTOR / 2, SECTOR / 2);
    if (kind == 4) fill(left, SECTOR);
}

/* Forgets the sectors that are lost (1), or those that are not (0): the disk holds what is cached of them. */
static void forget(int that_are_lost) {
    int64_t kept = 0;
    for (int64_t i = 0; i < written->count; i++)
        if (written->each[i].is_lost != that_are_lost) written->each[kept++] = written->each[i];
    written->count = kept;
    keep(kept);
}

/* Gives the sectors that are lost what the disk holds. The program itself may have the file to read alone. */
static void drop(void) {
    int fd = open(store.path, O_WRONLY | O_CLOEXEC);
    for (const struct unsynced *it = written->each; it < written->each + written->count; it++)
        if (it->is_lost && next_pwrite(fd, it->before, SECTOR, it->at) != SECTOR) abort();
    close(fd);
    forget(1);
}

static void stop(int fd) {
    unsigned char left[SECTOR];
    drop();
    for (const struct unsynced *it = written->each; it < written->each + written->count; it++) {
        tear(it, left);
        next_pwrite(fd, left, SECTOR, it->at);
    }
    forget(0);
    next_fsync(fd);
    _exit(70);
}

/* Notes the sectors of a write as unsynced, with what they held. */
static void note(int fd, const unsigned char *bytes, size_t size, off_t at) {
    for (size_t done = 0; done + SECTOR <= size; done += SECTOR) {
        int64_t i = 0;
        while (i < written->count && written->each[i].at != at + (off_t)done) i++;
        if (i == MOST) abort();
        struct unsynced *it = &written->each[i];
        if (i == written->count) {
            keep(i + 1);
            it->at = at + (off_t)done;
            if (next_pread(fd, it->before, SECTOR, it->at) < 0) abort();
            written->count = i + 1;
        }
        it->is_lost = 0;
        memcpy(it->after, bytes + done, SECTOR);
    }
}

/* Leaves the sectors of a write that fails. */
static void spoil(int fd, const unsigned char *bytes, size_t size, off_t at) {
    unsigned char left[SECTOR];
    for (size_t done = 0; done + SECTOR <= size; done += SECTOR) {
        struct unsynced it = {.at = at + (off_t)done};
        if (next_pread(fd, it.before, SECTOR, it.at) < 0) abort();
        memcpy(it.after, bytes + done, SECTOR);
        tear(&it, left);
        next_pwrite(fd, left, SECTOR, it.at);
    }
}

static void tell(const char *name) {
    const char *path = getenv("TORN_TOLD");
    int file = path ? open(path, O_WRONLY | O_APPEND | O_CREAT | O_CLOEXEC, 0600) : -1;
    if (file < 0) return;
    if (write(file, name, strlen(name)) < 0) abort();
    close(file);
}

/* Whether this call of the device fails; a stop does not return. */
static int fails(struct device *device, int fd) {
    if (device->left > 0) {
        device->left--;
        return 0;
    }
    if (device->failing <= 0) return 0;
    device->failing--;
    if (device == &store && is_kind("stop")) {
        tell("stop\n");
        stop(fd);
    }
    tell(device->name);
    return 1;
}

static int failed(void) {
    errno = EIO;
    return -1;
}

ssize_t pwrite64(int fd, const void *bytes, size_t size, off_t at) {
    struct device *device = device_of(fd);
    if (device == &store && is_deaf && has_failed_sync) return (ssize_t)size;
    if (device == &store) note(fd, bytes, size, at);
    if (!device || (device == &store && is_kind("sync")) || !fails(device, fd)) return next_pwrite(fd, bytes, size, at);
    spoil(fd, bytes, size, at);
    return failed();
}

ssize_t pread64(int fd, void *bytes, size_t size, off_t at) {
    struct device *device = device_of(fd);
    if (!device || !device->counts_reads || !fails(device, fd)) return next_pread(fd, bytes, size, at);
    fill(bytes, size);
    return failed();
}

static int synced(int fd, int (*next)(int)) {
    struct device *device = device_of(fd);
    if (device && fails(device, fd)) {
        has_failed_sync |= device == &store;
        for (int64_t i = 0; device == &store && i < written->count; i++) written->each[i].is_lost = 1;
        return failed();
    }
    int result = next(fd);
    if (!result && device == &store) forget(0);
    return result;
}

int flock(int fd, int how) {
    if (!getenv("TORN_LOCK") || device_of(fd) != &store) return next_flock(fd, how);
    errno = ENOLCK;
    return -1;
}

int fsync(int fd) { return synced(fd, next_fsync); }
int fdatasync(int fd) { return synced(fd, next_fdatasync); }
ssize_t pwrite(int fd, const void *bytes, size_t size, off_t at) { return pwrite64(fd, bytes, size, at); }
ssize_t pread(int fd, void *bytes, size_t size, off_t at) { return pread64(fd, bytes, size, at); }
