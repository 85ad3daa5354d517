/* losses FOLDER: what would lose bytes that were committed, or tear what a reader sees, without a word: reads past the page cache into mapped memory, a creation
   that fails late, zeros that a tool makes holes of, commits that threads wait for on a device that fails. Each case is a process of its own (cases.h). */
#define _GNU_SOURCE
#define PROGRAM "losses"
#include "cases.h"
#include <errno.h>
#include <linux/io_uring.h>
#include <pthread.h>
#include <sys/mman.h>
#include <sys/syscall.h>
#include <sys/uio.h>

/* Syncs of folders that fail, after something else has happened */

static void (*before_folder_sync)(void);

int fsync(int fd) {
  struct stat there;
  if (before_folder_sync == NULL || fstat(fd, &there) != 0 || !S_ISDIR(there.st_mode)) return (int)syscall(SYS_fsync, fd);
  before_folder_sync();
  return errno = EIO, -1;
}

/* Syncs of an image that take long, and of which one fails */

static int failing_number;

int fdatasync(int fd) {
  int number = __atomic_exchange_n(&failing_number, 0, __ATOMIC_SEQ_CST);
  nanosleep(&(struct timespec){0, 5000000}, NULL);
  return number == 0 ? (int)syscall(SYS_fdatasync, fd) : (errno = number, -1);
}

/* Reads past the page cache */

enum { READS = 400, BLOCKS = 64 };
static volatile int is_over;

static void *commit_for_ever(void *unused) {
  while (!is_over) DONE(kefs_commit(image, NULL, 0, NULL));
  return unused;
}

/* A file whose page `k` is full of the byte k + 1, open past the page cache. */
static int open_direct(void) {
  static unsigned char page[PAGE];
  int fd = open("direct.bin", O_RDWR | O_CREAT | O_TRUNC, 0600);
  for (int k = 0; k < BLOCKS; k++) {
    memset(page, k + 1, PAGE);
    must_move(write(fd, page, PAGE), PAGE, "direct.bin");
  }
  close(fd);
  fd = open("direct.bin", O_RDONLY | O_DIRECT);
  if (fd < 0) _exit(SKIPPED);
  return fd;
}

/* A commit may close the page between the two calls, with the trackers that close pages: then the read is made again. */
static void read_marked(int fd, unsigned char *to, int block) {
  ssize_t made;
  do {
    DONE(kefs_mark_dirty(image, to, PAGE));
    made = pread(fd, to, PAGE, (off_t)block * PAGE);
    CHECK(made == PAGE || (made < 0 && errno == EFAULT));
  } while (made < 0);
  DONE(kefs_mark_dirty(image, to, PAGE));
}

static void a_read_past_the_page_cache_that_is_marked_is_durable(void) {
  unsigned char wanted[PAGES] = {0};
  pthread_t thread;
  begin(PAGES, 0);
  int fd = open_direct();
  CHECK(pthread_create(&thread, NULL, commit_for_ever, NULL) == 0);
  for (int i = 0; i < READS; i++) {
    int k = (int)(random() % PAGES), block = (int)(random() % BLOCKS);
    read_marked(fd, a + k * PAGE, block);
    wanted[k] = (unsigned char)(block + 1);
  }
  is_over = 1;
  CHECK(pthread_join(thread, NULL) == 0);
  DONE(kefs_commit(image, NULL, 0, NULL));
  open_again();
  for (int k = 0; k < PAGES; k++) CHECK(a[k * PAGE] == wanted[k] && a[k * PAGE + PAGE - 1] == wanted[k]);
  DONE(kefs_close(image));
}

/* io_uring's fixed buffers stay pinned from one read to the next, so one thread is enough. */

static struct ring { int fd; unsigned char *queue; struct io_uring_sqe *entries; struct io_uring_params facts; } ring;

static void begin_ring(void) {
  ring.fd = (int)syscall(SYS_io_uring_setup, 2, &ring.facts);
  if (ring.fd < 0) _exit(SKIPPED);
  ring.queue = mmap(NULL, PAGE, PROT_READ | PROT_WRITE, MAP_SHARED | MAP_POPULATE, ring.fd, IORING_OFF_SQ_RING);
  ring.entries = mmap(NULL, PAGE, PROT_READ | PROT_WRITE, MAP_SHARED | MAP_POPULATE, ring.fd, IORING_OFF_SQES);
  CHECK(ring.queue != MAP_FAILED && ring.entries != MAP_FAILED);
  struct iovec buffer = {a, PAGES * PAGE};
  if (syscall(SYS_io_uring_register, ring.fd, IORING_REGISTER_BUFFERS, &buffer, 1) != 0) _exit(SKIPPED);
}

static void read_by_ring(int fd, int k, int block) {
  unsigned *tail = (unsigned *)(void *)(ring.queue + ring.facts.sq_off.tail), mask = *(unsigned *)(void *)(ring.queue + ring.facts.sq_off.ring_mask), at = *tail & mask;
  ring.entries[at] = (struct io_uring_sqe){.opcode = IORING_OP_READ_FIXED, .fd = fd, .off = (unsigned long long)block * PAGE, .addr = (uintptr_t)(a + k * PAGE), .len = PAGE};
  ((unsigned *)(void *)(ring.queue + ring.facts.sq_off.array))[at] = at;
  __atomic_store_n(tail, *tail + 1, __ATOMIC_RELEASE);
  CHECK(syscall(SYS_io_uring_enter, ring.fd, 1, 1, IORING_ENTER_GETEVENTS, NULL, 0) == 1);
  unsigned *head = (unsigned *)(void *)(ring.queue + ring.facts.cq_off.head), last = *(unsigned *)(void *)(ring.queue + ring.facts.cq_off.ring_mask);
  const struct io_uring_cqe *done = (struct io_uring_cqe *)(void *)(ring.queue + ring.facts.cq_off.cqes) + (*head & last);
  CHECK(done->res == PAGE);
  __atomic_store_n(head, *head + 1, __ATOMIC_RELEASE);
}

static void a_read_into_a_fixed_buffer_that_is_marked_is_durable(void) {
  begin(PAGES, 0);
  int fd = open_direct();
  DONE(kefs_mark_dirty(image, a, PAGES * PAGE));
  begin_ring();
  DONE(kefs_commit(image, NULL, 0, NULL));
  for (int k = 0; k < PAGES; k++) {
    read_by_ring(fd, k, k % BLOCKS);
    DONE(kefs_mark_dirty(image, a + k * PAGE, PAGE));
    DONE(kefs_commit(image, NULL, 0, NULL));
  }
  close(ring.fd);
  open_again();
  for (int k = 0; k < PAGES; k++) CHECK(a[k * PAGE] == k % BLOCKS + 1 && a[k * PAGE + PAGE - 1] == k % BLOCKS + 1);
  DONE(kefs_close(image));
}

/* Commits that threads wait for */

enum { WAITERS = 8 };
struct waiter { pthread_t thread; int page, started, waited; uint64_t ticket; };

static void *start_and_wait(void *of) {
  struct waiter *it = of;
  struct kefs_range range = {a + it->page * PAGE, PAGE};
  it->waited = KEFS_HALTED;
  it->started = kefs_commit_start(image, &range, 1, NULL, &it->ticket);
  if (it->started == KEFS_OK) it->waited = kefs_commit_wait(image, it->ticket);
  return NULL;
}

/* Has threads wait for a page each, on a device whose next sync fails: how many had this result of their wait. */
static int wait_in_vain(struct waiter *waiters, int number, int result) {
  int count = 0;
  for (int i = 0; i < WAITERS; i++) store(a + i * PAGE, 1), waiters[i] = (struct waiter){.page = i};
  __atomic_store_n(&failing_number, number, __ATOMIC_SEQ_CST);
  for (int i = 0; i < WAITERS; i++) CHECK(pthread_create(&waiters[i].thread, NULL, start_and_wait, &waiters[i]) == 0);
  for (int i = 0; i < WAITERS; i++) pthread_join(waiters[i].thread, NULL), count += waiters[i].waited == result;
  return count;
}

static void start_again(const struct waiter *waiters) {
  uint64_t ticket;
  for (int i = 0; i < WAITERS; i++) {
    if (waiters[i].started == KEFS_OK) DONE(kefs_commit_wait(image, waiters[i].ticket));
    CHECK(waiters[i].started == KEFS_OK || waiters[i].started == KEFS_HALTED);
  }
  DONE(kefs_commit_start(image, NULL, 0, NULL, &ticket));
  DONE(kefs_commit_wait(image, ticket));
  open_again();
  for (int i = 0; i < WAITERS; i++) CHECK(a[i * PAGE] == 1);
  DONE(kefs_close(image));
}

static void a_failed_sync_fails_all_that_wait(void) {
  struct waiter waiters[WAITERS];
  int stands;
  begin(PAGES, 0);
  int device = wait_in_vain(waiters, EIO, KEFS_DEVICE), halted = 0;
  for (int i = 0; i < WAITERS; i++) halted += waiters[i].waited == KEFS_HALTED;
  CHECK(device > 0 && device + halted == WAITERS);
  uint64_t ticket;
  RETURNS(KEFS_HALTED, kefs_commit_start(image, NULL, 0, NULL, &ticket));
  DONE(kefs_recover(image, &stands));
  start_again(waiters);
}

static void a_full_device_refuses_those_that_went_as_one(void) {
  struct waiter waiters[WAITERS];
  begin(PAGES, 0);
  int refused = wait_in_vain(waiters, ENOSPC, ENOSPC), done = 0;
  for (int i = 0; i < WAITERS; i++) done += waiters[i].waited == KEFS_OK;
  CHECK(refused > 0 && refused + done == WAITERS);
  start_again(waiters);
}

/* Creation */

static void commit_as_another(void) {
  before_folder_sync = NULL;
  pid_t child = fork();
  if (child == 0) {
    a = open_file(PATH, &image);
    store(a, 7);
    DONE(kefs_commit(image, NULL, 0, NULL));
    _exit(kefs_close(image));
  }
  CHECK(status_of(child) == 0);
}

static void an_image_that_another_has_keeps_its_name(void) {
  struct kefs_file file = {PAGE, 0, NULL};
  struct kefs_options options = {.size = sizeof options, .permissions = 0600, .files = &file, .count = 1};
  unlink(PATH);
  before_folder_sync = commit_as_another;
  RETURNS(KEFS_DEVICE, kefs_open_with(&image, PATH, KEFS_CREATE, &options));
  before_folder_sync = NULL;
  CHECK(access(PATH, F_OK) == 0);
  a = open_file(PATH, &image);
  CHECK(a[0] == 7);
  DONE(kefs_close(image));
}

/* A folder that may be written and searched, and not read: nobody can sync it by a descriptor. */
static void a_folder_that_is_not_read_takes_an_image(void) {
  struct kefs_file file = {PAGE, 0, NULL};
  struct kefs_options options = {.size = sizeof options, .permissions = 0600, .files = &file, .count = 1};
  unlink("closed/one.img"), unlink("closed/two.img"), rmdir("closed");
  CHECK(mkdir("closed", 0700) == 0 && chmod("closed", 0333) == 0);
  if (getuid() == 0) CHECK(chown("closed", 65534, 65534) == 0 && chdir("closed") == 0 && setgid(65534) == 0 && setuid(65534) == 0);
  else CHECK(chdir("closed") == 0);
  DONE(kefs_format("one.img", 0600, &file, 1));
  DONE(kefs_open_with(&image, "two.img", KEFS_CREATE, &options));
  DONE(kefs_close(image));
  DONE(kefs_open(&image, "one.img", 0));
  DONE(kefs_close(image));
}

/* Snapshots */

static void commit_byte(int k, unsigned char byte) {
  memset(a + k * PAGE, byte, PAGE);
  DONE(kefs_mark_dirty(image, a + k * PAGE, PAGE));
  DONE(kefs_commit(image, NULL, 0, NULL));
}

/* Makes a hole of each block of the image's file that is zeros, as `fallocate --dig-holes` does, which changes no byte. */
static void dig_holes(void) {
  static char page[PAGE];
  int fd = open(PATH, O_RDWR);
  for (off_t at = 0; pread(fd, page, PAGE, at) == PAGE; at += PAGE)
    if (is_zeros(page, PAGE) && fallocate(fd, FALLOC_FL_PUNCH_HOLE | FALLOC_FL_KEEP_SIZE, at, PAGE) != 0) _exit(SKIPPED);
  close(fd);
}

static const unsigned char *open_snapshot(kefs_image **to) {
  void *at;
  DONE(kefs_open(to, PATH, KEFS_SNAPSHOT));
  DONE(kefs_map(*to, 0, NULL, &at, NULL));
  return at;
}

static void committed_zeros_that_are_holes_are_seen(void) {
  kefs_image *reader;
  flags = KEFS_TRACK_CALLER;
  begin(PAGES, 5);
  const unsigned char *seen = open_snapshot(&reader);
  CHECK(seen[3 * PAGE] == 5);
  for (int k = 3; k < 40; k++) commit_byte(k, k % 2 == 0 ? 6 : 0);
  commit_byte(50, 7), commit_byte(51, 8);
  dig_holes();
  DONE(kefs_refresh(reader, NULL));
  for (int k = 3; k < 40; k++) CHECK(seen[k * PAGE] == (k % 2 == 0 ? 6 : 0) && seen[k * PAGE + PAGE - 1] == seen[k * PAGE]);
  CHECK(seen[50 * PAGE] == 7 && seen[51 * PAGE] == 8 && seen[0] == 5);
  DONE(kefs_close(reader));
  DONE(kefs_close(image));
}

static const struct test with_each_tracker[] = {
  TEST(a_read_past_the_page_cache_that_is_marked_is_durable), TEST(a_read_into_a_fixed_buffer_that_is_marked_is_durable),
  TEST(a_failed_sync_fails_all_that_wait), TEST(a_full_device_refuses_those_that_went_as_one)};
static const struct test once[] = {
  TEST(an_image_that_another_has_keeps_its_name), TEST(a_folder_that_is_not_read_takes_an_image), TEST(committed_zeros_that_are_holes_are_seen)};

int main(int argc, char **argv) { return argc < 2 ? 2 : run_cases(argv, once, COUNT_OF(once), with_each_tracker, COUNT_OF(with_each_tracker)); }
