/* check FOLDER: tries every call of kefs.h on images that it makes in FOLDER, with each tracker that the system has. The images are of layout 4, or of
   that which the environment's LAYOUT says. */
#define _GNU_SOURCE
#include "tests.h"
#include <errno.h>
#include <fcntl.h>
#include <pthread.h>
#include <setjmp.h>
#include <signal.h>
#include <stdio.h>
#include <stdlib.h>
#include <string.h>
#include <sys/mman.h>
#include <sys/resource.h>
#include <sys/wait.h>
#include <unistd.h>

enum { PAGE = KEFS_PAGE };
static int checks;

static void check_that(int holds, const char *what, int line) {
  __atomic_fetch_add(&checks, 1, __ATOMIC_RELAXED);
  if (!holds) fprintf(stderr, "check.c:%d: not so: %s\n", line, what), exit(1);
}
#define CHECK(condition) check_that((condition) != 0, #condition, __LINE__)

static void check_result(int wanted, int result, const char *call, int line) {
  __atomic_fetch_add(&checks, 1, __ATOMIC_RELAXED);
  if (result != wanted) fprintf(stderr, "check.c:%d: %s returned %d (%s: %s)\n", line, call, result, kefs_name(result), kefs_strerror(result)), exit(1);
}
#define RETURNS(wanted, call) check_result(wanted, call, #call, __LINE__)
#define DONE(call) RETURNS(KEFS_OK, call)

/* What most tests use: an image of three files, 8 pages, a page and a bit, and a read-only page of 'r'. */
static unsigned flags; /* of the tracker that is tried, and KEFS_LAZY */
static const char *path = "check.img";
static kefs_image *image;
static unsigned char *a, *b;

static void make_image(uint32_t pages) {
  static char r[PAGE];
  memset(r, 'r', sizeof r);
  struct kefs_file files[] = {{PAGE * pages, 0, NULL}, {PAGE + 904, 0, NULL}, {PAGE, KEFS_FILE_READ_ONLY, r}, {0, 0, NULL}};
  unlink(path);
  DONE(format_image(path, 0600, files, 4));
}

static void write_at(off_t offset, const void *bytes, size_t length) {
  int fd = open(path, O_RDWR);
  CHECK(pwrite(fd, bytes, length, offset) == (ssize_t)length);
  close(fd);
}

static unsigned char *mapped(unsigned file) {
  void *at;
  DONE(kefs_map(image, file, NULL, &at, NULL));
  return at;
}

static void open_and_map(void) {
  DONE(kefs_open(&image, path, flags));
  a = mapped(0), b = mapped(1);
}

static void open_again(void) {
  DONE(kefs_close(image));
  open_and_map();
}

static void begin(void) {
  make_image(8);
  open_and_map();
}

static void store(unsigned char *at, unsigned char value) {
  *(volatile unsigned char *)at = value;
  if ((flags & KEFS_TRACK_CALLER) != 0) DONE(kefs_mark_dirty(image, at, 1));
}

static size_t committed(void) {
  size_t taken = 99;
  DONE(kefs_commit(image, NULL, 0, &taken));
  return taken;
}

static size_t written(void) {
  size_t pages = 99;
  DONE(kefs_count_dirty(image, NULL, 0, &pages));
  return pages;
}

static int tracks_by(unsigned tracker) {
  struct kefs_stat stat = {.size = sizeof stat};
  DONE(kefs_stat(image, &stat));
  return strcmp(stat.tracker, tracker == KEFS_TRACK_SCAN ? "scan" : tracker == KEFS_TRACK_SIGNAL ? "signal" : "caller") == 0;
}

static int reads_late(void) {
  struct kefs_stat stat = {.size = sizeof stat};
  DONE(kefs_stat(image, &stat));
  return (int)stat.lazy;
}

/* Commits */

static void commits_are_durable(void) {
  begin();
  CHECK(committed() == 0);
  store(a, 1), store(a + 7 * PAGE + 5, 2), store(b + PAGE + 903, 3), store(b + PAGE + 904, 4);
  CHECK(written() == 3 && committed() == 3 && committed() == 0);
  store(a, 5);
  CHECK(written() == 1);
  open_again();
  CHECK(a[0] == 1 && a[7 * PAGE + 5] == 2 && b[PAGE + 903] == 3 && b[PAGE + 904] == 0);
  CHECK(committed() == 0);
  DONE(kefs_close(image));
}

static void commits_follow_one_another(void) {
  begin();
  for (int i = 1; i <= 50; i++) {
    for (int k = i % 3; k < 8; k += 1 + i % 4) store(a + k * PAGE + i, (unsigned char)(i + k));
    DONE(kefs_msync(image, i % 2 ? NULL : a, i % 2 ? 0 : 8 * PAGE));
  }
  unsigned char kept[8 * PAGE];
  memcpy(kept, a, sizeof kept);
  open_again();
  CHECK(memcmp(kept, a, sizeof kept) == 0);
  DONE(kefs_close(image));
}

static unsigned long syncs(void) {
  struct kefs_stat stat = {.size = sizeof stat};
  DONE(kefs_stat(image, &stat));
  return (unsigned long)stat.syncs;
}

static void a_commit_takes_so_many_syncs(void) {
  begin();
  for (int k = 0; k < 8; k++) {
    unsigned long before = syncs();
    for (int page = 0; page <= k; page++) store(a + page * PAGE, (unsigned char)k);
    CHECK(committed() == (size_t)k + 1);
    if (k > 0) CHECK(syncs() - before == image_sectors()->syncs);
  }
  DONE(kefs_close(image));
}

/* A page that two commits take has its home written by the first one after them that does not: until then it stands in a journal alone, and is read, rolled
   back and recovered from there. */
static void pages_that_stay_in_a_journal_are_read_there(void) {
  begin();
  for (int k = 0; k < 8; k++) store(a + k * PAGE, 1);
  CHECK(committed() == 8);
  for (int n = 2; n < 8; n++) {
    store(a, (unsigned char)n), store(a + n * PAGE, (unsigned char)n);
    CHECK(committed() == 2);
    store(a, 99), store(a + n * PAGE, 99);
    DONE(kefs_rollback(image, NULL, 0));
    for (int k = 0; k < 8; k++) CHECK(a[k * PAGE] == (k == 0 ? n : k > n || k == 1 ? 1 : k));
    if (n % 2 == 0) open_again();
    DONE(kefs_unmap(image, 0));
    a = mapped(0);
    for (int k = 0; k < 8; k++) CHECK(a[k * PAGE] == (k == 0 ? n : k > n || k == 1 ? 1 : k));
  }
  DONE(kefs_close(image));
  DONE(kefs_open(&image, path, KEFS_RDONLY | (flags & KEFS_LAZY)));
  a = mapped(0);
  for (int k = 0; k < 8; k++) CHECK(a[k * PAGE] == (k == 0 ? 7 : k == 1 ? 1 : k));
  DONE(kefs_close(image));
}

/* A home is written by the commit after that of its page, when the page in memory may have later stores, which no commit took. */
static void homes_have_what_was_committed(void) {
  begin();
  store(a, 1), store(b + PAGE, 2);
  CHECK(committed() == 2);
  store(a, 3), store(b + PAGE, 4), store(a + PAGE, 5);
  DONE(kefs_msync(image, a + PAGE, 1));
  CHECK(written() == 2);
  open_again();
  CHECK(a[0] == 1 && b[PAGE] == 2 && a[PAGE] == 5);
  DONE(kefs_close(image));
}

static void ranges_choose_pages(void) {
  begin();
  for (int k = 0; k < 8; k++) store(a + k * PAGE, 1);
  store(b, 1);
  struct kefs_range ranges[] = {{a + PAGE - 1, 2}, {a + PAGE, 1}, {b + 100, 10}, {a + 5 * PAGE, 0}, {NULL, PAGE}, {a + 7 * PAGE, SIZE_MAX}};
  size_t pages;
  DONE(kefs_count_dirty(image, ranges, 5, &pages));
  CHECK(pages == 3);
  DONE(kefs_commit(image, ranges, 5, &pages));
  CHECK(pages == 3 && written() == 6);
  DONE(kefs_count_dirty(image, ranges + 5, 1, &pages));
  CHECK(pages == 1);
  RETURNS(EINVAL, kefs_commit(image, NULL, 1, NULL));
  open_again();
  for (int k = 0; k < 8; k++) CHECK(a[k * PAGE] == (k < 2));
  CHECK(b[0] == 1);
  DONE(kefs_close(image));
}

static void too_many_pages_are_refused_and_not_for_good(void) {
  int most = (int)image_sectors()->most, all = most + 7;
  char words[16];
  snprintf(words, sizeof words, "%d", most);
  make_image((uint32_t)all);
  open_and_map();
  for (int k = 0; k < all; k++) store(a + k * PAGE, 1);
  RETURNS(KEFS_TOO_MANY, kefs_commit(image, NULL, 0, NULL));
  CHECK(strstr(kefs_errmsg(image), words) != NULL && written() == (size_t)all);
  struct kefs_range parts[] = {{a, (size_t)most * PAGE}, {a + most * PAGE, 7 * PAGE}};
  size_t taken;
  DONE(kefs_commit(image, parts, 1, &taken));
  CHECK(taken == (size_t)most);
  DONE(kefs_commit(image, parts + 1, 1, &taken));
  CHECK(taken == 7);
  for (int k = 0; k < all; k++) store(a + k * PAGE, 2);
  RETURNS(KEFS_TOO_MANY, kefs_commit(image, NULL, 0, NULL));
  DONE(kefs_rollback(image, NULL, 0));
  store(a + 3 * PAGE, 3);
  CHECK(committed() == 1);
  open_again();
  for (int k = 0; k < all; k++) CHECK(a[k * PAGE] == (k == 3 ? 3 : 1));
  DONE(kefs_close(image));
}

/* A file of over 2 MiB, whose marks are looked at in parts. */
static void scattered_pages_are_found(void) {
  enum { MANY = 2600 };
  static unsigned char wanted[MANY], dirty[MANY];
  memset(wanted, 0, sizeof wanted), memset(dirty, 0, sizeof dirty);
  make_image(MANY);
  open_and_map();
  for (int round = 1; round < 60; round++) {
    size_t pages = 0, taken, first = (size_t)random() % MANY, end = first + (size_t)random() % (MANY - first) + 1;
    for (int i = (int)(random() % 20); i >= 0; i--) {
      size_t k = (size_t)random() % MANY;
      store(a + k * PAGE, (unsigned char)round), dirty[k] = 1, wanted[k] = (unsigned char)round;
    }
    if (round % 3 == 0) first = 0, end = MANY;
    for (size_t k = first; k < end; k++) pages += dirty[k], dirty[k] = 0;
    struct kefs_range some = {a + first * PAGE, (end - first) * PAGE};
    if (round % 5 == 0) CHECK(written() >= pages);
    DONE(kefs_commit(image, &some, 1, &taken));
    CHECK(taken == pages);
  }
  committed();
  open_again();
  for (int k = 0; k < MANY; k++) CHECK(a[k * PAGE] == wanted[k]);
  DONE(kefs_close(image));
}

static void a_roll_back_shows_what_is_durable(void) {
  begin();
  for (int k = 0; k < 8; k++) store(a + k * PAGE, 1);
  store(b + PAGE, 1);
  CHECK(committed() == 9);
  store(a, 2);
  CHECK(committed() == 1);
  for (int k = 0; k < 8; k++) store(a + k * PAGE, 3);
  store(b + PAGE + 10, 3), store(b + PAGE + 904, 3);
  struct kefs_range first = {a, 2 * PAGE};
  DONE(kefs_rollback(image, &first, 1));
  CHECK(a[0] == 2 && a[PAGE] == 1 && a[2 * PAGE] == 3 && written() == 7);
  DONE(kefs_rollback(image, NULL, 0));
  for (int k = 1; k < 8; k++) CHECK(a[k * PAGE] == 1);
  CHECK(b[PAGE] == 1 && b[PAGE + 10] == 0 && b[PAGE + 904] == 0 && written() == 0 && committed() == 0);
  store(a + PAGE, 4);
  CHECK(committed() == 1);
  open_again();
  CHECK(a[0] == 2 && a[PAGE] == 4 && a[2 * PAGE] == 1);
  DONE(kefs_close(image));
}

#include "check_starts.h"

/* Mapping */

static void a_mapping_has_its_file(void) {
  void *at, *there = mmap(NULL, 16 * PAGE, PROT_NONE, MAP_PRIVATE | MAP_ANONYMOUS, -1, 0);
  size_t length = 1;
  begin();
  DONE(kefs_length(image, 1, &length));
  CHECK(length == PAGE + 904);
  RETURNS(KEFS_NO_FILE, kefs_map(image, 4, NULL, &at, NULL));
  RETURNS(KEFS_NO_FILE, kefs_length(image, 64, &length));
  DONE(kefs_map(image, 3, NULL, &at, &length));
  CHECK(at == NULL && length == 0);
  DONE(kefs_map(image, 0, a, &at, &length));
  CHECK(at == a && length == 8 * PAGE);
  RETURNS(EEXIST, kefs_map(image, 0, a + PAGE, &at, &length));
  RETURNS(EINVAL, kefs_map(image, 2, a + 1, &at, NULL));
  RETURNS(EEXIST, kefs_map(image, 2, there, &at, NULL));
  munmap(there, 16 * PAGE);
  DONE(kefs_map(image, 2, there, &at, NULL));
  CHECK(at == there && *(unsigned char *)at == 'r' && ((unsigned char *)at)[PAGE - 1] == 'r');
  RETURNS(KEFS_READ_ONLY, kefs_mark_dirty(image, at, 1));
  DONE(kefs_unmap(image, 2));
  RETURNS(KEFS_NO_FILE, kefs_unmap(image, 2));
  DONE(kefs_close(image));
  DONE(kefs_close(NULL));
}

/* Where no other hole is left in the process's memory, or none above it, which the system would take first. */
static void the_place_that_was_asked_for_is_had(void) {
  enum { MOST = 2000 };
  static void *filled[MOST];
  int count = 0;
  begin();
  DONE(kefs_unmap(image, 0));
  void *at, *there = mmap(NULL, 8 * PAGE, PROT_NONE, MAP_PRIVATE | MAP_ANONYMOUS, -1, 0);
  do filled[count] = mmap(NULL, PAGE, PROT_NONE, MAP_PRIVATE | MAP_ANONYMOUS, -1, 0);
  while (filled[count++] > there && count < MOST);
  munmap(there, 8 * PAGE);
  DONE(kefs_map(image, 0, there, &at, NULL));
  CHECK(at == there);
  while (count > 0) munmap(filled[--count], PAGE);
  DONE(kefs_close(image));
}

static void a_new_mapping_reads_the_open_journal(void) {
  begin();
  for (int k = 0; k < 8; k++) store(a + k * PAGE, 1);
  CHECK(committed() == 8);
  store(a + 2 * PAGE, 2), store(b + PAGE, 2);
  CHECK(committed() == 2);
  store(a, 9);
  DONE(kefs_unmap(image, 0));
  a = mapped(0);
  for (int k = 0; k < 8; k++) CHECK(a[k * PAGE] == (k == 2 ? 2 : 1));
  CHECK(b[PAGE] == 2 && written() == 0);
  DONE(kefs_close(image));
}

/* The format leaves open what the home of a last page holds past the file's end. */
static void bytes_past_the_end_read_as_zeros(void) {
  char garbage[PAGE];
  memset(garbage, 'g', sizeof garbage);
  make_image(8);
  write_at(512 * image_sectors()->homes + 9 * PAGE, garbage, PAGE);
  open_and_map();
  CHECK(b[PAGE + 903] == 'g' && b[PAGE + 904] == 0 && b[2 * PAGE - 1] == 0);
  store(b + PAGE + 904, 1);
  DONE(kefs_rollback(image, NULL, 0));
  CHECK(b[PAGE + 903] == 'g' && b[PAGE + 904] == 0 && committed() == 0);
  DONE(kefs_close(image));
}

static void bytes_outside_of_mappings_are_refused(void) {
  begin();
  RETURNS(KEFS_BAD_RANGE, kefs_mark_dirty(image, &checks, 1));
  RETURNS(KEFS_BAD_RANGE, kefs_mark_dirty(image, a + 7 * PAGE, PAGE + 1));
  RETURNS(KEFS_BAD_RANGE, kefs_touch(image, a, SIZE_MAX));
  DONE(kefs_mark_dirty(image, a + 7 * PAGE, PAGE));
  DONE(kefs_mark_dirty(image, a, 0));
  DONE(kefs_touch(image, a, 8 * PAGE));
  CHECK(written() == 1);
  DONE(kefs_close(image));
}

static void system_calls_reach_mapped_memory(void) {
  int pipes[2];
  begin();
  CHECK(pipe(pipes) == 0 && write(pipes[1], "abcdefgh", 8) == 8);
  ssize_t stored = read(pipes[0], a + 3 * PAGE, 2);
  if (tracks_by(KEFS_TRACK_SIGNAL) || (flags & KEFS_LAZY) != 0) CHECK(stored == -1 && errno == EFAULT);
  if (tracks_by(KEFS_TRACK_SIGNAL) || tracks_by(KEFS_TRACK_CALLER)) DONE(kefs_mark_dirty(image, a + 3 * PAGE, 6));
  DONE(kefs_touch(image, a + 3 * PAGE, 2));
  if (stored < 0) stored = read(pipes[0], a + 3 * PAGE, 2);
  CHECK(stored == 2 && memcmp(a + 3 * PAGE, "ab", 2) == 0 && committed() == 1);
  if ((flags & KEFS_LAZY) != 0) CHECK(write(pipes[1], b, 2) == -1 && errno == EFAULT);
  DONE(kefs_touch(image, b, 2));
  CHECK(write(pipes[1], b, 2) == 2 && written() == 0);
  open_again();
  CHECK(memcmp(a + 3 * PAGE, "ab", 2) == 0);
  DONE(kefs_close(image));
  close(pipes[0]), close(pipes[1]);
}

/* Several images, openings and processes */

static void two_images_are_apart(void) {
  const char *first = path;
  begin();
  kefs_image *kept = image;
  unsigned char *kept_a = a;
  path = "other.img";
  begin();
  store(a, 7);
  CHECK(written() == 1);
  kefs_image *other = image;
  image = kept;
  store(kept_a, 6);
  size_t pages;
  DONE(kefs_commit(kept, NULL, 0, &pages));
  CHECK(pages == 1);
  RETURNS(KEFS_BAD_RANGE, kefs_mark_dirty(kept, a, 1));
  DONE(kefs_close(kept));
  image = other;
  CHECK(committed() == 1);
  open_again();
  CHECK(a[0] == 7);
  DONE(kefs_close(image));
  path = first;
  open_and_map();
  CHECK(a[0] == 6);
  DONE(kefs_close(image));
}

static size_t resident(void) {
  size_t all, here = 0;
  FILE *facts = fopen("/proc/self/statm", "r");
  CHECK(facts != NULL && fscanf(facts, "%zu %zu", &all, &here) == 2);
  fclose(facts);
  return here;
}

static void readers_stand_beside_each_other(void) {
  begin();
  store(a, 1), store(b + PAGE, 2);
  CHECK(committed() == 2);
  kefs_image *other;
  RETURNS(KEFS_BUSY, kefs_open(&other, path, KEFS_NOWAIT | KEFS_RDONLY));
  DONE(kefs_close(image)); /* with an open journal */
  unsigned lazy = flags & KEFS_LAZY;
  DONE(kefs_open(&image, path, KEFS_RDONLY | lazy));
  DONE(kefs_open(&other, path, KEFS_RDONLY | KEFS_NOWAIT | lazy));
  a = mapped(0), b = mapped(1);
  CHECK(a[0] == 1 && a[PAGE] == 0 && b[PAGE] == 2 && mapped(2)[5] == 'r');
  RETURNS(KEFS_READ_ONLY, kefs_commit(image, NULL, 0, NULL));
  RETURNS(KEFS_READ_ONLY, kefs_mark_dirty(image, a, 1));
  struct kefs_stat stat = {.size = sizeof stat};
  DONE(kefs_stat(other, &stat));
  CHECK(strcmp(stat.tracker, "none") == 0 && stat.recovered == 0 && stat.written_bytes == 0);
  DONE(kefs_close(other));
  RETURNS(KEFS_BUSY, kefs_open(&other, path, KEFS_NOWAIT));
  CHECK(other == NULL);
  DONE(kefs_close(image));
  DONE(kefs_open(&image, path, 0));
  DONE(kefs_stat(image, &stat));
  int copied = image_sectors()->copies ? 2 : 0;
  CHECK(stat.recovered == (uint64_t)copied && stat.written_bytes == copied * PAGE + image_sectors()->opening_bytes && stat.syncs == image_sectors()->opening_syncs);
  DONE(kefs_close(image));
}

static sigjmp_buf elsewhere;
static volatile int seen;

static void on_other_fault(int number) {
  seen = number;
  siglongjmp(elsewhere, 1);
}

/* ThreadSanitizer maps memory of its own in a child, where nothing is. */
#ifdef __SANITIZE_THREAD__
static int is_mapped_in_child(void) { return 0; }
#else
static int is_mapped_in_child(void) {
  seen = 0;
  if (sigsetjmp(elsewhere, 1) == 0) return *(volatile unsigned char *)a == 1 ? 2 : 3;
  return seen != SIGSEGV;
}
#endif

/* The memory is not a child's, and each call is refused there; none takes the parent's marks. */
static int in_child(void) {
  if (is_mapped_in_child() != 0) return 4;
  size_t n;
  void *at;
  uint64_t ticket;
  struct kefs_stat stat = {.size = sizeof stat};
  struct kefs_range all = {a, 1};
  int refused = kefs_commit_start(image, NULL, 0, NULL, &ticket) == KEFS_FORKED && kefs_commit_wait(image, 0) == KEFS_FORKED
    && kefs_commit(image, NULL, 0, NULL) == KEFS_FORKED && kefs_msync(image, a, 1) == KEFS_FORKED && kefs_count_dirty(image, &all, 1, &n) == KEFS_FORKED
    && kefs_rollback(image, NULL, 0) == KEFS_FORKED && kefs_mark_dirty(image, a, 1) == KEFS_FORKED && kefs_touch(image, a, 1) == KEFS_FORKED
    && kefs_map(image, 0, NULL, &at, NULL) == KEFS_FORKED && kefs_unmap(image, 0) == KEFS_FORKED && kefs_length(image, 0, &n) == KEFS_FORKED
    && kefs_stat(image, &stat) == KEFS_FORKED;
  return refused ? 0 : 1;
}

static int status_of(pid_t child) {
  int status;
  return waitpid(child, &status, 0) == child && WIFEXITED(status) ? WEXITSTATUS(status) : -1;
}

static void a_child_takes_nothing_from_its_parent(void) {
  int to_child[2];
  char c;
  begin();
  store(a, 1);
  CHECK(committed() == 1 && pipe(to_child) == 0);
  pid_t child = fork();
  if (child == 0) _exit(read(to_child[0], &c, 1) != 1 ? 2 : in_child());
  store(a, 2);
  CHECK(write(to_child[1], "x", 1) == 1 && status_of(child) == 0);
  CHECK(committed() == 1);
  open_again();
  CHECK(a[0] == 2);
  DONE(kefs_close(image));
  close(to_child[0]), close(to_child[1]);
}

/* A child that lives on does not keep the parent's image locked; it may open images, and close what it inherited. */
static void a_child_has_images_of_its_own(void) {
  int to_child[2];
  char c;
  begin();
  CHECK(pipe(to_child) == 0);
  pid_t child = fork();
  if (child == 0) {
    kefs_image *inherited = image;
    if (read(to_child[0], &c, 1) != 1) _exit(2);
    open_and_map();
    store(a, 8);
    if (committed() != 1 || kefs_commit(inherited, NULL, 0, NULL) != KEFS_FORKED || kefs_close(inherited) != KEFS_FORKED) _exit(3);
    _exit(kefs_close(image) == KEFS_OK ? 0 : 4);
  }
  DONE(kefs_close(image));
  DONE(kefs_open(&image, path, flags | KEFS_NOWAIT));
  DONE(kefs_close(image));
  CHECK(write(to_child[1], "x", 1) == 1 && status_of(child) == 0);
  open_and_map();
  CHECK(a[0] == 8);
  DONE(kefs_close(image));
  close(to_child[0]), close(to_child[1]);
}

/* Threads */

enum { STORED_PAGES = 64 };
static int stored_all;

static void *store_on(void *rounds) {
  for (unsigned long n = 1; n < (unsigned long)(uintptr_t)rounds; n++) {
    unsigned char *at = a + n % STORED_PAGES * PAGE;
    *(volatile unsigned long *)at = n;
    if ((flags & KEFS_TRACK_CALLER) != 0) kefs_mark_dirty(image, at, sizeof n);
  }
  __atomic_store_n(&stored_all, 1, __ATOMIC_SEQ_CST);
  return NULL;
}

static void stores_during_commits_are_not_lost(void) {
  static unsigned char kept[STORED_PAGES * PAGE];
  for (unsigned long round = 0; round < 20; round++) {
    pthread_t thread;
    make_image(STORED_PAGES);
    open_and_map();
    stored_all = 0;
    CHECK(pthread_create(&thread, NULL, store_on, (void *)(uintptr_t)(20000 + 7919 * round)) == 0);
    while (!__atomic_load_n(&stored_all, __ATOMIC_SEQ_CST)) DONE(kefs_commit(image, NULL, 0, NULL));
    pthread_join(thread, NULL);
    committed();
    memcpy(kept, a, sizeof kept);
    open_again();
    for (int k = 0; k < STORED_PAGES; k++) CHECK(memcmp(kept + k * PAGE, a + k * PAGE, PAGE) == 0);
    DONE(kefs_close(image));
  }
}

/* Faults */

/* on_other_fault is installed before any image is opened. */
static void other_faults_are_passed_on(void) {
  void *closed = mmap(NULL, PAGE, PROT_READ, MAP_PRIVATE | MAP_ANONYMOUS, -1, 0);
  begin();
  for (int i = 0; i < 2; i++) {
    seen = 0;
    if (sigsetjmp(elsewhere, 1) == 0) *(volatile char *)closed = 1;
    CHECK(seen == SIGSEGV);
    store(a + i * PAGE, 1);
    CHECK(committed() == 1);
  }
  seen = 0;
  if (sigsetjmp(elsewhere, 1) == 0) *(volatile unsigned char *)mapped(2) = 1;
  CHECK(seen == SIGSEGV);
  munmap(closed, PAGE);
  DONE(kefs_close(image));
}

static void a_failing_device_halts(void) {
  struct rlimit kept, small = {PAGE, RLIM_INFINITY};
  begin();
  store(a, 1);
  CHECK(committed() == 1);
  store(a + PAGE, 1);
  CHECK(getrlimit(RLIMIT_FSIZE, &kept) == 0);
  small.rlim_max = kept.rlim_max;
  CHECK(setrlimit(RLIMIT_FSIZE, &small) == 0);
  RETURNS(KEFS_DEVICE, kefs_commit(image, NULL, 0, NULL));
  CHECK(setrlimit(RLIMIT_FSIZE, &kept) == 0);
  CHECK(strstr(kefs_errmsg(image), "pwrite of ") != NULL && strstr(kefs_errmsg(image), " bytes at sector ") != NULL);
  RETURNS(KEFS_HALTED, kefs_commit(image, NULL, 0, NULL));
  RETURNS(KEFS_HALTED, kefs_rollback(image, NULL, 0));
  open_again();
  CHECK(a[0] == 1 && a[PAGE] == 0);
  DONE(kefs_close(image));
}

static void pages_are_read_late(void) {
  enum { PAGES = 16384 };
  if ((flags & KEFS_LAZY) == 0) return;
  make_image(PAGES);
  DONE(kefs_open(&image, path, flags));
  size_t before = resident();
  a = mapped(0);
  CHECK(a[0] == 0 && a[(PAGES - 1) * PAGE] == 0 && resident() - before < PAGES / 16);
  CHECK(reads_late());
  store(a + 5000 * PAGE, 1), store(a + 5001 * PAGE, 1);
  CHECK(committed() == 2);
  for (int k = 4990; k < 5010; k++) CHECK(a[k * PAGE] == (k == 5000 || k == 5001));
  store(a + 5002 * PAGE, 1);
  DONE(kefs_rollback(image, NULL, 0));
  CHECK(a[5002 * PAGE] == 0 && committed() == 0);
  open_again();
  for (int k = 4990; k < 5010; k++) CHECK(a[k * PAGE] == (k == 5000 || k == 5001));
  DONE(kefs_close(image));
}

/* What no tracker changes */

static void what_is_no_image_is_refused(void) {
  static const char *const name = "none.img";
  unlink(name);
  RETURNS(ENOENT, kefs_open(&image, name, 0));
  int fd = open(name, O_RDWR | O_CREAT, 0600);
  RETURNS(KEFS_NOT_IMAGE, kefs_open(&image, name, 0));
  for (int i = 0; i < 9000; i++) CHECK(write(fd, "no image", 8) == 8);
  RETURNS(KEFS_NOT_IMAGE, kefs_open(&image, name, 0));
  for (int i = 0; i < 128; i++) CHECK(pwrite(fd, "FAMSYNC3", 8, 8 * i) == 8);
  RETURNS(KEFS_NOT_IMAGE, kefs_open(&image, name, 0)); /* mark and kind of too short a file */
  RETURNS(KEFS_NOT_IMAGE, kefs_open(&image, ".", KEFS_RDONLY));
  CHECK(image == NULL);
  RETURNS(EINVAL, kefs_open(&image, path, 256));
  RETURNS(EINVAL, kefs_open(&image, path, KEFS_CREATE));
  RETURNS(EINVAL, kefs_open(&image, path, KEFS_TRACK_SCAN | KEFS_TRACK_CALLER));
  close(fd);
}

static void write_sector(long sector, const char *eight) {
  char bytes[512];
  for (int i = 0; i < 512; i += 8) memcpy(bytes + i, eight, 8);
  write_at(512 * sector, bytes, sizeof bytes);
}

/* As a torn write of the mark may leave it. */
static void the_mark_of_another_layout_is_refused(void) {
  make_image(8);
  for (int layout = 2; layout <= 4; layout++) {
    char mark[] = "FAMSYNC0";
    mark[7] = (char)(mark[7] + layout);
    write_sector(0, mark);
    int wanted = layout == image_layout() ? KEFS_OK : KEFS_NOT_IMAGE; /* no image is of layout 3 here */
    for (unsigned reading = 0; reading <= KEFS_RDONLY; reading += KEFS_RDONLY) {
      RETURNS(wanted, kefs_open(&image, path, reading));
      if (wanted == KEFS_OK) DONE(kefs_close(image));
    }
  }
}

static void a_bad_journal_is_refused(void) {
  make_image(8);
  write_sector(image_sectors()->gate, "GATEOPEN");
  write_at(512 * image_sectors()->map, "\377\377\0\0", 4);
  int wanted = image_layout() == 4 ? KEFS_OK : KEFS_BAD_JOURNAL; /* no map of a pool is bad */
  for (unsigned reading = 0; reading <= KEFS_RDONLY; reading += KEFS_RDONLY) {
    RETURNS(wanted, kefs_open(&image, path, reading));
    if (wanted == KEFS_OK) DONE(kefs_close(image));
  }
}

static void bad_files_are_not_formatted(void) {
  static struct kefs_file files[KEFS_FILES + 1] = {{1, 0, NULL}};
  unlink(path);
  RETURNS(EINVAL, kefs_format(path, 0600, files, KEFS_FILES + 1));
  files[0].flags = 8;
  RETURNS(EINVAL, kefs_format(path, 0600, files, 1));
  files[0] = (struct kefs_file){LONGEST + 1, KEFS_FILE_SPARSE, NULL};
  RETURNS(EFBIG, kefs_format(path, 0600, files, 1));
  files[0].length = LONGEST; /* with the directory over 2^30 pages */
  RETURNS(EFBIG, kefs_format(path, 0600, files, 1));
  files[0].length = UINT64_MAX;
  RETURNS(EFBIG, kefs_format(path, 0600, files, 1));
  CHECK(access(path, F_OK) != 0);
  files[0] = (struct kefs_file){1, 0, NULL};
  DONE(kefs_format(path, 0600, files, KEFS_FILES));
  RETURNS(EEXIST, kefs_format(path, 0600, files, 1));
  RETURNS(ENOENT, kefs_format("no/such", 0600, files, 1));
}

static void results_have_words(void) {
  CHECK(kefs_version() == KEFS_VERSION_NUMBER);
  CHECK(strcmp(kefs_name(KEFS_OK), "KEFS_OK") == 0 && strcmp(kefs_name(EIO), "errno") == 0 && strcmp(kefs_name(-5), "unknown") == 0);
  for (int result = KEFS_FORKED; result <= KEFS_NOT_IMAGE; result++)
    CHECK(strncmp(kefs_name(result), "KEFS_", 4) == 0 && strcmp(kefs_strerror(result), "unknown result") != 0);
  CHECK(strcmp(kefs_strerror(EBUSY), "Device or resource busy") == 0 && strcmp(kefs_strerror(99999), "unknown errno value") == 0);
  begin();
  CHECK(strcmp(kefs_errmsg(image), "") == 0);
  struct kefs_stat stat = {.size = 8};
  RETURNS(EINVAL, kefs_stat(image, &stat));
  stat.size = sizeof stat;
  DONE(kefs_stat(image, &stat));
  CHECK(stat.files == 4 && stat.pages == 11u + (image_layout() == 4 ? DIRECTORY_PAGES : 0) && stat.most_pages == image_sectors()->most && stat.layout == (uint32_t)image_layout());
  DONE(kefs_close(image));
}

static void (*const with_each_tracker[])(void) = {
  commits_are_durable, commits_follow_one_another, a_commit_takes_so_many_syncs, pages_that_stay_in_a_journal_are_read_there,
  homes_have_what_was_committed, ranges_choose_pages,
  started_commits_go_as_one_in_their_newest_form, started_commits_are_not_lost, a_roll_back_goes_to_what_was_started, too_many_pages_are_not_started,
  threads_wait_for_their_transfers, a_tidy_brings_pages_home, all_slots_may_be_used,
  too_many_pages_are_refused_and_not_for_good, scattered_pages_are_found, a_roll_back_shows_what_is_durable, a_mapping_has_its_file,
  the_place_that_was_asked_for_is_had,
  a_new_mapping_reads_the_open_journal,
  bytes_past_the_end_read_as_zeros, bytes_outside_of_mappings_are_refused, system_calls_reach_mapped_memory,
  two_images_are_apart, readers_stand_beside_each_other, a_child_takes_nothing_from_its_parent,
  a_child_has_images_of_its_own, stores_during_commits_are_not_lost, other_faults_are_passed_on,
  a_failing_device_halts, pages_are_read_late};
static void (*const once[])(void) = {
  what_is_no_image_is_refused, the_mark_of_another_layout_is_refused, a_bad_journal_is_refused, bad_files_are_not_formatted, results_have_words};

int main(int argc, char **argv) {
  static const struct { unsigned flags; const char *name; } trackers[] = {
    {KEFS_TRACK_SCAN, "scan"}, {KEFS_TRACK_SIGNAL, "signal"}, {KEFS_TRACK_CALLER, "caller"},
    {KEFS_TRACK_SCAN | KEFS_LAZY, "scan, lazy"}, {KEFS_TRACK_CALLER | KEFS_LAZY, "caller, lazy"}};
  if (argc != 2 || chdir(argv[1]) != 0) return 2;
  signal(SIGSEGV, on_other_fault), signal(SIGXFSZ, SIG_IGN);
  for (size_t i = 0; i < sizeof once / sizeof *once; i++) once[i]();
  for (size_t t = 0; t < sizeof trackers / sizeof *trackers; t++) {
    flags = trackers[t].flags;
    make_image(8);
    int result = kefs_open(&image, path, flags), is_there = result == KEFS_OK && ((flags & KEFS_LAZY) == 0 || reads_late());
    if (result != KEFS_NO_TRACKER) DONE(result);
    DONE(kefs_close(image));
    if (!is_there) {
      printf("check: tracker %s: the system has none\n", trackers[t].name), fflush(stdout);
      continue;
    }
    for (size_t i = 0; i < sizeof with_each_tracker / sizeof *with_each_tracker; i++) with_each_tracker[i]();
    printf("check: tracker %s: passed\n", trackers[t].name), fflush(stdout);
  }
  printf("check: layout %d, %d checks passed\n", image_layout(), checks);
  return 0;
}
