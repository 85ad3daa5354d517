/* sparse FOLDER: files that grow by much of which most is zeros, mapped and not, with each tracker: what they take of disk, memory and calls; homes that other files
   had; stores beside a commit, after it and after one that failed; processes that end at each of its calls; backups and readers beside it; and host files that may
   have no holes. Each case is a process of its own (cases.h). Images are of layout 4. */
#define _GNU_SOURCE
#define PROGRAM "sparse"
#include "grows.h"
#include <pthread.h>
#include <stdarg.h>
#include <sys/ioctl.h>
#include <sys/mman.h>
#include <sys/resource.h>

#define GIB ((size_t)1 << 30)
#define MIB ((size_t)1 << 20)

/* Files */

/* File 0 of some pages full of 1, mapped with addresses for 3 GiB, and file 1, empty. */
static void begin_small(void) {
  void *at;
  begin_with(5 * PAGE + 100, 1, 0);
  DONE(kefs_unmap(image, 0));
  DONE(kefs_map_growing(image, 0, NULL, 3 * GIB, &at, NULL));
  a = at;
}

static void open_it_again(unsigned more) {
  void *at;
  DONE(kefs_close(image));
  DONE(kefs_open(&image, PATH, flags | more));
  DONE(kefs_map_growing(image, 0, NULL, 3 * GIB, &at, NULL));
  a = at;
}

static unsigned char *mapped(unsigned file, size_t most) {
  void *at;
  DONE(kefs_map_growing(image, file, NULL, most, &at, NULL));
  return at;
}

static size_t disk_of(const char *path) {
  struct stat there;
  CHECK(stat(path, &there) == 0);
  return (size_t)there.st_blocks * 512;
}

static int took_little(void) {
  struct rusage usage;
  CHECK(getrusage(RUSAGE_SELF, &usage) == 0);
  return disk_of(PATH) < 64 * MIB && usage.ru_maxrss < 128 << 10;
}

/* KiB of tables that the kernel has for the process's memory. */
static long tables_now(void) {
  char line[256];
  long found = -1;
  FILE *facts = fopen("/proc/self/status", "r");
  while (facts != NULL && fgets(line, sizeof line, facts) != NULL) (void)!sscanf(line, "VmPTE: %ld", &found);
  CHECK(facts != NULL && fclose(facts) == 0 && found >= 0);
  return found;
}

/* Some bytes of a file of 2 GiB, each with a value of its own. */
static const size_t places[] = {5 * PAGE + 200, 6 * PAGE, 7 * PAGE, 64 * MIB + 5, GIB - 1, GIB, GIB + 3 * PAGE, 2 * GIB - 1};

static void store_all(int round) {
  for (size_t i = 0; i < COUNT_OF(places); i++) store(a + places[i], (unsigned char)(10 * round + (int)i));
}

/* Those from `from` on are zeros where the file has them. */
static int has_all(size_t length, size_t from, int round) {
  for (size_t i = 0; i < COUNT_OF(places); i++)
    if (places[i] < length && a[places[i]] != (places[i] < from ? 10 * round + (int)i : 0)) return 0;
  return length_of(0) == length && is_full_of(a, 5 * PAGE + 100, 1) && a[8 * PAGE] == 0 && a[length - 20 * PAGE] == 0;
}

/* What it takes */

static void a_mapped_file_grows_by_2_gib(void) {
  begin_small();
  long before = tables_now();
  DONE(kefs_resize(image, 0, 2 * GIB));
  store_all(1);
  CHECK(is_open_to_calls(a + MIB) && committed() == 2 * GIB / PAGE - 5 && facts().syncs <= 3);
  CHECK(tables_now() - before < 1024);
  CHECK(has_all(2 * GIB, 2 * GIB, 1) && took_little());
  store_all(2), store(a + 100 * MIB, 9);
  CHECK(written() == COUNT_OF(places) + 1 && committed() == COUNT_OF(places) + 1);
  open_it_again(0);
  CHECK(has_all(2 * GIB, 2 * GIB, 2) && a[100 * MIB] == 9 && written() == 0 && tables_now() - before < 1024);
  store_all(3);
  CHECK(committed() == COUNT_OF(places));
  DONE(kefs_tidy(image));
  open_it_again(KEFS_RDONLY);
  CHECK(has_all(2 * GIB, 2 * GIB, 3));
  DONE(kefs_close(image));
  CHECK(took_little() && system("../kefscheck case.img | grep -q 'file 0: 2147483648 bytes, 524288 pages'") == 0);
}

static void a_file_that_is_not_mapped_grows_by_2_gib(void) {
  begin_small();
  DONE(kefs_unmap(image, 0));
  DONE(kefs_resize(image, 0, 2 * GIB));
  CHECK(committed() == 2 * GIB / PAGE - 5 && facts().syncs <= 3 && facts().written_bytes < 64 << 10);
  a = mapped(0, 3 * GIB);
  CHECK(has_all(2 * GIB, 0, 1));
  store_all(1);
  CHECK(committed() == COUNT_OF(places));
  open_it_again(0);
  CHECK(has_all(2 * GIB, 2 * GIB, 1));
  DONE(kefs_close(image));
  CHECK(took_little());
}

/* What was cut off is zeros when it comes again, and what a roll back brings takes no more than it had. */
static void a_long_file_is_cut_and_grows_again(void) {
  begin_small();
  DONE(kefs_resize(image, 0, 2 * GIB));
  store_all(1), committed();
  DONE(kefs_resize(image, 0, GIB));
  CHECK(has_all(GIB, GIB, 1) && is_outside(a + GIB));
  DONE(kefs_rollback(image, NULL, 0));
  CHECK(has_all(2 * GIB, 2 * GIB, 1) && written() == 0);
  DONE(kefs_resize(image, 0, GIB));
  committed();
  DONE(kefs_resize(image, 0, 3 * GIB));
  DONE(kefs_rollback(image, NULL, 0));
  CHECK(has_all(GIB, GIB, 1) && written() == 0);
  DONE(kefs_resize(image, 0, 2 * GIB));
  CHECK(has_all(2 * GIB, GIB, 1) && committed() == GIB / PAGE);
  store(a + 2 * GIB - 1, 7);
  CHECK(committed() == 1);
  open_it_again(0);
  CHECK(a[2 * GIB - 1] == 7);
  a[2 * GIB - 1] = 0;
  CHECK(has_all(2 * GIB, GIB, 1) && took_little());
  DONE(kefs_close(image));
}

static void new_files_are_long_at_once(void) {
  begin_small();
  DONE(kefs_add_file(image, 5, 2 * GIB));
  DONE(kefs_add_file(image, 6, 2 * GIB));
  unsigned char *b = mapped(6, 0);
  store(b + GIB, 5);
  CHECK(committed() == 4 * GIB / PAGE && took_little());
  DONE(kefs_close(image));
  DONE(kefs_open(&image, PATH, flags));
  b = mapped(6, 0);
  CHECK(length_of(5) == 2 * GIB && b[GIB] == 5 && b[GIB + 1] == 0 && b[2 * GIB - 1] == 0 && mapped(5, 0)[GIB] == 0);
  DONE(kefs_close(image));
}

/* Homes that others had */

enum { OLD = 1000, MORE = 900 }; /* pages */

/* Leaves homes with bytes in them, those of a file that is gone, whose pages some slots have. */
static void leave_homes(int in_slots) {
  DONE(kefs_add_file(image, 3, OLD * PAGE));
  unsigned char *b = mapped(3, 0);
  memset(b, 8, OLD * PAGE);
  DONE(kefs_mark_dirty(image, b, OLD * PAGE));
  committed();
  if (in_slots) memset(b + 30 * PAGE, 9, 200 * PAGE), DONE(kefs_mark_dirty(image, b + 30 * PAGE, 200 * PAGE)), committed();
  DONE(kefs_unmap(image, 3));
  DONE(kefs_remove_file(image, 3));
  committed();
}

/* File 0 has got these homes: some rows of its pages are stored to, `far` from each other, and the rest is zeros. */
static int is_sparse_file(size_t far) {
  for (size_t k = 6; k < MORE; k++)
    if (!is_full_of(a + k * PAGE, PAGE, k % far < 3 ? 4 : 0)) return 0;
  return length_of(0) == MORE * PAGE && is_full_of(a, 5 * PAGE + 100, 1) && is_full_of(a + 5 * PAGE + 100, PAGE - 100, 0);
}

static void grow_sparsely(size_t far) {
  DONE(kefs_resize(image, 0, MORE * PAGE));
  for (size_t k = 6; k < MORE; k++)
    if (k % far < 3) memset(a + k * PAGE, 4, PAGE), store(a + k * PAGE, 4);
}

static void homes_that_others_had_are_zeros(void) {
  static const int ways[] = {0, FALLOC_FL_PUNCH_HOLE, FALLOC_FL_PUNCH_HOLE | FALLOC_FL_ZERO_RANGE};
  static const size_t distances[] = {4, 40}; /* more rows of pages than go into slots, and fewer */
  for (size_t i = 0; i < 3 * 2 * COUNT_OF(distances); i++) {
    size_t far = distances[i / 6];
    modes_without = ways[i % 3];
    begin_small();
    leave_homes((int)(i / 3 % 2));
    size_t homes = (size_t)facts().pages;
    grow_sparsely(far);
    CHECK(is_sparse_file(far) && committed() == MORE - 5 && facts().pages == homes); /* there were homes enough */
    open_it_again(0);
    CHECK(is_sparse_file(far));
    store(a + 800 * PAGE + 1, 5);
    CHECK(committed() == 1);
    DONE(kefs_tidy(image));
    open_it_again(0);
    CHECK(a[800 * PAGE + 1] == 5);
    DONE(kefs_close(image));
  }
}

/* A hole gives its room back. */
static void room_of_others_is_given_back(void) {
  size_t before;
  begin_small();
  leave_homes(0);
  before = disk_of(PATH);
  DONE(kefs_unmap(image, 0));
  DONE(kefs_resize(image, 0, OLD * PAGE));
  committed();
  CHECK(disk_of(PATH) + 500 * PAGE < before);
  DONE(kefs_close(image));
}

/* Reads and stores */

enum { LONG = 40000 }; /* pages, more than are watched before they are touched */

static size_t sum_of_pages(size_t first, size_t end) {
  size_t sum = 0;
  for (size_t k = first; k < end; k++) sum += a[k * PAGE];
  return sum;
}

/* Pages that were read, before a commit and after it, are as clean as others, and a store to one is noted. */
static void reads_make_no_page_dirty(void) {
  begin_small();
  DONE(kefs_resize(image, 0, LONG * PAGE));
  CHECK(sum_of_pages(6, LONG) == 0);
  store(a + 20000 * PAGE, 5);
  committed();
  CHECK(facts().written_bytes < 64 << 10 && sum_of_pages(6, LONG) == 5 && written() == 0);
  for (size_t k = 6; k < LONG; k += 1000) store(a + k * PAGE + 1, 6);
  CHECK(written() == 40 && committed() == 40);
  open_it_again(0);
  CHECK(sum_of_pages(6, LONG) == 5 && written() == 0 && a[39006 * PAGE + 1] == 6);
  for (size_t k = 7; k < LONG; k += 1000) store(a + k * PAGE + 1, 6);
  CHECK(written() == 40);
  DONE(kefs_rollback(image, NULL, 0));
  CHECK(written() == 0 && a[7 * PAGE + 1] == 0 && a[6 * PAGE + 1] == 6);
  DONE(kefs_close(image));
}

/* Where the system has its page of zeros in the place of one that is durably other bytes, as it may bring it for zeros that were stored. */
static void zeros_that_the_system_shares_are_found(void) {
  if ((flags & KEFS_TRACK_SCAN) == 0) _exit(SKIPPED);
  begin_small();
  DONE(kefs_resize(image, 0, LONG * PAGE));
  memset(a + 20000 * PAGE, 5, 100 * PAGE);
  committed();
  for (int round = 0; round < 2; round++) {
    size_t first = 20010 + 20 * (size_t)round;
    CHECK(madvise(a + first * PAGE, 10 * PAGE, MADV_DONTNEED) == 0 && sum_of_pages(first - 20, first + 10) == 10 * 5);
    CHECK(written() == 10 && committed() == 10);
    if (round == 0) DONE(kefs_tidy(image));
  }
  open_it_again(0);
  CHECK(sum_of_pages(6, LONG) == 80 * 5 && sum_of_pages(20010, 20020) == 0 && sum_of_pages(20030, 20040) == 0);
  DONE(kefs_close(image));
}

/* Pages that are zeros again, and such as were stored to by a system call. */
static void what_is_zeros_again_is_left_out(void) {
  begin_small();
  DONE(kefs_resize(image, 0, LONG * PAGE));
  memset(a + 10 * PAGE, 7, 3000 * PAGE), memset(a + 10 * PAGE, 0, 3000 * PAGE);
  int fd = open(PATH, O_RDONLY | O_CLOEXEC);
  CHECK(pread(fd, a + 30000 * PAGE, 8, 0) == 8 && close(fd) == 0);
  committed();
  CHECK(facts().written_bytes < 64 << 10);
  open_it_again(0);
  CHECK(memcmp(a + 30000 * PAGE, "FAMSYNC4", 8) == 0 && sum_of_pages(10, 30000) == 0);
  DONE(kefs_close(image));
}

/* Stores while commits list pages */

enum { STEP = 6000, STEPS = 12 };
static size_t pages_now; /* that the file has */
static int is_over;

static void *store_for_ever(void *unused) {
  for (unsigned long n = 1; !__atomic_load_n(&is_over, __ATOMIC_SEQ_CST); n++) {
    size_t pages = __atomic_load_n(&pages_now, __ATOMIC_SEQ_CST), k = n % 1000 * (pages / 1000) + n % 5;
    volatile unsigned long *word = (volatile unsigned long *)(void *)(a + k * PAGE + 8 * (n % 500));
    *word = n;
    if ((flags & KEFS_TRACK_CALLER) != 0) DONE(kefs_mark_dirty(image, a + k * PAGE, PAGE));
  }
  return unused;
}

static unsigned long hash_of(const unsigned char *at, size_t length) {
  unsigned long sum = 0;
  for (size_t i = 0; i < length; i += 8) sum = (sum ^ *(const unsigned long *)(const void *)(at + i)) * 0x9e3779b97f4a7c15ul;
  return sum;
}

/* After a last commit, beside which nothing is stored, all is durable. */
static void stores_beside_commits_are_not_lost(void) {
  struct kefs_options options = {.size = sizeof options, .pool = 20000, .files = &(struct kefs_file){PAGE, KEFS_FILE_GROWS, NULL}, .count = 1};
  pthread_t thread;
  unlink(PATH);
  DONE(kefs_open_with(&image, PATH, flags | KEFS_CREATE, &options));
  a = mapped(0, GIB);
  for (size_t step = 1; step <= STEPS; step++) {
    DONE(kefs_resize(image, 0, step * STEP * PAGE));
    pages_now = step * STEP, is_over = 0;
    CHECK(pthread_create(&thread, NULL, store_for_ever, NULL) == 0);
    usleep(2000);
    DONE(kefs_commit(image, NULL, 0, NULL));
    __atomic_store_n(&is_over, 1, __ATOMIC_SEQ_CST);
    CHECK(pthread_join(thread, NULL) == 0);
    if (step % 3 > 0) continue;
    committed();
    unsigned long sum = hash_of(a, step * STEP * PAGE);
    DONE(kefs_close(image));
    DONE(kefs_open(&image, PATH, flags));
    a = mapped(0, GIB);
    CHECK(length_of(0) == step * STEP * PAGE && hash_of(a, step * STEP * PAGE) == sum);
  }
  DONE(kefs_close(image));
}

/* Failures */

static int is_grown(void) { return length_of(0) == LONG * PAGE && length_of(1) == LONG * PAGE && a[300 * PAGE] == 4 && a[39000 * PAGE] == 5 && a[500 * PAGE] == 0; }
static int is_as_before(void) { return is_file(5 * PAGE + 100, 1, 5 * PAGE + 100) && length_of(1) == 0; }

static void grow(void) {
  DONE(kefs_resize(image, 0, LONG * PAGE));
  DONE(kefs_resize(image, 1, LONG * PAGE));
  for (size_t k = 300; k < 300 + 200; k++) store(a + k * PAGE, 4);
  store(a + 39000 * PAGE, 5);
}

static void begin_growth(void) {
  begin_small();
  leave_homes(1);
}

/* After a commit whose call of this number failed: whether it had so many. */
static int try_failing_call(long call, int number) {
  int stands = KEFS_BEFORE;
  begin_growth();
  grow();
  calls_left = call, failing_number = number;
  int result = kefs_commit(image, NULL, 0, NULL);
  calls_left = -1;
  if (result == KEFS_DEVICE) DONE(kefs_recover(image, &stands));
  else CHECK(result == KEFS_OK || result == number);
  int is_done = result == KEFS_OK || stands == KEFS_AFTER;
  CHECK(is_grown() && is_done == (written() == 0) && (is_done || is_open_to_calls(a + 20000 * PAGE + 8)));
  store(a + 400 * PAGE + 1, 6), store(a + 30000 * PAGE, 7);
  committed();
  open_it_again(0);
  CHECK(is_grown() && a[400 * PAGE] == 4 && a[400 * PAGE + 1] == 6 && a[30000 * PAGE] == 7);
  DONE(kefs_close(image));
  return result != KEFS_OK;
}

static void a_failing_device_leaves_new_pages_dirty(void) {
  long call = 0;
  while (try_failing_call(call, EIO)) call++;
  CHECK(call > 5);
  for (call = 0; call < 3; call++) CHECK(try_failing_call(call, ENOSPC));
}

static int try_ending_call(long call) {
  pid_t child = fork();
  if (child == 0) {
    begin_growth();
    grow();
    calls_left = call, failing_number = 0;
    DONE(kefs_commit(image, NULL, 0, NULL));
    _exit(0);
  }
  int status = status_of(child), is_over = status == 0;
  CHECK(is_over || status == -1);
  DONE(kefs_open(&image, PATH, flags));
  a = mapped(0, 3 * GIB);
  CHECK(is_grown() || (!is_over && is_as_before()));
  DONE(kefs_close(image));
  return !is_over;
}

static void a_process_that_ends_leaves_all_or_nothing(void) {
  long call = 0;
  while (try_ending_call(call)) call++;
  CHECK(call > 5);
}

/* Holes need no room, and what is stored to one is refused where there is none, before anything is done. */
static void a_full_memory_file_system_has_room_for_holes(void) {
  mount_memory("40M");
  CHECK(chdir("memory") == 0);
  begin_small();
  CHECK(chdir("..") == 0);
  store(a, 1);
  committed();
  fill_memory();
  DONE(kefs_resize(image, 0, 2 * GIB));
  CHECK(committed() == 2 * GIB / PAGE - 5);
  memset(a + MIB, 6, 15 * MIB);
  CHECK(committed() == 15 * MIB / PAGE); /* the pool has its room */
  memset(a + MIB, 7, 15 * MIB);
  uint64_t before = facts().written_bytes;
  RETURNS(ENOSPC, kefs_commit(image, NULL, 0, NULL)); /* pages had to be brought home */
  CHECK(facts().written_bytes == before && written() == 15 * MIB / PAGE && unlink("memory/filler") == 0);
  CHECK(committed() == 15 * MIB / PAGE && is_full_of(a + MIB, 15 * MIB, 7) && a[16 * MIB] == 0);
  DONE(kefs_close(image));
}

/* An image that has all its room from the first, and homes of a file that is gone. */
static void begin_whole(void) {
  static unsigned char content[OLD * PAGE];
  memset(content, 8, sizeof content);
  struct kefs_file files[] = {{PAGE, 0, NULL}, {0, 0, NULL}, {sizeof content, 0, content}};
  unlink(PATH);
  DONE(kefs_format(PATH, 0600, files, COUNT_OF(files)));
  DONE(kefs_open(&image, PATH, flags));
  DONE(kefs_remove_file(image, 2));
  committed();
}

/* What became a hole has no room any more, and that is known before a page is brought home. */
static void room_that_a_hole_has_given_back_is_taken_again(void) {
  mount_memory("40M");
  CHECK(chdir("memory") == 0);
  begin_whole();
  CHECK(chdir("..") == 0);
  unsigned char *b = mapped(1, GIB);
  DONE(kefs_resize(image, 1, MORE * PAGE));
  CHECK(committed() == MORE && b[0] == 0 && b[MORE * PAGE - 1] == 0);
  fill_memory();
  memset(b, 6, MORE * PAGE);
  CHECK(committed() == MORE); /* the pool has its room */
  uint64_t before = facts().written_bytes;
  RETURNS(ENOSPC, kefs_tidy(image));
  CHECK(facts().written_bytes == before && unlink("memory/filler") == 0);
  DONE(kefs_tidy(image));
  CHECK(facts().written_bytes > before + MORE * PAGE && is_full_of(b, MORE * PAGE, 6));
  DONE(kefs_close(image));
}

/* Trackers */

static int has_no_scan, has_no_pagemap;

int ioctl(int fd, unsigned long request, ...) {
  va_list more;
  va_start(more, request);
  void *argument = va_arg(more, void *);
  va_end(more);
  if (has_no_scan && (request & 0xffff) == ('f' << 8 | 16)) return errno = ENOTTY, -1;
  return (int)syscall(SYS_ioctl, fd, request, argument);
}

int open(const char *path, int how, ...) {
  va_list more;
  va_start(more, how);
  mode_t mode = (how & (O_CREAT | O_TMPFILE)) != 0 ? va_arg(more, mode_t) : 0;
  va_end(more);
  if (has_no_pagemap && strcmp(path, "/proc/self/pagemap") == 0) return errno = EACCES, -1;
  return (int)syscall(SYS_openat, AT_FDCWD, path, how, mode);
}

static void pages_that_were_touched_are_found_in_other_ways(void) {
  for (int way = 0; way < 3; way++)
    for (int tracker = 0; tracker < 2; tracker++) {
      flags = tracker == 0 ? KEFS_TRACK_SIGNAL : KEFS_TRACK_CALLER;
      has_no_scan = way > 0, has_no_pagemap = way > 1;
      begin_small();
      DONE(kefs_resize(image, 0, LONG * PAGE));
      CHECK(sum_of_pages(2000, 5000) == 0);
      for (size_t k = 0; k < 300; k++) a[(30000 + k) * PAGE] = 1; /* without a call that says so */
      committed();
      CHECK(facts().written_bytes < 320 * PAGE && facts().written_bytes > 300 * PAGE);
      open_it_again(0);
      CHECK(sum_of_pages(6, LONG) == 300);
      DONE(kefs_close(image));
    }
}

/* Beside it */

static const char *const COPY = "copy.img";
static int grows_within;

/* Within a backup, before its first sync. */
int fsync(int fd) {
  (void)fd;
  if (grows_within > 0 && --grows_within == 0) grow(), committed();
  return 0;
}

static void a_backup_of_holes_is_sparse(void) {
  for (int round = 0; round < 2; round++) {
    begin_growth();
    if (round == 0) grow(), committed();
    unlink(COPY);
    grows_within = round;
    DONE(kefs_backup(image, COPY, 0));
    CHECK(grows_within == 0);
    DONE(kefs_close(image));
    CHECK(disk_of(COPY) < 32 * MIB && system("../kefscheck copy.img > /dev/null") == 0);
    DONE(kefs_open(&image, COPY, flags));
    a = mapped(0, 3 * GIB);
    CHECK(round == 1 ? is_grown() || is_as_before() : is_grown());
    DONE(kefs_close(image));
    unlink(COPY);
  }
}

static void readers_see_holes_as_zeros(void) {
  kefs_image *reader, *writer;
  unsigned char *b;
  void *at;
  begin_growth();
  DONE(kefs_open(&reader, PATH, KEFS_SNAPSHOT));
  DONE(kefs_map_growing(reader, 0, NULL, 3 * GIB, &at, NULL));
  grow();
  committed();
  DONE(kefs_refresh(reader, NULL));
  b = a, writer = image, a = at, image = reader;
  CHECK(is_grown() && sum_of_pages(6, OLD + 6) == 4 * 200);
  a = b, image = writer;
  DONE(kefs_resize(image, 0, 2 * GIB));
  store(a + 2 * GIB - 1, 9);
  committed();
  DONE(kefs_refresh(reader, NULL));
  CHECK(((unsigned char *)at)[2 * GIB - 1] == 9 && ((unsigned char *)at)[GIB] == 0);
  DONE(kefs_close(reader));
  DONE(kefs_close(image));
  CHECK(took_little());
}

/* A commit of as many new pages as go into slots syncs twice, one of more three times, zeros or not. */
static void few_new_pages_take_two_syncs(void) {
  static const struct { size_t pages, stored; uint64_t syncs; } grown[] = {{1, 1, 2}, {128, 0, 2}, {128, 128, 2}, {129, 0, 3}, {129, 5, 3}, {1000, 1000, 3}};
  begin_small();
  for (size_t i = 0; i < COUNT_OF(grown); i++) {
    size_t from = (length_of(0) + PAGE - 1) / PAGE;
    DONE(kefs_resize(image, 0, (from + grown[i].pages) * PAGE));
    for (size_t k = from; k < from + grown[i].stored; k++) store(a + k * PAGE, 3);
    uint64_t before = facts().syncs;
    CHECK(committed() >= grown[i].pages && facts().syncs - before == grown[i].syncs);
  }
  DONE(kefs_close(image));
}

static const struct test with_each_tracker[] = {
  TEST(a_mapped_file_grows_by_2_gib), TEST(a_file_that_is_not_mapped_grows_by_2_gib), TEST(a_long_file_is_cut_and_grows_again), TEST(new_files_are_long_at_once),
  TEST(homes_that_others_had_are_zeros), TEST(reads_make_no_page_dirty), TEST(zeros_that_the_system_shares_are_found), TEST(what_is_zeros_again_is_left_out), TEST(stores_beside_commits_are_not_lost),
  TEST(a_failing_device_leaves_new_pages_dirty), TEST(a_process_that_ends_leaves_all_or_nothing)};
static const struct test once[] = {
  TEST(room_of_others_is_given_back), TEST(a_full_memory_file_system_has_room_for_holes), TEST(room_that_a_hole_has_given_back_is_taken_again),
  TEST(pages_that_were_touched_are_found_in_other_ways),
  TEST(a_backup_of_holes_is_sparse), TEST(readers_see_holes_as_zeros), TEST(few_new_pages_take_two_syncs)};

int main(int argc, char **argv) {
  waits_for_no_disk = 1;
  return run_growing(argc, argv, once, COUNT_OF(once), with_each_tracker, COUNT_OF(with_each_tracker));
}
