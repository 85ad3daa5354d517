/* grows FOLDER: files that get other lengths, mapped and not, with each tracker: longer and shorter, many at once, past the end of the host file, taken back,
   and while other threads commit. Each case is a process of its own (cases.h). Images are of layout 4. */
#define _GNU_SOURCE
#define PROGRAM "grows"
#include "grows.h"
#include <pthread.h>

/* Growth */

static void a_file_grows_where_it_is_mapped(void) {
  begin_with(5000, 1, 0);
  unsigned char *before = a;
  unsigned long syncs = facts().syncs;
  DONE(kefs_resize(image, 0, 100000));
  CHECK(map_growing(0) == before && is_file(5000, 1, 100000) && written() == 24);
  store(a + 5000, 2), store(a + 99999, 3);
  CHECK(is_open_to_calls(a + 60000));
  CHECK(committed() == 24 && facts().syncs - syncs <= 3 && facts().commits == 1 && facts().committed_pages == 24);
  store(a + 50000, 4);
  CHECK(written() == 1 && committed() == 1);
  reopen();
  CHECK(length_of(0) == 100000 && a[4999] == 1 && a[5000] == 2 && a[5001] == 0 && a[50000] == 4 && a[99999] == 3);
  DONE(kefs_close(image));
}

static void a_file_grows_where_it_is_not_mapped(void) {
  begin_with(5000, 1, 100);
  DONE(kefs_unmap(image, 0));
  DONE(kefs_resize(image, 0, 100000));
  DONE(kefs_resize(image, 1, 3 * PAGE));
  CHECK(length_of(0) == 100000 && length_of(1) == 3 * PAGE && committed() == 23 + 1 + 2 + 1);
  reopen();
  CHECK(is_file(5000, 1, 100000) && length_of(1) == 3 * PAGE);
  DONE(kefs_close(image));
}

static void an_empty_file_grows(void) {
  void *at;
  begin_with(PAGE, 1, 0);
  DONE(kefs_map(image, 1, NULL, &at, NULL));
  CHECK(at == NULL);
  unsigned char *b = map_growing(1);
  CHECK(is_outside(b));
  DONE(kefs_resize(image, 1, 1));
  store(b, 7);
  CHECK(committed() == 1);
  DONE(kefs_resize(image, 1, 0));
  CHECK(is_outside(b) && committed() == 0 && facts().commits == 2);
  reopen();
  CHECK(length_of(1) == 0);
  DONE(kefs_close(image));
}

static void a_last_page_gets_longer_within_itself(void) {
  begin_with(100, 1, 0);
  store(a + 200, 9); /* past the end: no commit takes it */
  DONE(kefs_resize(image, 0, 300));
  CHECK(is_file(100, 1, 300) && committed() == 1);
  store(a + 299, 2);
  CHECK(committed() == 1);
  reopen();
  CHECK(length_of(0) == 300 && a[99] == 1 && a[200] == 0 && a[299] == 2 && a[300] == 0);
  DONE(kefs_close(image));
}

static void files_grow_again_and_again(void) {
  begin_with(10, 1, 10);
  for (size_t length = 11; length < 300 * PAGE; length += 1 + length / 3) {
    DONE(kefs_resize(image, 0, length));
    DONE(kefs_resize(image, 1, 2 * length));
    store(a + length - 1, 5);
    committed();
    if (length % 4 == 0) reopen();
    CHECK(length_of(0) == length && length_of(1) == 2 * length && a[9] == 1 && a[length - 1] == 5);
  }
  DONE(kefs_close(image));
  CHECK(system("../kefscheck case.img > /dev/null") == 0);
}

enum { LONG = 96 << 20 };

static void a_file_grows_past_the_host_file(void) {
  void *at;
  begin_with(PAGE, 1, 0);
  uint64_t pages = facts().pages;
  DONE(kefs_resize(image, 1, LONG));
  CHECK(facts().pages >= pages + LONG / PAGE);
  DONE(kefs_map_growing(image, 1, NULL, 2 * (size_t)LONG, &at, NULL));
  unsigned char *b = at;
  store(b, 1), store(b + LONG - 1, 2), store(b + LONG / 2, 3);
  CHECK(committed() == LONG / PAGE);
  DONE(kefs_resize(image, 1, LONG + LONG / 2));
  store(b + LONG + 5, 4);
  CHECK(committed() == LONG / PAGE / 2);
  store(a, 7), store(b + 1, 8);
  CHECK(committed() == 2);
  reopen();
  DONE(kefs_map(image, 1, NULL, &at, NULL));
  b = at;
  CHECK(length_of(1) == LONG + LONG / 2 && b[0] == 1 && b[1] == 8 && b[LONG - 1] == 2 && b[LONG / 2] == 3 && b[LONG + 5] == 4 && a[0] == 7);
  DONE(kefs_close(image));
  CHECK(system("../kefscheck case.img > /dev/null") == 0);
}

static void homes_that_are_given_back_are_used_again(void) {
  begin_with(PAGE, 1, 0);
  for (int round = 0; round < 40; round++) {
    DONE(kefs_resize(image, (unsigned)round % 2, 100 * PAGE));
    DONE(kefs_resize(image, (unsigned)(round + 1) % 2, 0));
    committed();
  }
  CHECK(facts().pages < 1000);
  DONE(kefs_close(image));
}

/* Cuts */

static void what_is_cut_off_comes_again_as_zeros(void) {
  for (int commits = 0; commits < 2; commits++) {
    begin_with(6 * PAGE, 1, 0);
    DONE(kefs_resize(image, 0, PAGE + 100));
    CHECK(is_file(PAGE + 100, 1, PAGE + 100) && a[PAGE + 100] == 0);
    if (commits) CHECK(committed() == 1);
    DONE(kefs_resize(image, 0, 4 * PAGE));
    CHECK(is_file(PAGE + 100, 1, 4 * PAGE));
    CHECK(committed() == 3);
    reopen();
    CHECK(is_file(PAGE + 100, 1, 4 * PAGE));
    DONE(kefs_close(image));
  }
}

static void what_is_cut_off_of_a_file_that_is_not_mapped_comes_again_as_zeros(void) {
  for (int commits = 0; commits < 2; commits++) {
    begin_with(6 * PAGE, 1, 0);
    DONE(kefs_unmap(image, 0));
    DONE(kefs_resize(image, 0, PAGE + 100));
    if (commits) CHECK(committed() == 0);
    DONE(kefs_resize(image, 0, 6 * PAGE));
    a = map_growing(0);
    CHECK(is_file(PAGE + 100, 1, 6 * PAGE));
    DONE(kefs_unmap(image, 0)); /* loses a length that was not committed */
    CHECK(length_of(0) == (commits ? PAGE + 100 : 6 * PAGE));
    DONE(kefs_resize(image, 0, PAGE + 100));
    DONE(kefs_resize(image, 0, 6 * PAGE));
    CHECK(committed() == 5);
    reopen();
    CHECK(is_file(PAGE + 100, 1, 6 * PAGE));
    DONE(kefs_close(image));
  }
}

static void a_cut_makes_pages_go(void) {
  begin_with(6 * PAGE, 1, 0);
  CHECK(is_outside(a + 6 * PAGE) && is_outside(a + KEPT - 1));
  DONE(kefs_resize(image, 0, 7 * PAGE));
  CHECK(signal_of_touch(a + 7 * PAGE - 1, 0) == 0 && is_outside(a + 7 * PAGE));
  DONE(kefs_resize(image, 0, 2 * PAGE + 1));
  CHECK(signal_of_touch(a + 3 * PAGE - 1, 0) == 0 && is_outside(a + 3 * PAGE));
  RETURNS(KEFS_BAD_RANGE, kefs_mark_dirty(image, a + 3 * PAGE, 1));
  RETURNS(KEFS_BAD_RANGE, kefs_touch(image, a + 2 * PAGE, 2 * PAGE));
  committed();
  CHECK(is_outside(a + 3 * PAGE));
  reopen();
  CHECK(is_file(2 * PAGE + 1, 1, 2 * PAGE + 1) && is_outside(a + 3 * PAGE));
  DONE(kefs_close(image));
}

/* kefs_map keeps the addresses of the pages that are there. */
static void a_file_grows_as_far_as_addresses_are_kept(void) {
  void *at;
  begin_with(3 * PAGE, 1, 3 * PAGE - 5);
  DONE(kefs_map(image, 1, NULL, &at, NULL));
  DONE(kefs_resize(image, 1, 3 * PAGE));
  RETURNS(ENOMEM, kefs_resize(image, 1, 3 * PAGE + 1));
  CHECK(length_of(1) == 3 * PAGE);
  DONE(kefs_resize(image, 1, 1));
  DONE(kefs_resize(image, 1, 3 * PAGE));
  RETURNS(ENOMEM, kefs_resize(image, 0, KEPT + 1));
  DONE(kefs_resize(image, 0, KEPT));
  RETURNS(EEXIST, kefs_map_growing(image, 1, NULL, 3 * PAGE + 1, &at, NULL));
  DONE(kefs_map_growing(image, 1, at, 3 * PAGE, &at, NULL));
  committed();
  DONE(kefs_unmap(image, 1));
  DONE(kefs_resize(image, 1, 9 * PAGE));
  DONE(kefs_close(image));
}

static void pages_that_are_read_late_are_cut_and_come_again(void) {
  begin_with(200 * PAGE, 1, 0);
  CHECK(a[0] == 1);
  DONE(kefs_resize(image, 0, 100 * PAGE));
  DONE(kefs_resize(image, 0, 300 * PAGE));
  DONE(kefs_touch(image, a, 300 * PAGE));
  CHECK(is_file(100 * PAGE, 1, 300 * PAGE));
  committed();
  for (int k = 0; k < 300; k += 3) store(a + k * PAGE, 2);
  CHECK(committed() == 100);
  DONE(kefs_tidy(image));
  reopen();
  CHECK(length_of(0) == 300 * PAGE && a[3 * PAGE] == 2 && a[4 * PAGE] == 1 && a[150 * PAGE] == 2 && a[151 * PAGE] == 0);
  DONE(kefs_resize(image, 0, 50 * PAGE));
  DONE(kefs_rollback(image, NULL, 0));
  CHECK(length_of(0) == 300 * PAGE && a[99 * PAGE] == 2 && a[100 * PAGE] == 0 && a[98 * PAGE] == 1 && a[298 * PAGE] == 0 && written() == 0);
  DONE(kefs_close(image));
}

/* Many at once */

enum { MANY = 40 };

static void many_files_change_at_once(void) {
  struct kefs_file files[MANY] = {{0}};
  void *at;
  for (uint32_t f = 0; f < MANY; f++) files[f].length = f * 1000;
  unlink(PATH);
  DONE(kefs_format(PATH, 0600, files, MANY));
  DONE(kefs_open(&image, PATH, flags));
  for (unsigned f = 0; f < MANY; f++) {
    if (f % 2 == 0) DONE(kefs_map_growing(image, f, NULL, KEPT, &at, NULL));
    DONE(kefs_resize(image, f, (MANY - f) * 1500));
    if (f % 2 == 0) store((unsigned char *)at + (MANY - f) * 1500 - 1, (unsigned char)(f + 1));
  }
  committed();
  CHECK(facts().commits == 1);
  DONE(kefs_close(image));
  DONE(kefs_open(&image, PATH, flags));
  for (unsigned f = 0; f < MANY; f++) {
    DONE(kefs_map(image, f, NULL, &at, NULL));
    CHECK(length_of(f) == (MANY - f) * 1500 && ((unsigned char *)at)[length_of(f) - 1] == (f % 2 == 0 ? f + 1 : 0));
  }
  DONE(kefs_close(image));
}

/* Pages that were pages before go through the pool, and new ones don't. */
static void more_pages_than_slots(void) {
  size_t slots = facts().most_pages, taken;
  DONE(kefs_resize(image, 0, 0));
  DONE(kefs_resize(image, 0, (slots + 100) * PAGE));
  RETURNS(KEFS_TOO_MANY, kefs_commit(image, NULL, 0, NULL));
  CHECK(written() == slots + 100 && length_of(0) == (slots + 100) * PAGE);
  DONE(kefs_resize(image, 0, 0));
  DONE(kefs_commit(image, NULL, 0, NULL));
  DONE(kefs_resize(image, 0, (slots + 100) * PAGE));
  DONE(kefs_commit(image, NULL, 0, &taken));
  CHECK(taken == slots + 100);
}

static void a_file_that_was_cut_may_have_too_many_pages(void) {
  begin_with(PAGE, 1, 0);
  DONE(kefs_unmap(image, 0));
  DONE(kefs_resize(image, 0, (facts().most_pages + 100) * PAGE));
  committed();
  more_pages_than_slots();
  DONE(kefs_close(image));
}

/* An image of so many files with the smallest pool there is, of which the first one has more pages than that has slots. */
enum { SLOTS = 1008 };

static void begin_with_few_slots(size_t count, uint32_t other) {
  struct kefs_file files[KEFS_FILES] = {{(SLOTS + 100) * PAGE, 0, NULL}, {other, 0, NULL}};
  struct kefs_options options = {.size = sizeof options, .files = files, .count = count, .pool = 1};
  unlink(PATH);
  DONE(kefs_open_with(&image, PATH, KEFS_CREATE | flags, &options));
  CHECK(facts().most_pages == SLOTS);
  a = map_growing(0);
}

/* Pages that were stored to and are as they were need no slots, with the trackers that may say so, where others need them. */
static void pages_that_are_as_they_were_leave_slots_to_lengths(void) {
  int names_them = (flags & KEFS_TRACK_CALLER) != 0;
  size_t taken = 20;
  begin_with_few_slots(2, 20 * PAGE);
  DONE(kefs_resize(image, 1, 5));
  DONE(kefs_resize(image, 1, 15 * PAGE));
  for (int k = 0; k < 1000; k++) store(a + k * PAGE, k < 5 ? 7 : 0);
  RETURNS(names_them ? KEFS_TOO_MANY : KEFS_OK, kefs_commit(image, NULL, 0, &taken));
  CHECK(taken == 20);
  reopen();
  CHECK(a[4 * PAGE] == (names_them ? 0 : 7) && length_of(1) == (names_them ? 20 : 15) * PAGE);
  DONE(kefs_close(image));
}

/* Stores to so many pages, and commits them with lengths of two files that stand in two pages of the directory. */
static int commit_pages_and_lengths(int pages) {
  for (int k = 0; k < pages; k++) store(a + k * PAGE, 9);
  DONE(kefs_resize(image, 1, 5));
  DONE(kefs_resize(image, 17, 5));
  return kefs_commit(image, NULL, 0, NULL);
}

static void each_page_of_the_directory_takes_a_slot(void) {
  begin_with_few_slots(20, 0);
  RETURNS(KEFS_TOO_MANY, commit_pages_and_lengths(SLOTS - 1));
  DONE(kefs_rollback(image, NULL, 0));
  CHECK(length_of(17) == 0 && a[0] == 0);
  DONE(commit_pages_and_lengths(SLOTS - 2));
  reopen();
  CHECK(length_of(1) == 5 && length_of(17) == 5 && a[(SLOTS - 3) * PAGE] == 9);
  DONE(kefs_close(image));
}

/* Ranges and roll backs */

static void a_range_takes_the_length_of_its_file(void) {
  size_t taken;
  begin_with(2 * PAGE, 1, PAGE);
  unsigned char *b = map_growing(1);
  store(a, 2), store(a + PAGE, 3), store(b, 4);
  DONE(kefs_resize(image, 0, 4 * PAGE));
  DONE(kefs_resize(image, 1, 2 * PAGE));
  struct kefs_range first = {b, 1}, behind = {a + KEPT - 1, 1}, page = {a, PAGE}, beside = {a + KEPT, 1};
  DONE(kefs_commit(image, &beside, 1, &taken));
  CHECK(taken == 0);
  DONE(kefs_commit(image, &first, 1, &taken));
  CHECK(taken == 2);
  DONE(kefs_commit(image, &behind, 1, &taken));
  CHECK(taken == 2 && written() == 2);
  DONE(kefs_commit(image, &page, 1, &taken));
  CHECK(taken == 1 && written() == 1);
  reopen();
  CHECK(length_of(0) == 4 * PAGE && length_of(1) == 2 * PAGE && a[0] == 2 && a[PAGE] == 1);
  DONE(kefs_resize(image, 0, 5 * PAGE));
  DONE(kefs_msync(image, a, 1));
  reopen();
  CHECK(length_of(0) == 5 * PAGE);
  DONE(kefs_close(image));
}

/* What no range has stays as it is durable, in the last page too, which goes along. */
static void a_last_page_outside_of_the_ranges_is_not_taken(void) {
  begin_with(PAGE + 50, 1, 0);
  struct kefs_range front = {a, 1};
  store(a + PAGE, 9);
  DONE(kefs_resize(image, 0, 3 * PAGE));
  DONE(kefs_commit(image, &front, 1, NULL));
  CHECK(written() == 1 && a[PAGE] == 9);
  DONE(kefs_rollback(image, NULL, 0));
  CHECK(is_file(PAGE + 50, 1, 3 * PAGE));
  DONE(kefs_close(image));
}

static void a_roll_back_takes_lengths_back(void) {
  begin_with(3 * PAGE + 7, 1, 50);
  DONE(kefs_resize(image, 0, 9 * PAGE));
  DONE(kefs_resize(image, 1, 5 * PAGE));
  store(a + 8 * PAGE, 5), store(a, 6), store(a + 3 * PAGE + 10, 7);
  DONE(kefs_rollback(image, NULL, 0));
  CHECK(is_file(3 * PAGE + 7, 1, 3 * PAGE + 7) && a[3 * PAGE + 10] == 0 && length_of(1) == 50 && written() == 0 && is_outside(a + 4 * PAGE));
  store(a + 2 * PAGE, 4);
  DONE(kefs_resize(image, 0, PAGE + 9));
  store(a + PAGE, 5);
  DONE(kefs_rollback(image, NULL, 0));
  CHECK(is_file(3 * PAGE + 7, 1, 3 * PAGE + 7) && written() == 0);
  store(a + 2 * PAGE, 3);
  CHECK(written() == 1);
  DONE(kefs_close(image));
}

static void a_range_takes_a_length_back(void) {
  begin_with(3 * PAGE, 1, PAGE);
  unsigned char *b = map_growing(1);
  struct kefs_range other = {b, KEPT}, front = {a, 1};
  DONE(kefs_resize(image, 0, PAGE + 9));
  DONE(kefs_rollback(image, &other, 1));
  CHECK(length_of(0) == PAGE + 9);
  DONE(kefs_rollback(image, &front, 1));
  CHECK(is_file(3 * PAGE, 1, 3 * PAGE));
  DONE(kefs_close(image));
}

static void a_roll_back_of_a_cut_goes_to_what_was_started(void) {
  uint64_t ticket;
  begin_with(3 * PAGE, 1, 0);
  store(a + 2 * PAGE, 7);
  DONE(kefs_commit_start(image, NULL, 0, NULL, &ticket));
  DONE(kefs_resize(image, 0, PAGE));
  DONE(kefs_rollback(image, NULL, 0));
  CHECK(a[2 * PAGE] == 7 && a[2 * PAGE + 1] == 1 && written() == 0);
  DONE(kefs_commit_wait(image, ticket));
  reopen();
  CHECK(a[2 * PAGE] == 7);
  DONE(kefs_close(image));
}

/* Starts */

static void a_start_of_a_length_is_durable(void) {
  uint64_t first, second;
  begin_with(3 * PAGE, 1, 0);
  store(a, 2);
  DONE(kefs_commit_start(image, NULL, 0, NULL, &first));
  DONE(kefs_resize(image, 0, 5 * PAGE));
  store(a + 4 * PAGE, 3);
  DONE(kefs_commit_start(image, NULL, 0, NULL, &second));
  CHECK(facts().commits == 2 && written() == 0);
  DONE(kefs_commit_wait(image, first));
  DONE(kefs_commit_wait(image, second));
  CHECK(facts().commits == 2);
  reopen();
  CHECK(length_of(0) == 5 * PAGE && a[0] == 2 && a[4 * PAGE] == 3);
  DONE(kefs_close(image));
}

static int is_over; /* for other threads: they stop */

static int goes_on(void) { return !__atomic_load_n(&is_over, __ATOMIC_SEQ_CST); }
static void set_over(int over) { __atomic_store_n(&is_over, over, __ATOMIC_SEQ_CST); }

static void *start_for_ever(void *of) {
  struct kefs_range page = {of, PAGE};
  uint64_t ticket;
  while (goes_on()) {
    store(of, (unsigned char)(*(unsigned char *)of + 1));
    DONE(kefs_commit_start(image, &page, 1, NULL, &ticket));
    DONE(kefs_commit_wait(image, ticket));
  }
  return NULL;
}

static void lengths_change_while_others_commit(void) {
  pthread_t threads[3];
  begin_with(0, 1, 4 * PAGE);
  unsigned char *b = map_growing(1), last[3];
  uint64_t ticket;
  for (size_t i = 0; i < COUNT_OF(threads); i++) CHECK(pthread_create(&threads[i], NULL, start_for_ever, b + i * PAGE) == 0);
  for (size_t length = 1; length < 200000; length += 2999) {
    DONE(kefs_resize(image, 0, length));
    store(a + length - 1, 5);
    struct kefs_range file = {a, KEPT};
    if (length % 2 == 0) DONE(kefs_commit(image, &file, 1, NULL));
    else DONE(kefs_commit_start(image, &file, 1, NULL, &ticket));
  }
  set_over(1);
  for (size_t i = 0; i < COUNT_OF(threads); i++) CHECK(pthread_join(threads[i], NULL) == 0), last[i] = b[i * PAGE];
  reopen();
  b = map_growing(1);
  for (size_t i = 0; i < COUNT_OF(threads); i++) CHECK(b[i * PAGE] == last[i]);
  for (size_t length = 1; length < 200000; length += 2999) CHECK(a[length - 1] == 5);
  DONE(kefs_close(image));
}

/* Syncs of the commit by which a file gets so many pages more: no clause counts them. */
static unsigned long syncs_of_growth(size_t pages) {
  unsigned long syncs = facts().syncs;
  DONE(kefs_resize(image, 0, length_of(0) + pages * PAGE));
  CHECK(committed() == pages);
  return facts().syncs - syncs;
}

static void few_new_pages_take_no_sync_more(void) {
  begin_with(PAGE, 1, 0);
  CHECK(syncs_of_growth(1) == 2 && syncs_of_growth(128) == 2 && syncs_of_growth(129) == 3);
  DONE(kefs_close(image));
}

static void *store_for_ever(void *of) {
  volatile unsigned char *at = of;
  for (int i = 0; goes_on(); i = (i + 1) % 50) {
    at[i * PAGE] = (unsigned char)(at[i * PAGE] + 1);
    if ((flags & KEFS_TRACK_CALLER) != 0) DONE(kefs_mark_dirty(image, of + i * PAGE, 1));
  }
  return NULL;
}

/* New pages are stored to while a commit takes them: each store is in it, or its page stays dirty. */
static void stores_to_new_pages_are_not_lost(void) {
  pthread_t thread;
  unsigned char last[50];
  begin_with(PAGE, 1, 0);
  for (size_t length = 60; length < 600; length += 60) {
    DONE(kefs_resize(image, 0, length * PAGE));
    set_over(0);
    CHECK(pthread_create(&thread, NULL, store_for_ever, a + (length - 50) * PAGE) == 0);
    DONE(kefs_commit(image, NULL, 0, NULL));
    set_over(1);
    CHECK(pthread_join(thread, NULL) == 0);
    DONE(kefs_commit(image, NULL, 0, NULL));
    for (size_t i = 0; i < 50; i++) last[i] = a[(length - 50 + i) * PAGE];
    reopen();
    for (size_t i = 0; i < 50; i++) CHECK(a[(length - 50 + i) * PAGE] == last[i]);
  }
  DONE(kefs_close(image));
}

static const struct test with_each_tracker[] = {
  TEST(a_file_grows_where_it_is_mapped), TEST(a_file_grows_where_it_is_not_mapped), TEST(an_empty_file_grows),
  TEST(a_last_page_gets_longer_within_itself), TEST(files_grow_again_and_again), TEST(a_file_grows_past_the_host_file),
  TEST(homes_that_are_given_back_are_used_again), TEST(what_is_cut_off_comes_again_as_zeros),
  TEST(what_is_cut_off_of_a_file_that_is_not_mapped_comes_again_as_zeros), TEST(a_cut_makes_pages_go),
  TEST(a_file_grows_as_far_as_addresses_are_kept), TEST(pages_that_are_read_late_are_cut_and_come_again), TEST(many_files_change_at_once),
  TEST(pages_that_are_as_they_were_leave_slots_to_lengths), TEST(each_page_of_the_directory_takes_a_slot),
  TEST(a_range_takes_the_length_of_its_file), TEST(a_last_page_outside_of_the_ranges_is_not_taken), TEST(a_roll_back_takes_lengths_back),
  TEST(a_range_takes_a_length_back), TEST(a_roll_back_of_a_cut_goes_to_what_was_started), TEST(a_start_of_a_length_is_durable),
  TEST(lengths_change_while_others_commit), TEST(stores_to_new_pages_are_not_lost)};
static const struct test once[] = {
  TEST(a_file_that_was_cut_may_have_too_many_pages), TEST(few_new_pages_take_no_sync_more)};

int main(int argc, char **argv) { return run_growing(argc, argv, once, COUNT_OF(once), with_each_tracker, COUNT_OF(with_each_tracker)); }
