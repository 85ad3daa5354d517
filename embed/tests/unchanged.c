/* unchanged FOLDER: other lengths that come to nothing: processes that end before or in the middle of a commit, devices that fail or are full, host files that
   may not get longer, and what is refused. Each case is a process of its own (cases.h). Images are of layout 4, but where a case makes another. */
#define _GNU_SOURCE
#define PROGRAM "unchanged"
#include "grows.h"
#include <sys/resource.h>

/* Ends of processes */

static void a_killed_process_leaves_the_lengths_it_committed(void) {
  for (int commits = 0; commits < 2; commits++) {
    pid_t child = fork();
    if (child == 0) {
      begin_with(3 * PAGE, 1, 2 * PAGE);
      DONE(kefs_resize(image, 0, 20 * PAGE));
      DONE(kefs_resize(image, 1, 0));
      store(a + 19 * PAGE, 4);
      if (commits) committed();
      DONE(kefs_resize(image, 0, PAGE));
      _exit(0);
    }
    CHECK(status_of(child) == 0);
    DONE(kefs_open(&image, PATH, flags));
    a = map_growing(0);
    CHECK(length_of(0) == (commits ? 20 : 3) * PAGE && length_of(1) == (commits ? 0 : 2 * PAGE) && (!commits || a[19 * PAGE] == 4) && a[2 * PAGE] == 1);
    DONE(kefs_close(image));
  }
}

static void a_child_resizes_nothing(void) {
  void *at;
  begin_with(3 * PAGE, 1, 0);
  DONE(kefs_resize(image, 0, 5 * PAGE));
  pid_t child = fork();
  if (child == 0) {
    RETURNS(KEFS_FORKED, kefs_resize(image, 0, PAGE));
    RETURNS(KEFS_FORKED, kefs_map_growing(image, 0, NULL, PAGE, &at, NULL));
    CHECK(signal_of_touch(a + 4 * PAGE, 0) == SIGSEGV && signal_of_touch(a + 6 * PAGE, 0) == SIGSEGV);
    RETURNS(KEFS_FORKED, kefs_close(image));
    _exit(0);
  }
  CHECK(status_of(child) == 0);
  store(a + 4 * PAGE, 2);
  committed();
  reopen();
  CHECK(length_of(0) == 5 * PAGE && a[4 * PAGE] == 2);
  DONE(kefs_close(image));
}

/* Failures */

static void change_lengths(void) {
  DONE(kefs_resize(image, 0, 3 * PAGE + 9));
  DONE(kefs_resize(image, 1, 40 * PAGE));
  store(a, 2), store(a + 3 * PAGE, 3);
}

static int is_changed(void) { return length_of(0) == 3 * PAGE + 9 && length_of(1) == 40 * PAGE && a[0] == 2 && a[1] == 1 && a[3 * PAGE] == 3; }
static int is_unchanged(void) { return is_file(5 * PAGE, 1, 5 * PAGE) && length_of(1) == 100; }

static void begin_plainly(void) { begin_with(5 * PAGE, 1, 100); }

/* The next commit needs more slots than are free, so that all pages are brought home first. */
static void begin_with_few_slots(void) {
  static unsigned char content[5 * PAGE];
  memset(content, 1, sizeof content);
  struct kefs_file files[] = {{sizeof content, 0, content}, {100, 0, NULL}, {1100 * PAGE, 0, NULL}};
  struct kefs_options options = {.size = sizeof options, .files = files, .count = COUNT_OF(files), .pool = 1};
  unlink(PATH);
  DONE(kefs_open_with(&image, PATH, KEFS_CREATE | flags, &options));
  a = map_growing(0);
  unsigned char *c = map_growing(2);
  for (int k = 0; k < 600; k++) store(c + k * PAGE, 1);
  CHECK(committed() == 600);
  for (int k = 600; k < 1100; k++) store(c + k * PAGE, 1);
}

/* After a commit whose call of this number failed: whether it had so many. */
static int try_failing_call(long call, void (*begins)(void)) {
  int stands;
  begins();
  change_lengths();
  calls_left = call, failing_number = EIO;
  int result = kefs_commit(image, NULL, 0, NULL);
  calls_left = -1;
  if (result == KEFS_OK) return DONE(kefs_close(image)), 0;
  RETURNS(KEFS_DEVICE, result);
  RETURNS(KEFS_HALTED, kefs_resize(image, 0, 1));
  DONE(kefs_recover(image, &stands));
  CHECK(is_changed() && (stands == KEFS_AFTER) == (written() == 0));
  if (call % 2 == 0) committed();
  else DONE(kefs_rollback(image, NULL, 0));
  CHECK(call % 2 == 0 || stands == KEFS_AFTER ? is_changed() : is_unchanged());
  reopen();
  CHECK(call % 2 == 0 || stands == KEFS_AFTER ? is_changed() : is_unchanged());
  DONE(kefs_close(image));
  return 1;
}

static void a_failing_device_leaves_all_lengths_or_none(void) {
  long call = 0;
  while (try_failing_call(call, begin_plainly)) call++;
  CHECK(call > 3);
}

/* The first calls bring pages home, up to 256 each. */
static void a_failing_device_leaves_all_lengths_or_none_where_slots_are_few(void) {
  long call = 0;
  while (try_failing_call(call, begin_with_few_slots)) call++;
  CHECK(call > 6);
}

/* Whether a process that ends at a call of this number had so many. */
static int try_ending_call(long call) {
  pid_t child = fork();
  if (child == 0) {
    begin_with(5 * PAGE, 1, 100);
    change_lengths();
    calls_left = call, failing_number = 0;
    DONE(kefs_commit(image, NULL, 0, NULL));
    _exit(0);
  }
  int status = status_of(child), is_over = status == 0;
  CHECK(is_over || status == -1);
  DONE(kefs_open(&image, PATH, flags));
  a = map_growing(0);
  CHECK(is_changed() || (!is_over && is_unchanged()));
  DONE(kefs_close(image));
  return !is_over;
}

static void a_process_that_ends_leaves_all_lengths_or_none(void) {
  long call = 0;
  while (try_ending_call(call)) call++;
  CHECK(call > 3);
}

static void a_full_device_changes_nothing(void) {
  for (long call = 0; call < 4; call++) {
    begin_with(5 * PAGE, 1, 100);
    unsigned char *b = map_growing(1);
    change_lengths();
    calls_left = call, failing_number = ENOSPC;
    RETURNS(ENOSPC, kefs_commit(image, NULL, 0, NULL));
    CHECK(is_changed() && written() > 0 && is_open_to_calls(b + 39 * PAGE));
    committed();
    reopen();
    CHECK(is_changed());
    DONE(kefs_close(image));
  }
}

/* There is room for some of the new pages. That for all of them is taken before any call of the commit. */
static void a_full_memory_file_system_refuses_new_pages(void) {
  struct stat filler;
  void *at;
  mount_memory("40M");
  CHECK(chdir("memory") == 0);
  begin_with(5 * PAGE, 1, 100);
  CHECK(chdir("..") == 0);
  store(a, 1);
  CHECK(committed() == 1); /* so that a recovery would write */
  DONE(kefs_map_growing(image, 1, NULL, 5000 * PAGE, &at, NULL));
  DONE(kefs_resize(image, 1, 5000 * PAGE)); /* more than there are slots */
  memset(at, 3, 5000 * PAGE);
  fill_memory();
  CHECK(stat("memory/filler", &filler) == 0 && truncate("memory/filler", filler.st_size - 20 * PAGE) == 0);
  uint64_t before = facts().written_bytes;
  RETURNS(ENOSPC, kefs_commit(image, NULL, 0, NULL));
  CHECK(length_of(1) == 5000 * PAGE && written() == 5000 && facts().written_bytes == before);
  CHECK(unlink("memory/filler") == 0);
  CHECK(committed() == 5000);
  fill_memory();
  store(a, 4); /* what has room needs none */
  CHECK(committed() == 1);
  DONE(kefs_close(image));
}

static void a_halted_image_may_be_closed(void) {
  begin_with(5 * PAGE, 1, 100);
  change_lengths();
  calls_left = 1, failing_number = EIO;
  RETURNS(KEFS_DEVICE, kefs_commit(image, NULL, 0, NULL));
  calls_left = -1;
  reopen();
  CHECK(is_unchanged());
  DONE(kefs_close(image));
}

static void set_limit(rlim_t bytes) {
  struct rlimit limit;
  CHECK(getrlimit(RLIMIT_FSIZE, &limit) == 0);
  limit.rlim_cur = bytes;
  CHECK(setrlimit(RLIMIT_FSIZE, &limit) == 0);
}

static rlim_t host_bytes(void) {
  struct stat there;
  CHECK(stat(PATH, &there) == 0);
  return (rlim_t)there.st_size;
}

static void a_host_file_that_may_not_get_longer(void) {
  begin_with(5 * PAGE, 1, 100);
  set_limit(host_bytes());
  RETURNS(EFBIG, kefs_resize(image, 0, 400 * PAGE));
  CHECK(is_unchanged() && strstr(kefs_errmsg(image), "a host file of over 11 pages: File too large") != NULL);
  set_limit(host_bytes() + 50 * PAGE); /* just what the file lacks, and not twice as long */
  DONE(kefs_resize(image, 0, 40 * PAGE));
  CHECK(committed() == 35 && facts().pages == 11 + 35);
  set_limit(RLIM_INFINITY);
  DONE(kefs_resize(image, 0, 400 * PAGE));
  CHECK(committed() == 360);
  DONE(kefs_close(image));
}

/* Homes that are free, and fewer than an extent should have, are given one by one. */
static void a_file_lies_in_thirty_parts_at_most(void) {
  begin_with(40 * PAGE, 1, PAGE);
  DONE(kefs_resize(image, 0, 0));
  committed();
  set_limit(host_bytes());
  for (size_t pages = 2; pages <= 30; pages++) {
    DONE(kefs_resize(image, 1, pages * PAGE));
    committed();
  }
  RETURNS(EFBIG, kefs_resize(image, 1, 31 * PAGE));
  CHECK(length_of(1) == 30 * PAGE && strstr(kefs_errmsg(image), "30 parts") != NULL);
  set_limit(RLIM_INFINITY);
  RETURNS(EFBIG, kefs_resize(image, 1, 31 * PAGE));
  DONE(kefs_resize(image, 1, PAGE));
  committed();
  DONE(kefs_resize(image, 1, 31 * PAGE));
  committed();
  DONE(kefs_close(image));
}

/* What the first file that grows is given leaves the other one none. */
static void homes_that_are_too_few_for_two_are_refused_late(void) {
  begin_with(70 * PAGE, 1, 0);
  DONE(kefs_resize(image, 0, 0));
  committed();
  set_limit(host_bytes());
  DONE(kefs_resize(image, 0, 30 * PAGE));
  DONE(kefs_resize(image, 1, 30 * PAGE));
  RETURNS(EFBIG, kefs_commit(image, NULL, 0, NULL));
  CHECK(length_of(0) == 30 * PAGE && length_of(1) == 30 * PAGE && written() == 60);
  set_limit(RLIM_INFINITY);
  CHECK(committed() == 60);
  DONE(kefs_close(image));
}

/* So many bytes of addresses more than the process has; the sanitizers' own calls would not live on. */
static void set_memory(rlim_t more) {
  unsigned long pages = 0;
  FILE *facts = fopen("/proc/self/statm", "r");
  CHECK(facts != NULL && fscanf(facts, "%lu", &pages) == 1 && fclose(facts) == 0);
  struct rlimit limit = {more == RLIM_INFINITY ? more : (rlim_t)pages * PAGE + more, RLIM_INFINITY};
  CHECK(setrlimit(RLIMIT_AS, &limit) == 0);
}

/* File 0 gets so many pages, none of them zeros, by a commit with ever more memory until that is enough: how often it was not. */
static int refused_for_memory(size_t pages) {
  int result = ENOMEM, refused = -1;
  DONE(kefs_resize(image, 0, pages * PAGE));
  memset(a, 1, pages * PAGE);
  for (size_t more = 0, new = written(); result == ENOMEM; more += 512 << 10, refused++) {
    set_memory(more);
    result = kefs_commit(image, NULL, 0, NULL);
    set_memory(RLIM_INFINITY);
    CHECK(is_file(pages * PAGE, 1, pages * PAGE) && written() == (result == KEFS_OK ? 0 : new));
  }
  DONE(result);
  return refused;
}

static void without_memory_nothing_is_done(void) {
#if defined __SANITIZE_ADDRESS__ || defined __SANITIZE_THREAD__
  _exit(SKIPPED);
#endif
  begin_with(5 * PAGE, 1, 100);
  set_memory(0);
  RETURNS(ENOMEM, kefs_resize(image, 0, 1000 * PAGE));
  CHECK(is_unchanged() && written() == 0);
  set_memory(RLIM_INFINITY);
  CHECK(refused_for_memory(905) > 3);
  CHECK(refused_for_memory(1000) == 0); /* room is there from the commit before, */
  CHECK(refused_for_memory(2030) > 0);
  CHECK(refused_for_memory(2031) > 0);  /* and not from one of so many pages */
  DONE(kefs_close(image));
}

static void bad_lengths_are_refused(void) {
  void *at;
  begin_with(3 * PAGE, 1, 0);
  RETURNS(KEFS_BAD_ARGUMENT, kefs_resize(NULL, 0, 1));
  RETURNS(KEFS_NO_FILE, kefs_resize(image, 3, 1));
  RETURNS(KEFS_NO_FILE, kefs_resize(image, 64, 1));
  RETURNS(KEFS_NO_FILE, kefs_resize(image, KEFS_FILES, 1));
  RETURNS(KEFS_READ_ONLY, kefs_resize(image, 2, 1));
  RETURNS(EFBIG, kefs_resize(image, 0, LONGEST + 1));
  RETURNS(KEFS_BAD_ARGUMENT, kefs_map_growing(image, 1, NULL, PAGE, NULL, NULL));
  RETURNS(KEFS_NO_FILE, kefs_map_growing(image, 3, NULL, PAGE, &at, NULL));
  RETURNS(EINVAL, kefs_map_growing(image, 1, a + 1, PAGE, &at, NULL));
  RETURNS(EEXIST, kefs_map_growing(image, 1, a + KEPT - PAGE, 2 * PAGE, &at, NULL));
  RETURNS(EEXIST, kefs_map_growing(image, 0, a + PAGE, PAGE, &at, NULL));
  DONE(kefs_resize(image, 0, 3 * PAGE));
  CHECK(written() == 0 && committed() == 0 && facts().commits == 0);
  DONE(kefs_map_growing(image, 1, NULL, (size_t)1 << 35, &at, NULL));
  DONE(kefs_close(image));
  DONE(kefs_open(&image, PATH, KEFS_RDONLY));
  RETURNS(KEFS_READ_ONLY, kefs_resize(image, 0, 1));
  DONE(kefs_map_growing(image, 0, NULL, KEPT, &at, NULL));
  CHECK(*(unsigned char *)at == 1);
  DONE(kefs_close(image));
}

static void an_image_of_layout_2_has_fixed_lengths(void) {
  struct kefs_file file = {PAGE, 0, NULL};
  void *at;
  unlink(PATH);
  DONE(kefs_format(PATH, 0600, &file, 1));
  make_older(PATH);
  DONE(kefs_open(&image, PATH, flags));
  RETURNS(EOPNOTSUPP, kefs_resize(image, 0, 1));
  DONE(kefs_map_growing(image, 0, NULL, KEPT, &at, NULL));
  CHECK(length_of(0) == PAGE);
  DONE(kefs_close(image));
}

static void a_creation_finds_files_that_have_grown(void) {
  struct kefs_file files[] = {{PAGE, KEFS_FILE_GROWS, NULL}, {PAGE, 0, NULL}};
  struct kefs_options options = {.size = sizeof options, .permissions = 0600, .files = files, .count = 2};
  unlink(PATH);
  for (size_t pages = 1; pages < 4; pages++) {
    DONE(kefs_open_with(&image, PATH, KEFS_CREATE, &options));
    CHECK(length_of(0) == pages * PAGE);
    DONE(kefs_resize(image, 0, (pages + 1) * PAGE));
    committed();
    DONE(kefs_close(image));
  }
  files[0].flags = 0;
  RETURNS(KEFS_OTHER_FILES, kefs_open_with(&image, PATH, KEFS_CREATE, &options));
}

static const struct test with_each_tracker[] = {
  TEST(a_killed_process_leaves_the_lengths_it_committed), TEST(a_child_resizes_nothing), TEST(a_failing_device_leaves_all_lengths_or_none),
  TEST(a_process_that_ends_leaves_all_lengths_or_none), TEST(a_full_device_changes_nothing), TEST(a_halted_image_may_be_closed)};
static const struct test once[] = {
  TEST(a_failing_device_leaves_all_lengths_or_none_where_slots_are_few), TEST(a_full_memory_file_system_refuses_new_pages),
  TEST(a_host_file_that_may_not_get_longer), TEST(a_file_lies_in_thirty_parts_at_most), TEST(homes_that_are_too_few_for_two_are_refused_late),
  TEST(without_memory_nothing_is_done), TEST(bad_lengths_are_refused), TEST(an_image_of_layout_2_has_fixed_lengths),
  TEST(a_creation_finds_files_that_have_grown)};

int main(int argc, char **argv) { return run_growing(argc, argv, once, COUNT_OF(once), with_each_tracker, COUNT_OF(with_each_tracker)); }
