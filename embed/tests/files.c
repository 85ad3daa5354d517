/* files FOLDER: files that come and go, by their numbers. Each case is a process of its own (cases.h). */
#define _GNU_SOURCE
#define PROGRAM "files"
#include "files_tests.h"
#include <errno.h>
#include <sys/resource.h>

static void files_come_and_go_with_a_commit(void) {
  size_t length;
  begin(2, 5);
  DONE(kefs_add_file(image, 7, 2 * PAGE + 1));
  unsigned char *new = map(7);
  CHECK(length_of(7) == 2 * PAGE + 1 && is_all(new, 3 * PAGE, 0) && count_files() == 2 && written() == 3);
  fill(new, 2 * PAGE + 1, 9), store(a, 6);
  commit_all();
  CHECK(written() == 0 && commits() == 1);
  RETURNS(EBUSY, kefs_remove_file(image, 7));
  open_again();
  new = map(7);
  CHECK(a[0] == 6 && is_all(new, 2 * PAGE + 1, 9) && new[2 * PAGE + 1] == 0);
  DONE(kefs_unmap(image, 7));
  DONE(kefs_remove_file(image, 7));
  RETURNS(KEFS_NO_FILE, kefs_length(image, 7, &length));
  RETURNS(KEFS_NO_FILE, kefs_resize(image, 7, 1));
  RETURNS(EBUSY, kefs_add_file(image, 7, 0));
  commit_all();
  CHECK(commits() == 1 && count_files() == 1);
  DONE(kefs_add_file(image, 7, 0));
  open_again();
  RETURNS(KEFS_NO_FILE, kefs_length(image, 7, &length));
  DONE(kefs_close(image));
}

static void calls_by_number_have_their_results(void) {
  struct kefs_file files[] = {{PAGE, 0, NULL}, {PAGE, KEFS_FILE_READ_ONLY, NULL}};
  void *at;
  unlink(PATH);
  DONE(kefs_format(PATH, 0600, files, 2));
  DONE(kefs_open(&image, PATH, flags));
  RETURNS(KEFS_BAD_ARGUMENT, kefs_add_file(NULL, 2, 0));
  RETURNS(KEFS_BAD_ARGUMENT, kefs_remove_file(NULL, 2));
  RETURNS(EINVAL, kefs_add_file(image, 64, 0));
  RETURNS(EEXIST, kefs_add_file(image, 1, 0));
  RETURNS(EFBIG, kefs_add_file(image, 2, LONGEST + 1));
  RETURNS(EINVAL, kefs_add_file(image, KEFS_FILES, 0));
  RETURNS(KEFS_NO_FILE, kefs_remove_file(image, 2));
  RETURNS(KEFS_NO_FILE, kefs_remove_file(image, 64));
  RETURNS(KEFS_READ_ONLY, kefs_remove_file(image, 1));
  DONE(kefs_map(image, 0, NULL, &at, NULL));
  RETURNS(EBUSY, kefs_remove_file(image, 0));
  DONE(kefs_add_file(image, 2, 0));
  RETURNS(EEXIST, kefs_add_file(image, 2, 0));
  DONE(kefs_remove_file(image, 2));
  DONE(kefs_add_file(image, 2, PAGE));
  DONE(kefs_remove_file(image, 2));
  commit_all();
  CHECK(commits() == 0);
  DONE(kefs_close(image));
  DONE(kefs_open(&image, PATH, KEFS_RDONLY));
  RETURNS(KEFS_READ_ONLY, kefs_add_file(image, 2, 0));
  RETURNS(KEFS_READ_ONLY, kefs_remove_file(image, 0));
  DONE(kefs_close(image));
}

static void a_file_that_finds_no_room_is_not_there(void) {
  size_t length;
  begin(1, 0);
  signal(SIGXFSZ, SIG_IGN);
  CHECK(setrlimit(RLIMIT_FSIZE, &(struct rlimit){64 << 20, RLIM_INFINITY}) == 0);
  RETURNS(EFBIG, kefs_add_file(image, 1, 1 << 30));
  RETURNS(KEFS_NO_FILE, kefs_length(image, 1, &length));
  CHECK(count_files() == 1);
  DONE(kefs_add_file(image, 1, 1 << 20));
  RETURNS(EFBIG, kefs_resize(image, 1, 1 << 30));
  commit_all();
  open_again();
  CHECK(length_of(1) == 1 << 20);
  DONE(kefs_close(image));
}

/* A directory of one page has place for 16 files. */
static void put_directory_pages(unsigned char pages) {
  int fd = open(PATH, O_WRONLY);
  CHECK(pwrite(fd, &pages, 1, 512 + 12) == 1 && close(fd) == 0);
}

static void a_directory_has_its_end(void) {
  make_file(PATH, 1, 0);
  put_directory_pages(1);
  DONE(kefs_open(&image, PATH, flags));
  RETURNS(EINVAL, kefs_add_file(image, 16, 0));
  DONE(kefs_add_file(image, 15, PAGE));
  commit_all();
  leave_and_open();
  CHECK(count_files() == 2 && length_of(15) == PAGE);
  DONE(kefs_close(image));
}

static void layout_2_has_its_files(void) {
  unsigned file;
  const char *name;
  char content[NAMES_LENGTH] = "kefs names 1";
  struct kefs_file names = {NAMES_LENGTH, 0, content};
  unlink(PATH);
  DONE(kefs_format(PATH, 0600, &names, 1));
  make_older(PATH);
  DONE(kefs_open(&image, PATH, flags));
  RETURNS(EOPNOTSUPP, kefs_add_file(image, 2, 0));
  RETURNS(EOPNOTSUPP, kefs_remove_file(image, 0));
  RETURNS(EOPNOTSUPP, kefs_lookup(image, "a", &file));
  RETURNS(EOPNOTSUPP, kefs_name_at(image, 1, &name));
  DONE(kefs_close(image));
}

/* The mapping stays, as one of a file that was cut to nothing. */
static void a_roll_back_takes_files_back(void) {
  size_t length;
  begin(2, 5);
  DONE(kefs_add_file(image, 3, 2 * PAGE));
  commit_all();
  DONE(kefs_remove_file(image, 3));
  DONE(kefs_add_file(image, 4, PAGE));
  unsigned char *new = map(4);
  fill(new, PAGE, 1);
  roll_back_all();
  CHECK(length_of(3) == 2 * PAGE && written() == 0);
  RETURNS(KEFS_NO_FILE, kefs_length(image, 4, &length));
  RETURNS(KEFS_BAD_RANGE, kefs_mark_dirty(image, new, 1));
  RETURNS(EBUSY, kefs_add_file(image, 4, PAGE));
  commit_all();
  CHECK(commits() == 1);
  DONE(kefs_unmap(image, 4));
  DONE(kefs_add_file(image, 4, PAGE));
  CHECK(is_all(map(4), PAGE, 0));
  commit_all();
  open_again();
  CHECK(length_of(3) == 2 * PAGE && length_of(4) == PAGE);
  DONE(kefs_close(image));
}

static volatile sig_atomic_t is_expected;
static void on_bus_error(int number) { _exit(is_expected ? 0 : number); }

static void a_touch_of_a_file_that_was_rolled_back_is_a_bus_error(void) {
  begin(1, 0);
  DONE(kefs_add_file(image, 1, PAGE));
  unsigned char *new = map(1);
  roll_back_all();
  signal(SIGBUS, on_bus_error);
  is_expected = 1;
  *(volatile unsigned char *)new = 1;
  CHECK(!"a touch has to be a SIGBUS");
}

/* A commit, or a roll back, of a range in a new file is of all that came and went; one of another range is not. */
static void a_range_of_a_new_file_takes_all_that_comes_and_goes(void) {
  begin(2, 5);
  DONE(kefs_add_file(image, 1, PAGE));
  commit_all();
  for (int commits = 0; commits < 2; commits++) {
    DONE(kefs_add_file(image, 2, 2 * PAGE));
    DONE(kefs_remove_file(image, 1));
    unsigned char *new = map(2);
    struct kefs_range old_range = {a, 1}, range = {new + 15 * PAGE, 1};
    fill(new, 2 * PAGE, 8), store(a, 7), store(a + PAGE, 7);
    size_t pages;
    DONE(kefs_count_dirty(image, &old_range, 1, &pages));
    CHECK(pages == 1);
    DONE(kefs_commit(image, &old_range, 1, &pages));
    CHECK(pages == 1);
    DONE(kefs_count_dirty(image, &range, 1, &pages));
    CHECK(pages == 2);
    if (commits) DONE(kefs_commit(image, &range, 1, &pages));
    else DONE(kefs_rollback(image, &range, 1));
    CHECK(count_files() == 2 && written() == 1);
    DONE(kefs_unmap(image, 2));
  }
  open_again();
  CHECK(count_files() == 2 && is_all(map(2), 2 * PAGE, 8) && a[0] == 7 && a[PAGE] == 5);
  DONE(kefs_close(image));
}

static void an_unmapped_new_file_is_as_it_was_made(void) {
  begin(1, 0);
  DONE(kefs_add_file(image, 1, 2 * PAGE));
  fill(map(1), PAGE, 1);
  DONE(kefs_resize(image, 1, 5 * PAGE));
  DONE(kefs_unmap(image, 1));
  CHECK(length_of(1) == 2 * PAGE && is_all(map(1), 2 * PAGE, 0));
  commit_all();
  open_again();
  CHECK(length_of(1) == 2 * PAGE && is_all(map(1), 2 * PAGE, 0));
  DONE(kefs_close(image));
}

static void a_new_file_may_be_cut_to_nothing(void) {
  begin(1, 0);
  DONE(kefs_add_file(image, 1, 2 * PAGE));
  DONE(kefs_resize(image, 1, 0));
  commit_all();
  DONE(kefs_add_file(image, 2, 0));
  DONE(kefs_resize(image, 2, PAGE));
  DONE(kefs_resize(image, 2, 0));
  commit_all();
  open_again();
  CHECK(count_files() == 3 && length_of(1) == 0 && length_of(2) == 0);
  DONE(kefs_close(image));
}

static void a_start_takes_files_at_once(void) {
  uint64_t ticket;
  size_t taken;
  begin(2, 5);
  store(a, 1);
  DONE(kefs_commit_start(image, NULL, 0, NULL, &ticket));
  CHECK(commits() == 0);
  DONE(kefs_add_file(image, 1, PAGE));
  fill(map(1), PAGE, 3);
  DONE(kefs_commit_start(image, NULL, 0, &taken, &ticket));
  CHECK(commits() == 2 && taken == 1);
  DONE(kefs_commit_wait(image, ticket));
  open_again();
  CHECK(a[0] == 1 && is_all(map(1), PAGE, 3));
  DONE(kefs_close(image));
}

static const struct test once[] = {
  TEST(calls_by_number_have_their_results), TEST(a_file_that_finds_no_room_is_not_there), TEST(a_directory_has_its_end), TEST(layout_2_has_its_files)};
static const struct test with_each_tracker[] = {
  TEST(files_come_and_go_with_a_commit), TEST(a_roll_back_takes_files_back), TEST(a_touch_of_a_file_that_was_rolled_back_is_a_bus_error),
  TEST(a_range_of_a_new_file_takes_all_that_comes_and_goes), TEST(an_unmapped_new_file_is_as_it_was_made), TEST(a_new_file_may_be_cut_to_nothing),
  TEST(a_start_takes_files_at_once)};

int main(int argc, char **argv) { return argc < 2 ? 2 : run_cases(argv, once, COUNT_OF(once), with_each_tracker, COUNT_OF(with_each_tracker)); }
