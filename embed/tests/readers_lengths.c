/* readers_lengths FOLDER [CASE|-CASE]: readers beside a writer that gives files other lengths: what a refresh brings, what it reads, and when it fails.
   Images are of layout 4. */
#define _GNU_SOURCE
#include "lengths_tests.h"

static int failing_map; /* of mmap and mremap, the one that fails */

#ifdef __SANITIZE_THREAD__
enum { MAPS_FAIL = 0 }; /* the sanitizer has calls of its own in their place */
#else
enum { MAPS_FAIL = 1 };

static int fails_now(void) { return failing_map > 0 && --failing_map == 0; }

void *mmap(void *at, size_t length, int access, int kind, int fd, off_t from) {
  if (fails_now()) return errno = ENOMEM, MAP_FAILED;
  return (void *)syscall(SYS_mmap, at, length, access, kind, fd, from);
}

void *mremap(void *at, size_t length, size_t longer, int kind, ...) {
  if (fails_now()) return errno = ENOMEM, MAP_FAILED;
  return (void *)syscall(SYS_mremap, at, length, longer, kind, NULL);
}
#endif

/* One file, by hand */

static size_t length_of(kefs_image *image) {
  size_t length;
  DONE(kefs_length(image, 0, &length));
  return length;
}

static void begin_growing(uint32_t length, size_t most) {
  void *at;
  make_file(PATH, length, 1);
  DONE(kefs_open(&writer, PATH, 0));
  DONE(kefs_map_growing(writer, 0, NULL, MOST, &at, NULL));
  a = at;
  DONE(kefs_open(&reader, PATH, KEFS_SNAPSHOT));
  DONE(kefs_map_growing(reader, 0, NULL, most, &at, NULL));
  r = at;
}

static void commit_length(size_t length) {
  DONE(kefs_resize(writer, 0, length));
  DONE(kefs_commit(writer, NULL, 0, NULL));
}

static void a_refresh_brings_lengths(void) {
  begin_growing(2 * PAGE + 100, MOST);
  DONE(kefs_resize(writer, 0, 5 * PAGE + 7));
  memset(a + 2 * PAGE + 100, 2, 3 * PAGE - 93);
  CHECK(refreshed() == 0 && length_of(reader) == 2 * PAGE + 100 && fault_of(r + 3 * PAGE) == SIGBUS);
  DONE(kefs_commit(writer, NULL, 0, NULL));
  CHECK(length_of(reader) == 2 * PAGE + 100 && fault_of(r + 3 * PAGE) == SIGBUS);
  CHECK(refreshed() == 1 && length_of(reader) == 5 * PAGE + 7 && memcmp(a, r, 6 * PAGE) == 0 && fault_of(r + 6 * PAGE) == SIGBUS);
  CHECK(r[5 * PAGE + 6] == 2 && r[5 * PAGE + 7] == 0 && fault_of(r + MOST - 1) == SIGBUS);
  commit_length(PAGE + 1);
  CHECK(refreshed() == 1 && length_of(reader) == PAGE + 1 && fault_of(r + 2 * PAGE) == SIGBUS && r[PAGE] == 1 && r[PAGE + 1] == 0);
  commit_length(PAGE);
  CHECK(refreshed() == 1 && length_of(reader) == PAGE && fault_of(r + PAGE) == SIGBUS && r[PAGE - 1] == 1);
  commit_length(3 * PAGE - 1);
  CHECK(refreshed() == 1 && length_of(reader) == 3 * PAGE - 1 && is_zeros((char *)r + PAGE, 2 * PAGE));
  commit_length(3 * PAGE - 2); /* bytes stay as they are */
  CHECK(refreshed() == 1 && length_of(reader) == 3 * PAGE - 2);
  commit_length(0);
  CHECK(refreshed() == 1 && length_of(reader) == 0 && fault_of(r) == SIGBUS && refreshed() == 0);
  commit_length(1);
  CHECK(refreshed() == 1 && length_of(reader) == 1 && r[0] == 0 && fault_of(r + PAGE) == SIGBUS);
  end();
}

/* What came and went between two refreshes. */
static void a_file_that_was_cut_and_grew_is_read_anew(void) {
  begin_growing(9 * PAGE, MOST);
  commit_length(2 * PAGE);
  commit_length(9 * PAGE);
  CHECK(refreshed() == 1 && r[2 * PAGE - 1] == 1 && is_zeros((char *)r + 2 * PAGE, 7 * PAGE));
  memset(a, 3, 9 * PAGE);
  DONE(kefs_commit(writer, NULL, 0, NULL)); /* into slots, which their homes keep */
  CHECK(refreshed() == 1 && r[9 * PAGE - 1] == 3);
  commit_length(PAGE + 5);
  commit_length(7 * PAGE);
  CHECK(refreshed() == 1 && length_of(reader) == 7 * PAGE && r[PAGE + 4] == 3 && is_zeros((char *)r + PAGE + 5, 6 * PAGE - 5));
  DONE(kefs_resize(writer, 0, 200 * PAGE));
  memset(a, 4, 200 * PAGE);
  DONE(kefs_commit(writer, NULL, 0, NULL));
  CHECK(refreshed() == 1 && memcmp(a, r, 200 * PAGE) == 0);
  DONE(kefs_unmap(writer, 0));
  commit_length(150 * PAGE + 9); /* and the last page is not written */
  CHECK(refreshed() == 1 && r[150 * PAGE + 8] == 4 && is_zeros((char *)r + 150 * PAGE + 9, PAGE - 9));
  commit_length(152 * PAGE);
  CHECK(refreshed() == 1 && r[150 * PAGE + 8] == 4 && is_zeros((char *)r + 150 * PAGE + 9, 2 * PAGE - 9));
  end();
}

static void a_mapping_shows_as_many_pages_as_it_keeps(void) {
  void *at;
  size_t length;
  begin_growing(3 * PAGE, 0);
  DONE(kefs_resize(writer, 0, 10 * PAGE));
  memset(a, 5, 10 * PAGE);
  DONE(kefs_commit(writer, NULL, 0, NULL));
  CHECK(refreshed() == 1 && length_of(reader) == 10 * PAGE && r[3 * PAGE - 1] == 5);
  RETURNS(EEXIST, kefs_map(reader, 0, NULL, &at, &length));
  RETURNS(KEFS_BAD_RANGE, kefs_touch(reader, r, 3 * PAGE + 1));
  DONE(kefs_touch(reader, r, 3 * PAGE));
  commit_length(2 * PAGE);
  CHECK(refreshed() == 1 && fault_of(r + 2 * PAGE) == SIGBUS);
  DONE(kefs_map(reader, 0, NULL, &at, &length));
  CHECK(at == r && length == 2 * PAGE);
  RETURNS(KEFS_BAD_RANGE, kefs_touch(reader, r, 3 * PAGE));
  commit_length(10 * PAGE);
  CHECK(refreshed() == 1 && r[3 * PAGE - 1] == 0);
  DONE(kefs_unmap(reader, 0));
  DONE(kefs_map(reader, 0, NULL, &at, &length));
  CHECK(length == 10 * PAGE && memcmp(at, a, length) == 0);
  end();
}

static void an_empty_file_is_mapped_when_it_has_grown(void) {
  void *at = &at;
  begin_growing(0, 0);
  DONE(kefs_map(reader, 0, NULL, &at, NULL));
  CHECK(at == NULL && r == NULL);
  DONE(kefs_resize(writer, 0, 2 * PAGE));
  memset(a, 5, 2 * PAGE);
  DONE(kefs_commit(writer, NULL, 0, NULL));
  CHECK(refreshed() == 1);
  DONE(kefs_map(reader, 0, NULL, &at, NULL));
  CHECK(memcmp(at, a, 2 * PAGE) == 0);
  end();
}

static long read_by_refresh(void) {
  long before = get(&bytes_read);
  CHECK(refreshed() == 1);
  return get(&bytes_read) - before;
}

/* After commits of lengths too a refresh reads what these have changed, a page twice at most, and where nothing was committed nothing. */
static void a_refresh_reads_what_lengths_have_changed(void) {
  enum { MANY = 2000, HEAD = 12 * PAGE };
  begin_growing(MANY * PAGE, MOST);
  refreshed();
  commit_length((MANY + 1) * PAGE);
  CHECK(read_by_refresh() < HEAD);
  for (int i = 1; i <= 10; i++) a[(size_t)i * 100 * PAGE] = 7, commit_length((size_t)(MANY + 1 + 5 * i) * PAGE);
  CHECK(read_by_refresh() < HEAD + 2 * 70 * PAGE && memcmp(a, r, (MANY + 51) * PAGE) == 0);
  for (int i = 0; i < 40; i++) a[(size_t)i * 20 * PAGE] = 8; /* more runs than are told */
  commit_length((MANY + 60) * PAGE);
  CHECK(read_by_refresh() < HEAD + 70 * PAGE && memcmp(a, r, (MANY + 60) * PAGE) == 0);
  commit_length(MANY * PAGE);
  CHECK(read_by_refresh() < HEAD && length_of(reader) == MANY * PAGE);
  long before = get(&bytes_read);
  CHECK(refreshed() == 0 && get(&bytes_read) == before);
  DONE(kefs_resize(writer, 0, (MANY + 1) * PAGE)); /* may make the host file longer */
  CHECK(refreshed() == 0 && get(&bytes_read) == before);
  DONE(kefs_rollback(writer, NULL, 0));
  end();
}

/* Where a call of it fails nothing has changed: neither lengths nor what is mapped. */
static void a_refresh_that_fails_changes_no_length(int *failing, int wanted, int least) {
  struct store read;
  begin_written();
  open_store(&read, PATH, KEFS_SNAPSHOT);
  int result = -1;
  for (int i = 1; result != KEFS_OK; i += 1 + i / 4) {
    unsigned long before = checked(&read);
    commit_some(24);
    *failing = i;
    result = kefs_refresh(read.image, NULL);
    *failing = 0;
    CHECK(result == KEFS_OK ? i > least : result == wanted && checked(&read) == before);
    check_ends(&read);
    DONE(kefs_refresh(read.image, NULL));
    CHECK(checked(&read) == number_of(&written));
    check_ends(&read);
  }
  DONE(kefs_close(read.image));
  DONE(kefs_close(written.image));
}

static void a_read_that_fails_changes_no_length(void) { a_refresh_that_fails_changes_no_length(&failing_read, KEFS_DEVICE, 10); }

static void want_of_memory_changes_no_length(void) {
  if (MAPS_FAIL) a_refresh_that_fails_changes_no_length(&failing_map, ENOMEM, 5);
}

/* Nor want of room for a longer copy. */
static void a_process_that_may_have_no_such_file_sees_no_new_lengths(void) {
  struct rlimit before, small;
  begin_growing(9 * PAGE, MOST);
  commit_length(3000 * PAGE);
  signal(SIGXFSZ, SIG_DFL);
  CHECK(getrlimit(RLIMIT_FSIZE, &before) == 0);
  small = (struct rlimit){20 << 20, before.rlim_max};
  CHECK(setrlimit(RLIMIT_FSIZE, &small) == 0);
  RETURNS(EFBIG, kefs_refresh(reader, NULL));
  CHECK(length_of(reader) == 9 * PAGE && r[9 * PAGE - 1] == 1 && fault_of(r + 9 * PAGE) == SIGBUS);
  CHECK(setrlimit(RLIMIT_FSIZE, &before) == 0 && refreshed() == 1 && length_of(reader) == 3000 * PAGE && r[3000 * PAGE - 1] == 0);
  end();
}

/* Neither pages that have come nor addresses of those that went are a child's. */
static void a_child_has_no_page_that_came(void) {
  begin_growing(9 * PAGE, MOST);
  commit_length(20 * PAGE);
  commit_length(15 * PAGE);
  CHECK(refreshed() == 1 && r[15 * PAGE - 1] == 0);
  commit_length(14 * PAGE);
  CHECK(refreshed() == 1);
  pid_t child = fork();
  for (int k = 0; k < 20 && child == 0; k++) CHECK(fault_of(r + k * PAGE) == SIGSEGV);
  if (child == 0) _exit(0);
  CHECK(status_of(child) == 0 && r[13 * PAGE] == 0);
  end();
}

/* Any commits */

static void reopen_written(unsigned flags) {
  DONE(kefs_close(written.image));
  open_written(flags);
}

static void refreshes_are_as_after_one_commit(void) {
  struct store read;
  begin_written();
  open_store(&read, PATH, KEFS_SNAPSHOT);
  for (int round = 0; round < 150; round++) {
    commit_some((unsigned long)random() % (random() % 8 == 0 ? 30 : 4));
    if (random() % 8 == 0) DONE(kefs_tidy(written.image));
    DONE(kefs_refresh(read.image, NULL));
    CHECK(checked(&read) == number_of(&written));
    if (random() % 3 == 0) check_ends(&read), map_anew(&read, 1 + (unsigned)random() % (FILES - 1));
    if (random() % 10 == 0) check_backup(random() % 2 == 0 ? written.image : read.image, number_of(&written));
    if (random() % 10 == 0) reopen_written(random() % 2 == 0 ? KEFS_LAZY : KEFS_TRACK_SIGNAL);
    if (random() % 10 != 0) continue;
    DONE(kefs_close(read.image));
    open_store(&read, PATH, KEFS_SNAPSHOT);
    CHECK(checked(&read) == number_of(&written));
  }
  DONE(kefs_close(read.image));
  DONE(kefs_close(written.image));
}

/* Other ends */

static void a_reader_alone_sees_lengths_through_the_pool(void) {
  struct store read;
  begin_written();
  for (int round = 0; round < 30; round++) {
    commit_some(1 + (unsigned long)random() % 5);
    unsigned long n = number_of(&written);
    DONE(kefs_close(written.image));
    open_store(&read, PATH, round % 2 == 0 ? KEFS_RDONLY : KEFS_RDONLY | KEFS_LAZY);
    CHECK(checked(&read) == n);
    check_ends(&read);
    RETURNS(KEFS_READ_ONLY, kefs_resize(read.image, 1, 0));
    RETURNS(EINVAL, kefs_refresh(read.image, NULL));
    if (round % 10 == 0) check_backup(read.image, n);
    DONE(kefs_close(read.image));
    open_written(0);
  }
  DONE(kefs_close(written.image));
}

/* An entry of the directory, where no page is in a slot. */
static void move_entry(int from, int to) {
  static unsigned char entry[256], none[256];
  off_t directory = 512 * SECTORS_4.directory;
  int fd = open(PATH, O_RDWR);
  CHECK(pread(fd, entry, sizeof entry, directory + 256 * from) == 256 && pwrite(fd, none, sizeof none, directory + 256 * from) == 256);
  CHECK(pwrite(fd, entry, sizeof entry, directory + 256 * to) == 256 && close(fd) == 0);
}

/* As programs of images let them, and this library does not. */
static void files_come_and_go(void) {
  void *at;
  size_t length;
  struct kefs_stat stat = {.size = sizeof stat};
  make_files(PATH, (struct kefs_file[]){{3 * PAGE, 0, NULL}, {2 * PAGE, 0, "b"}}, 1);
  make_file(PATH, 3 * PAGE, 7);
  open_reader();
  move_entry(0, 20);
  CHECK(refreshed() == 1 && fault_of(r) == SIGBUS && fault_of(r + 3 * PAGE - 1) == SIGBUS);
  RETURNS(KEFS_NO_FILE, kefs_length(reader, 0, &length));
  RETURNS(KEFS_NO_FILE, kefs_map(reader, 0, NULL, &at, &length));
  DONE(kefs_map(reader, 20, NULL, &at, &length));
  DONE(kefs_stat(reader, &stat));
  CHECK(length == 3 * PAGE && memcmp(at, "\7\7", 2) == 0 && stat.files == 1);
  move_entry(20, 0);
  CHECK(refreshed() == 1 && r[3 * PAGE - 1] == 7 && fault_of(at) == SIGBUS);
  DONE(kefs_map(reader, 0, NULL, &at, &length));
  CHECK(at == r && length == 3 * PAGE);
  DONE(kefs_unmap(reader, 20));
  move_entry(0, 1);
  CHECK(refreshed() == 1);
  DONE(kefs_unmap(reader, 0));
  move_entry(1, 0);
  CHECK(refreshed() == 1);
  DONE(kefs_map(reader, 0, NULL, &at, &length));
  CHECK(((unsigned char *)at)[3 * PAGE - 1] == 7);
  DONE(kefs_close(reader));
}

/* Where what is said of files is nothing that an image has, all is as it was. */
static void bad_files_are_told(void) {
  static unsigned char entry[16] = {1, 0, 0, 0, 1, 0, 0, 0, 0, 16};
  make_file(PATH, 3 * PAGE, 7);
  open_reader();
  int fd = open(PATH, O_RDWR);
  CHECK(pwrite(fd, entry, sizeof entry, 512 * SECTORS_4.directory + 256) == sizeof entry);
  RETURNS(KEFS_NOT_IMAGE, kefs_refresh(reader, NULL));
  CHECK(strstr(kefs_errmsg(reader), "file 1 has more pages than homes") != NULL && r[3 * PAGE - 1] == 7 && length_of(reader) == 3 * PAGE);
  memset(entry, 0, sizeof entry);
  CHECK(pwrite(fd, entry, sizeof entry, 512 * SECTORS_4.directory + 256) == sizeof entry && close(fd) == 0);
  CHECK(refreshed() == 0 && r[3 * PAGE - 1] == 7);
  DONE(kefs_close(reader));
}

/* Running */

static const struct test tests[] = {
  TEST(a_refresh_brings_lengths), TEST(a_file_that_was_cut_and_grew_is_read_anew), TEST(a_mapping_shows_as_many_pages_as_it_keeps),
  TEST(an_empty_file_is_mapped_when_it_has_grown), TEST(a_refresh_reads_what_lengths_have_changed), TEST(a_read_that_fails_changes_no_length),
  TEST(want_of_memory_changes_no_length), TEST(a_process_that_may_have_no_such_file_sees_no_new_lengths), TEST(a_child_has_no_page_that_came),
  TEST(refreshes_are_as_after_one_commit), TEST(a_reader_alone_sees_lengths_through_the_pool),
  TEST(files_come_and_go), TEST(bad_files_are_told)};

int main(int argc, char **argv) {
  if (argc < 2 || chdir(argv[1]) != 0) return 2;
  return try_all("readers_lengths", tests, sizeof tests / sizeof *tests, argc > 2 ? argv[2] : NULL);
}
