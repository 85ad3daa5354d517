/* arguments FOLDER: wrong arguments of every call, which get a result and not a crash; what an opening refuses, and in which words. Each case is a process of its
   own (cases.h). */
#define _GNU_SOURCE
#define PROGRAM "arguments"
#include "cases.h"
#include <errno.h>
#include <pthread.h>

static void null_is_an_argument_that_is_refused(void) {
  size_t n;
  void *at;
  make_file(PATH, PAGES, 0);
  RETURNS(KEFS_BAD_ARGUMENT, kefs_commit(NULL, NULL, 0, NULL)); /* before any image was opened */
  RETURNS(KEFS_BAD_ARGUMENT, kefs_mark_dirty(NULL, &n, 1));
  a = open_file(PATH, &image);
  RETURNS(KEFS_BAD_ARGUMENT, kefs_format(NULL, 0600, NULL, 0));
  RETURNS(KEFS_BAD_ARGUMENT, kefs_format("unmade.img", 0600, NULL, 1));
  RETURNS(KEFS_BAD_ARGUMENT, kefs_open(NULL, PATH, 0));
  RETURNS(KEFS_BAD_ARGUMENT, kefs_open(&(kefs_image *){NULL}, NULL, 0));
  RETURNS(KEFS_BAD_ARGUMENT, kefs_open_with(NULL, NULL, 0, NULL));
  struct kefs_options options = {.size = sizeof options, .permissions = 0600, .count = 1};
  RETURNS(KEFS_BAD_ARGUMENT, kefs_open_with(&(kefs_image *){NULL}, PATH, KEFS_CREATE, &options));
  DONE(kefs_close(NULL));
  RETURNS(KEFS_BAD_ARGUMENT, kefs_map(NULL, 0, NULL, &at, &n));
  RETURNS(KEFS_BAD_ARGUMENT, kefs_map(image, 0, NULL, NULL, &n));
  RETURNS(KEFS_BAD_ARGUMENT, kefs_unmap(NULL, 0));
  RETURNS(KEFS_BAD_ARGUMENT, kefs_length(NULL, 0, &n));
  RETURNS(KEFS_BAD_ARGUMENT, kefs_length(image, 0, NULL));
  RETURNS(KEFS_BAD_ARGUMENT, kefs_commit(NULL, NULL, 0, &n));
  RETURNS(KEFS_BAD_ARGUMENT, kefs_msync(NULL, NULL, 0));
  RETURNS(KEFS_BAD_ARGUMENT, kefs_msync(NULL, a, 1));
  RETURNS(KEFS_BAD_ARGUMENT, kefs_recover(NULL, NULL));
  RETURNS(KEFS_BAD_ARGUMENT, kefs_count_dirty(NULL, NULL, 0, &n));
  RETURNS(KEFS_BAD_ARGUMENT, kefs_count_dirty(image, NULL, 0, NULL));
  RETURNS(KEFS_BAD_ARGUMENT, kefs_rollback(NULL, NULL, 0));
  RETURNS(KEFS_BAD_ARGUMENT, kefs_mark_dirty(NULL, a, 1));
  RETURNS(KEFS_BAD_RANGE, kefs_mark_dirty(image, NULL, 1));
  RETURNS(KEFS_BAD_ARGUMENT, kefs_touch(NULL, a, 1));
  RETURNS(KEFS_BAD_RANGE, kefs_touch(image, a, SIZE_MAX));
  RETURNS(KEFS_BAD_ARGUMENT, kefs_refresh(NULL, NULL));
  RETURNS(KEFS_BAD_ARGUMENT, kefs_backup(NULL, "unmade.img", 0600));
  RETURNS(KEFS_BAD_ARGUMENT, kefs_backup(image, NULL, 0600));
  RETURNS(KEFS_BAD_ARGUMENT, kefs_stat(NULL, &(struct kefs_stat){.size = sizeof (struct kefs_stat)}));
  RETURNS(KEFS_BAD_ARGUMENT, kefs_stat(image, NULL));
  RETURNS(EINVAL, kefs_commit(image, NULL, 1, NULL));
  CHECK(access("unmade.img", F_OK) != 0 && strcmp(kefs_name(KEFS_BAD_ARGUMENT), "KEFS_BAD_ARGUMENT") == 0 && kefs_strerror(INT32_MIN) != NULL);
  DONE(kefs_close(image));
}

/* Where nothing is asked, nobody else may read an image, or lock it. */
static void no_permissions_are_those_of_the_owner(void) {
  struct kefs_file file = {PAGE, 0, NULL};
  struct stat there;
  umask(0);
  unlink(PATH), unlink("copy.img");
  DONE(kefs_format(PATH, 0, &file, 1));
  CHECK(stat(PATH, &there) == 0 && (there.st_mode & 0777) == 0600);
  DONE(kefs_open(&image, PATH, 0));
  DONE(kefs_backup(image, "copy.img", 0));
  CHECK(stat("copy.img", &there) == 0 && (there.st_mode & 0777) == 0600);
  DONE(kefs_close(image));
}

static int opened_as(const struct kefs_file *files, size_t count) {
  struct kefs_options options = {.size = sizeof options, .permissions = 0600, .files = files, .count = count};
  int result = kefs_open_with(&image, PATH, KEFS_CREATE, &options);
  DONE(kefs_close(image));
  return result;
}

static void an_image_of_other_files_is_told(void) {
  struct kefs_file files[4] = {{5000, 0, NULL}, {100, KEFS_FILE_READ_ONLY | KEFS_FILE_SPARSE, NULL}};
  unlink(PATH);
  DONE(opened_as(files, 3));
  DONE(opened_as(files, 3));
  files[0].length = 9000;
  RETURNS(KEFS_OTHER_FILES, opened_as(files, 3));
  CHECK(strstr(kefs_errmsg(NULL), "file 0 of case.img has 5000 bytes, and not 9000") != NULL);
  files[0].length = 5000;
  DONE(opened_as(files, 2));
  RETURNS(KEFS_OTHER_FILES, opened_as(files, 4));
  CHECK(strstr(kefs_errmsg(NULL), "case.img has no file 3") != NULL);
  files[1].flags = 0;
  RETURNS(KEFS_OTHER_FILES, opened_as(files, 3));
  CHECK(strstr(kefs_errmsg(NULL), "file 1 of case.img is read-only") != NULL);
}

static void write_over(off_t at, const char *bytes, size_t length) {
  int fd = open(PATH, O_WRONLY);
  must_move(pwrite(fd, bytes, length, at), length, PATH);
  close(fd);
}

/* The words of kefscheck, after the path. */
static void refuse_in_words(int wanted, const char *words) {
  static const unsigned openings[] = {0, KEFS_RDONLY, KEFS_SNAPSHOT};
  for (size_t i = 0; i < COUNT_OF(openings); i++) {
    RETURNS(wanted, kefs_open(&image, PATH, openings[i]));
    CHECK(strstr(kefs_errmsg(NULL), PATH) != NULL && strstr(kefs_errmsg(NULL), words) != NULL);
  }
}

static void refuse_a_bad_journal(void) {
  make_file(PATH, PAGES, 0);
  char gate[512];
  for (int i = 0; i < 512; i += 8) memcpy(gate + i, "GATEOPEN", 8);
  write_over(512 * image_sectors()->gate, gate, sizeof gate);
  write_over(512 * image_sectors()->map, "\2\0\0\0\1\0\0\0\1\0\0\0", 12);
  refuse_in_words(KEFS_BAD_JOURNAL, "pages 0 and 1 of the journal have one home");
}

static void a_refused_image_has_its_path_and_the_reason(void) {
  make_file(PATH, PAGES, 0);
  write_over(512 * image_sectors()->directory + (image_layout() == 4 ? 256 * 5 + 8 : 8 * 5), "\1", 1);
  refuse_in_words(KEFS_NOT_IMAGE, "entry 5 of the directory is of no file, and not zero");
  make_file(PATH, PAGES, 0);
  CHECK(truncate(PATH, 512 * 300) == 0);
  refuse_in_words(KEFS_NOT_IMAGE, "it has 300 sectors, under ");
  if (image_layout() != 4) refuse_a_bad_journal(); /* no map of a pool is bad */
  make_file(PATH, PAGES, 0);
  write_over(0, "no image", 8);
  refuse_in_words(KEFS_NOT_IMAGE, "sector 0 is not the mark of an image");
  CHECK(truncate(PATH, 0) == 0);
  refuse_in_words(KEFS_NOT_IMAGE, "");
}

static void *open_in_thread(void *unused) {
  struct kefs_options options = {.size = sizeof options, .wait = 50};
  kefs_image *other;
  double start = now();
  RETURNS(KEFS_BUSY, kefs_open_with(&other, PATH, 0, &options));
  CHECK(now() - start > 0.04);
  return unused;
}

static void *open_and_end(void *unused) {
  a = open_file(PATH, &image);
  return unused;
}

/* A thread that has ended left its handle to the others, and most likely its pthread_t to the next one. */
static void a_handle_of_a_thread_that_has_ended_is_waited_for(void) {
  pthread_t thread;
  make_file(PATH, PAGES, 0);
  CHECK(pthread_create(&thread, NULL, open_and_end, NULL) == 0 && pthread_join(thread, NULL) == 0);
  CHECK(pthread_create(&thread, NULL, open_in_thread, NULL) == 0 && pthread_join(thread, NULL) == 0);
  DONE(kefs_close(image));
}

/* To wait for a handle of one's own would never end. */
static void a_handle_of_the_same_thread_is_busy_at_once(void) {
  kefs_image *other;
  pthread_t thread;
  begin(PAGES, 0);
  alarm(20);
  RETURNS(KEFS_BUSY, kefs_open(&other, PATH, 0));
  CHECK(strstr(kefs_errmsg(NULL), "this thread has case.img open by another handle") != NULL);
  RETURNS(KEFS_BUSY, kefs_open(&other, PATH, KEFS_RDONLY));
  CHECK(pthread_create(&thread, NULL, open_in_thread, NULL) == 0 && pthread_join(thread, NULL) == 0);
  DONE(kefs_open(&other, PATH, KEFS_SNAPSHOT));
  DONE(kefs_close(other));
  DONE(kefs_close(image));
  DONE(kefs_open(&image, PATH, KEFS_RDONLY));
  DONE(kefs_open(&other, PATH, KEFS_RDONLY));
  DONE(kefs_close(image));
  RETURNS(KEFS_BUSY, kefs_open(&image, PATH, 0));
  DONE(kefs_close(other));
  DONE(kefs_open(&image, PATH, 0));
  DONE(kefs_close(image));
}

static const struct test once[] = {
  TEST(null_is_an_argument_that_is_refused), TEST(no_permissions_are_those_of_the_owner), TEST(an_image_of_other_files_is_told), TEST(a_refused_image_has_its_path_and_the_reason),
  TEST(a_handle_of_a_thread_that_has_ended_is_waited_for), TEST(a_handle_of_the_same_thread_is_busy_at_once)};

int main(int argc, char **argv) { return argc < 2 ? 2 : run_cases(argv, once, COUNT_OF(once), NULL, 0); }
