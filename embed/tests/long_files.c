/* long_files FOLDER: files of over 4 GiB, sparse, with each tracker: stored to, grown over that length and cut below it, opened late, read by a snapshot, backed up
   and dumped, and a commit that is stopped before each of its calls. None of it takes much of the disk or of memory. Each case is a process of its own (cases.h).
   Images are of layout 4. */
#define _GNU_SOURCE
#define PROGRAM "long_files"
#include "grows.h"
#include <sys/resource.h>

#define GIB ((size_t)1 << 30)
static const char *const COPY = "copy.img";

/* A file of so many bytes, mapped so that it may have 6 GiB. */
static void open_long(const char *path, unsigned more) {
  void *at;
  DONE(kefs_open(&image, path, (flags & ~(more & KEFS_SNAPSHOT ? flags : 0u)) | more));
  DONE(kefs_map_growing(image, 0, NULL, 6 * GIB, &at, NULL));
  a = at;
}

static void begin_long(size_t length) {
  struct kefs_file file = {length, KEFS_FILE_SPARSE, NULL};
  unlink(PATH);
  DONE(kefs_format(PATH, 0600, &file, 1));
  open_long(PATH, 0);
}

static void open_it_again(unsigned more) {
  DONE(kefs_close(image));
  open_long(PATH, more);
}

/* Some of the bytes that lie about 4 GiB, at the beginning and at the end, each with a value of its own. */
static const size_t places[] = {0, 2 * GIB + 5, 4 * GIB - PAGE - 1, 4 * GIB - 1, 4 * GIB, 4 * GIB + PAGE, 5 * GIB - 1};

static void store_all(size_t length, int round) {
  for (size_t i = 0; i < COUNT_OF(places); i++)
    if (places[i] < length) store(a + places[i], (unsigned char)(10 * round + (int)i));
}

/* Those from `from` on are zeros where the file has them. */
static int has_all(const unsigned char *at, size_t length, size_t from, int round) {
  for (size_t i = 0; i < COUNT_OF(places); i++)
    if (places[i] < length && at[places[i]] != (places[i] < from ? 10 * round + (int)i : 0)) return 0;
  return 1;
}

static size_t disk_of(const char *path) {
  struct stat there;
  CHECK(stat(path, &there) == 0);
  return (size_t)there.st_blocks * 512;
}

static int took_little(void) {
  struct rusage usage;
  CHECK(getrusage(RUSAGE_SELF, &usage) == 0);
  return disk_of(PATH) < 64u << 20 && usage.ru_maxrss < 128 << 10;
}

static void a_long_file_is_durable(void) {
  size_t length = 5 * GIB, pages = COUNT_OF(places), kept;
  begin_long(length);
  CHECK(length_of(0) == length);
  store_all(length, 1);
  CHECK(written() == pages && committed() == pages);
  store(a + 4 * GIB, 99), store(a + 5 * GIB - 1, 99);
  DONE(kefs_rollback(image, &(struct kefs_range){a + 4 * GIB + 1, 1}, 1));
  CHECK(a[4 * GIB] == 14 && a[5 * GIB - 1] == 99 && written() == 1);
  DONE(kefs_msync(image, a + 5 * GIB - 10, 10));
  store(a + 5 * GIB - 1, 16);
  DONE(kefs_commit(image, &(struct kefs_range){a + 4 * GIB, GIB}, 1, &kept));
  CHECK(kept == 1);
  open_it_again(0);
  CHECK(length_of(0) == length && has_all(a, length, length, 1) && written() == 0 && a[4 * GIB + 1] == 0);
  open_it_again(KEFS_RDONLY);
  CHECK(has_all(a, length, length, 1) && a[4 * GIB - 2] == 0);
  DONE(kefs_close(image));
  CHECK(took_little());
}

/* Over 4 GiB and back: the mapping stays where it is, and what is cut off comes again as zeros. */
static void a_file_grows_over_4_gib(void) {
  size_t before = 4 * GIB - 2 * PAGE + 7, length = 4 * GIB + 30 * PAGE + 1;
  begin_long(before);
  unsigned char *at = a;
  store_all(before, 1);
  committed();
  DONE(kefs_resize(image, 0, length));
  CHECK(map_growing(0) == at && length_of(0) == length && is_full_of(a + before, length - before, 0) && is_outside(a + 4 * GIB + 31 * PAGE));
  store_all(length, 2);
  CHECK(committed() == 4 + 32 - 1);
  open_it_again(0);
  CHECK(length_of(0) == length && has_all(a, length, length, 2) && is_outside(a + 4 * GIB + 31 * PAGE));
  DONE(kefs_resize(image, 0, 4 * GIB - 1));
  CHECK(is_outside(a + 4 * GIB) && a[4 * GIB - PAGE - 1] == 22);
  DONE(kefs_rollback(image, NULL, 0));
  CHECK(length_of(0) == length && has_all(a, length, length, 2) && written() == 0);
  DONE(kefs_resize(image, 0, 4 * GIB - 1));
  committed();
  open_it_again(0);
  CHECK(length_of(0) == 4 * GIB - 1 && has_all(a, 4 * GIB - 1, length, 2) && is_outside(a + 4 * GIB));
  DONE(kefs_resize(image, 0, length));
  CHECK(has_all(a, length, 4 * GIB - 1, 2));
  committed();
  open_it_again(0);
  CHECK(length_of(0) == length && has_all(a, length, 4 * GIB - 1, 2));
  DONE(kefs_close(image));
  CHECK(took_little());
}

static void a_file_that_is_not_mapped_grows_over_4_gib(void) {
  size_t length = 4 * GIB + 3 * PAGE + 9;
  begin_long(4 * GIB - PAGE - 9);
  store(a + 4 * GIB - PAGE - 10, 5);
  committed();
  DONE(kefs_unmap(image, 0));
  DONE(kefs_resize(image, 0, length));
  DONE(kefs_resize(image, 0, 4 * GIB + PAGE));
  DONE(kefs_resize(image, 0, length));
  CHECK(length_of(0) == length && committed() == 1 + 5);
  DONE(kefs_resize(image, 0, GIB));
  CHECK(committed() == 0);
  DONE(kefs_resize(image, 0, GIB + PAGE));
  CHECK(committed() == 0 + 1);
  open_it_again(0);
  CHECK(length_of(0) == GIB + PAGE && a[GIB] == 0);
  DONE(kefs_close(image));
}

/* What a snapshot shows of it, beside its writer. */
static void a_snapshot_follows_a_long_file(void) {
  kefs_image *reader;
  void *at;
  int changed;
  size_t length = 5 * GIB;
  begin_long(length);
  store_all(length, 1);
  committed();
  DONE(kefs_open(&reader, PATH, KEFS_SNAPSHOT));
  DONE(kefs_map_growing(reader, 0, NULL, 6 * GIB, &at, NULL));
  CHECK(has_all(at, length, length, 1) && ((unsigned char *)at)[4 * GIB + 1] == 0);
  for (int round = 2; round < 5; round++) {
    store_all(length, round);
    if (round == 3) DONE(kefs_resize(image, 0, length = 4 * GIB + PAGE + 1));
    committed();
    DONE(kefs_refresh(reader, &changed));
    CHECK(changed && has_all(at, length, length, round));
    DONE(kefs_length(reader, 0, &length));
    CHECK(length == length_of(0) && (length == 5 * GIB || is_outside((unsigned char *)at + 5 * GIB - 1)));
  }
  DONE(kefs_close(reader));
  DONE(kefs_close(image));
  CHECK(took_little());
}

static void a_backup_of_a_long_file_is_sparse(void) {
  size_t length = 5 * GIB;
  begin_long(length);
  store_all(length, 3);
  committed();
  unlink(COPY);
  DONE(kefs_backup(image, COPY, 0));
  DONE(kefs_close(image));
  CHECK(disk_of(COPY) < 64u << 20 && system("../kefscheck copy.img | grep -q 'file 0: 5368709120 bytes, 1310720 pages'") == 0);
  open_long(COPY, 0);
  CHECK(length_of(0) == length && has_all(a, length, length, 3));
  DONE(kefs_close(image));
  unlink(COPY);
}

/* Of what kefscheck writes out some bytes behind 4 GiB. */
static void a_long_file_is_dumped(void) {
  char pieces[64];
  begin_long(4 * GIB + 2 * PAGE);
  store_all(4 * GIB + 2 * PAGE, 4);
  committed();
  DONE(kefs_close(image));
  FILE *out = popen("../kefscheck dump case.img 0 | tail -c 8193 | od -An -v -tu1 -w1 | tr -d ' ' | uniq -c | tr -s '\\n ' ' '", "r");
  CHECK(out != NULL && fgets(pieces, sizeof pieces, out) != NULL && pclose(out) == 0);
  CHECK(strcmp(pieces, " 1 43 1 44 4095 0 1 45 4095 0 ") == 0);
}

/* A process that ends at a call of a commit by which the file gets longer than 4 GiB. */
static int ends_at(long call) {
  pid_t child = fork();
  if (child > 0) return status_of(child);
  open_long(PATH, 0);
  DONE(kefs_resize(image, 0, 4 * GIB + 100 * PAGE));
  store_all(4 * GIB + 100 * PAGE, 2);
  calls_left = call;
  DONE(kefs_commit(image, NULL, 0, NULL));
  _exit(0);
}

static void a_kill_leaves_the_length_with_its_bytes(void) {
  size_t before = 4 * GIB - 3 * PAGE, after = 4 * GIB + 100 * PAGE;
  int status = -1, left = 0;
  for (long call = 0; status != 0; call++) {
    begin_long(before);
    store_all(before, 1);
    committed();
    DONE(kefs_close(image));
    status = ends_at(call);
    open_long(PATH, 0);
    size_t length = length_of(0);
    CHECK(length == after || (length == before && status != 0));
    CHECK(has_all(a, length, length, length == after ? 2 : 1));
    left += length == before;
    DONE(kefs_close(image));
  }
  CHECK(left > 3);
}

#ifdef __SANITIZE_THREAD__
enum { MAPS_TERABYTES = 0 }; /* the sanitizer has most addresses */
#else
enum { MAPS_TERABYTES = 1 };
#endif

/* Whether the file system has files so long. */
static int may_be_long(size_t length) {
  int fd = open(COPY, O_RDWR | O_CREAT | O_TRUNC, 0600), may = ftruncate(fd, (off_t)length) == 0;
  CHECK(fd >= 0 && close(fd) == 0 && unlink(COPY) == 0);
  return may;
}

/* The longest there is, and one byte more. */
static void limits_are_told(void) {
  void *at;
  size_t most = ((size_t)1 << 42) - 256 * PAGE, taken;
  struct kefs_file file = {most, KEFS_FILE_SPARSE | KEFS_FILE_GROWS, NULL};
  struct kefs_options options = {.size = sizeof options, .files = &file, .count = 1, .places = KEFS_FILES};
  unlink(PATH);
  if (!MAPS_TERABYTES || !may_be_long(most + (1 << 30))) _exit(SKIPPED);
  file.length++;
  RETURNS(EFBIG, kefs_open_with(&image, PATH, KEFS_CREATE | flags, &options));
  file.length--;
  DONE(kefs_open_with(&image, PATH, KEFS_CREATE | flags, &options));
  RETURNS(EFBIG, kefs_resize(image, 0, most + 1));
  RETURNS(EFBIG, kefs_resize(image, 0, LONGEST + 1));
  RETURNS(EFBIG, kefs_add_file(image, 1, 1));
  DONE(kefs_add_file(image, 4095, 0));
  DONE(kefs_commit(image, NULL, 0, &taken));
  CHECK(length_of(0) == most && taken == 0);
  DONE(kefs_resize(image, 0, 0));
  RETURNS(EFBIG, kefs_add_file(image, 1, 1)); /* what is cut off is free when that is durable */
  DONE(kefs_commit(image, NULL, 0, NULL));
  DONE(kefs_map_growing(image, 0, NULL, SIZE_MAX, &at, NULL));
  DONE(kefs_add_file(image, 1, 1));
  DONE(kefs_commit(image, NULL, 0, &taken));
  CHECK(taken == 1);
  DONE(kefs_close(image));
  DONE(kefs_open(&image, PATH, flags));
  CHECK(length_of(0) == 0 && length_of(1) == 1 && length_of(4095) == 0 && disk_of(PATH) < 64u << 20);
  DONE(kefs_close(image));
  unlink(PATH);
}

static const struct test with_each_tracker[] = {
  TEST(a_long_file_is_durable), TEST(a_file_grows_over_4_gib), TEST(a_file_that_is_not_mapped_grows_over_4_gib), TEST(a_snapshot_follows_a_long_file)};
static const struct test once[] = {
  TEST(a_backup_of_a_long_file_is_sparse), TEST(a_long_file_is_dumped), TEST(a_kill_leaves_the_length_with_its_bytes), TEST(limits_are_told)};

int main(int argc, char **argv) { return run_growing(argc, argv, once, COUNT_OF(once), with_each_tracker, COUNT_OF(with_each_tracker)); }
