/* many_files FOLDER: images with places for 4,096 files: files of all numbers made, mapped, given other lengths, committed by ranges, removed, by number and by name, in
   commits that are cut anywhere, in a writer that is killed, and beside a snapshot. Each case is a process of its own (cases.h). Images are of layout 4. */
#define _GNU_SOURCE
#define PROGRAM "many_files"
#include "files_tests.h"
#include "power.h"
#include <sys/mman.h>

enum { LAST = KEFS_FILES - 1 };

static void begin_many(unsigned more) {
  struct kefs_file file = {PAGE, 0, NULL};
  struct kefs_options options = {.size = sizeof options, .files = &file, .count = more == 0, .places = KEFS_FILES};
  unlink(PATH);
  DONE(kefs_open_with(&image, PATH, KEFS_CREATE | more | flags, &options));
}

/* By number */

/* Most are empty, so that no test waits for a disk: homes of small files lie far apart. */
static size_t first_length(unsigned f) { return f % 8 == 7 ? f % 3 * 1000 + 1 : 0; }
static unsigned char byte_of(unsigned f, int round) { return (unsigned char)(1 + (f * 7 + (unsigned)round) % 250); }

static void add_all(void) {
  begin_many(0);
  for (unsigned f = 1; f <= LAST; f++) DONE(kefs_add_file(image, f, first_length(f)));
  RETURNS(EINVAL, kefs_add_file(image, LAST + 1, 0));
  RETURNS(EEXIST, kefs_add_file(image, LAST, 0));
  CHECK(count_files() == KEFS_FILES && written() == KEFS_FILES / 8);
  commit_all();
  CHECK(commits() == 1 && written() == 0);
  leave_and_open();
}

static void fill_file(unsigned f, int round) {
  if (length_of(f) > 0) fill(map(f), length_of(f), byte_of(f, round));
}

static int is_full(unsigned f, int round) { return length_of(f) == 0 || is_all(map(f), length_of(f), byte_of(f, round)); }

static void all_numbers_come_and_go(void) {
  add_all();
  CHECK(count_files() == KEFS_FILES);
  for (unsigned f = 1; f <= LAST; f++) CHECK(length_of(f) == first_length(f)), fill_file(f, 0);
  commit_all();
  for (unsigned f = 2; f <= LAST; f += 9) DONE(kefs_resize(image, f, PAGE + f)), fill_file(f, 1);
  commit_all();
  leave_and_open();
  for (unsigned f = 1; f <= LAST; f++) CHECK(length_of(f) == (f % 9 == 2 ? PAGE + f : first_length(f)) && is_full(f, f % 9 == 2));
  for (unsigned f = 1; f <= LAST; f += 2) DONE(length_of(f) > 0 ? kefs_unmap(image, f) : KEFS_OK), DONE(kefs_remove_file(image, f));
  RETURNS(EBUSY, kefs_add_file(image, LAST, 1));
  commit_all();
  CHECK(count_files() == KEFS_FILES / 2);
  DONE(kefs_add_file(image, LAST, 2 * PAGE));
  DONE(kefs_add_file(image, 1, PAGE));
  CHECK(is_all(map(LAST), 2 * PAGE, 0));
  commit_all();
  leave_and_open();
  CHECK(count_files() == KEFS_FILES / 2 + 2 && is_all(map(LAST), 2 * PAGE, 0) && length_of(1) == PAGE);
  for (unsigned f = 2; f <= LAST; f += 2) CHECK(is_full(f, f % 9 == 2));
  DONE(kefs_close(image));
}

/* Ranges of files in any order, one page of three of each, are a commit of just these. */

enum { RANGES = 300 };
static unsigned file_of(unsigned i) { return LAST - i * 1237 % 4000; }

static void make_files_of_ranges(void) {
  add_all();
  for (unsigned i = 0; i < RANGES; i++) DONE(kefs_resize(image, file_of(i), 3 * PAGE)), fill_file(file_of(i), 0);
  commit_all();
}

static void ranges_are_of_the_files_that_they_lie_in(void) {
  struct kefs_range ranges[RANGES];
  size_t taken;
  make_files_of_ranges();
  for (unsigned i = 0; i < RANGES; i++) {
    unsigned char *at = map(file_of(i));
    fill(at + i % 3 * PAGE, PAGE, 251), fill(at + (i + 1) % 3 * PAGE, 1, 252);
    ranges[i] = (struct kefs_range){at + i % 3 * PAGE + i, 1};
  }
  DONE(kefs_commit(image, ranges, RANGES, &taken));
  CHECK(taken == RANGES && written() == RANGES);
  DONE(kefs_commit(image, &(struct kefs_range){map(LAST), 3 * PAGE}, 1, &taken));
  CHECK(taken == 1);
  roll_back_all();
  CHECK(written() == 0);
  leave_and_open();
  for (unsigned i = 0; i < RANGES; i++) {
    const unsigned char *at = map(file_of(i));
    CHECK(is_all(at + i % 3 * PAGE, PAGE, 251) && at[(i + 2) % 3 * PAGE] == byte_of(file_of(i), 0));
    CHECK(at[(i + 1) % 3 * PAGE] == (file_of(i) == LAST ? 252 : byte_of(file_of(i), 0)));
  }
  DONE(kefs_close(image));
}

static void a_roll_back_takes_all_numbers_back(void) {
  begin_many(0);
  for (unsigned f = 1; f <= LAST; f++) DONE(kefs_add_file(image, f, first_length(f)));
  unsigned char *at = map(LAST);
  fill(at, first_length(LAST), 1);
  roll_back_all();
  RETURNS(KEFS_BAD_RANGE, kefs_mark_dirty(image, at, 1));
  RETURNS(EBUSY, kefs_add_file(image, LAST, 0));
  CHECK(count_files() == 1 && written() == 0);
  DONE(kefs_unmap(image, LAST));
  DONE(kefs_add_file(image, LAST, 5));
  uint64_t ticket;
  DONE(kefs_commit_start(image, NULL, 0, NULL, &ticket));
  DONE(kefs_commit_wait(image, ticket));
  leave_and_open();
  CHECK(count_files() == 2 && length_of(LAST) == 5);
  DONE(kefs_close(image));
}

/* What is given back is used again: the host file does not get longer where files come and go. */
static void homes_of_files_that_went_are_used_again(void) {
  enum { EACH = 91 };
  struct stat before, after;
  add_all();
  for (unsigned round = 0; round < 6; round++) {
    for (unsigned f = 1 + round; f <= LAST; f += EACH) DONE(kefs_remove_file(image, f));
    commit_all();
    CHECK(round != 2 || stat(PATH, &before) == 0);
    for (unsigned f = 1 + round; f <= LAST; f += EACH) DONE(kefs_add_file(image, f, 10));
    commit_all();
  }
  CHECK(stat(PATH, &after) == 0 && before.st_size == after.st_size);
  leave_and_open();
  CHECK(count_files() == KEFS_FILES && length_of(LAST) == first_length(LAST) && length_of(1 + 44 * EACH) == 10);
  DONE(kefs_close(image));
  CHECK(system("../kefscheck case.img | grep -q '^file 4095: 1 bytes, 1 pages'") == 0);
}

/* By name */

static const char *name_of(unsigned i) {
  static char name[16];
  snprintf(name, sizeof name, "n%u", i);
  return name;
}

static unsigned number_of(kefs_image *of, const char *name) {
  unsigned file = 0;
  int result = kefs_lookup(of, name, &file);
  CHECK(result == KEFS_OK || result == KEFS_NO_FILE);
  return file;
}

static void names_go_to_the_last_number(void) {
  kefs_image *writer;
  const char *name;
  unsigned file;
  begin_many(KEFS_NAMES);
  for (unsigned f = 1; f <= LAST; f++) DONE(kefs_create_file(image, name_of(f), first_length(f), &file)), CHECK(file == f);
  RETURNS(ENFILE, kefs_create_file(image, "one more", 0, &file));
  RETURNS(EEXIST, kefs_create_file(image, name_of(LAST), 0, &file));
  commit_all();
  writer = image;
  DONE(kefs_open(&image, PATH, KEFS_SNAPSHOT));
  for (unsigned f = 1; f <= LAST; f++) CHECK(number_of(image, name_of(f)) == f);
  DONE(kefs_unlink(writer, name_of(LAST - 1)));
  DONE(kefs_rename(writer, name_of(LAST), "the last"));
  DONE(kefs_commit(writer, NULL, 0, NULL));
  CHECK(number_of(image, name_of(LAST)) == LAST && number_of(image, "the last") == 0);
  DONE(kefs_refresh(image, NULL));
  CHECK(number_of(image, name_of(LAST)) == 0 && number_of(image, "the last") == LAST && number_of(image, name_of(LAST - 1)) == 0);
  DONE(kefs_name_at(image, LAST, &name));
  CHECK(strcmp(name, "the last") == 0);
  RETURNS(KEFS_NO_FILE, kefs_name_at(image, LAST - 1, &name));
  RETURNS(KEFS_NO_FILE, kefs_name_at(image, KEFS_FILES, &name));
  unlink("copy.img");
  DONE(kefs_backup(image, "copy.img", 0));
  DONE(kefs_close(image));
  DONE(kefs_create_file(writer, "one more", 0, &file));
  CHECK(file == LAST - 1);
  DONE(kefs_close(writer));
  CHECK(system("../kefscheck case.img | grep -q '^file 4095 \"the last\": 1 bytes, 1 pages from home'") == 0);
  DONE(kefs_open(&image, "copy.img", flags));
  CHECK(number_of(image, "the last") == LAST && number_of(image, name_of(77)) == 77 && count_files() == LAST);
  DONE(kefs_close(image));
}

/* Commits that follow from their numbers: each has some files come, go, get other names and lengths. What there is after one is known by its number. */

enum { NAMES = 4000, FIRST = 3500, CHANGES = 8 };
struct entry { int is_there; size_t length; unsigned char byte; };
struct model { unsigned long number; struct entry list[NAMES]; };
static struct model model;
static unsigned long *count; /* of commits, in the image */

static unsigned long mixed(unsigned long number) {
  number = (number ^ number >> 31) * 0x9e3779b97f4a7c15ul;
  return (number ^ number >> 29) * 0xbf58476d1ce4e5b9ul >> 8;
}

static void begin_model(struct model *of) {
  memset(of, 0, sizeof *of);
  for (unsigned i = 0; i < FIRST; i++) of->list[i] = (struct entry){1, first_length(i), 0};
}

static void begin_names(void) {
  unsigned file;
  begin_many(KEFS_NAMES);
  DONE(kefs_create_file(image, "count", PAGE, &file));
  for (unsigned i = 0; i < FIRST; i++) DONE(kefs_create_file(image, name_of(i), first_length(i), &file));
  commit_all();
}

/* What change `j` of a commit does: to an entry that is not there, it comes; else it goes, gets the name of another one, or another length and byte. */
struct change { unsigned i, other; int kind; size_t length; unsigned char byte; };

static struct change change_of(const struct model *of, int j) {
  unsigned long drawn = mixed(of->number * CHANGES + (unsigned long)j);
  struct change change = {(unsigned)(drawn % NAMES), (unsigned)(drawn / NAMES % NAMES), (int)(drawn >> 40 & 3), (drawn >> 24) % (3 * PAGE), (unsigned char)(drawn >> 16)};
  if (!of->list[change.i].is_there) change.kind = 4;
  return change;
}

static void apply(struct model *of, const struct change *change) {
  struct entry *it = &of->list[change->i];
  switch (change->kind) {
    case 0: it->is_there = 0; return;
    case 1:
      if (change->i == change->other) return;
      of->list[change->other] = *it, it->is_there = 0;
      return;
    default: *it = (struct entry){1, change->length, change->byte};
  }
}

static void set_bytes(unsigned file, const struct change *change) {
  void *at;
  DONE(kefs_resize(image, file, change->length));
  DONE(kefs_map_growing(image, file, NULL, 4 * PAGE, &at, NULL));
  if (change->length > 0) fill(at, change->length, change->byte);
}

/* A file that is mapped can't go: its commit, which the caller makes of all, comes before. */
static void make(const struct change *change) {
  char name[16];
  unsigned file = number_of(image, strcpy(name, name_of(change->i)));
  switch (change->kind) {
    case 0: DONE(kefs_unlink(image, name)); return;
    case 1: DONE(kefs_rename(image, name, name_of(change->other))); return;
    case 4: if (kefs_create_file(image, name, 0, &file) != KEFS_OK) CHECK(!"a number is free"); /* fall through */
    default: set_bytes(file, change);
  }
}

/* Whether a change is of a file that one of this commit has mapped. */
static int is_of_mapped(const struct change *change, const int *mapped) { return mapped[change->i] || (change->kind == 1 && mapped[change->other]); }

static void unmap_all(int *mapped) {
  for (unsigned i = 0; i < NAMES; i++)
    if (mapped[i]) DONE(kefs_unmap(image, number_of(image, name_of(i)))), mapped[i] = 0;
}

/* Makes what commit `number` of the model is to be, and has the model be so. */
static void make_next(struct model *of, int *mapped, int makes) {
  of->number++;
  for (int j = 0; j < CHANGES; j++) {
    struct change change = change_of(of, j);
    if (is_of_mapped(&change, mapped)) continue;
    if (makes) make(&change);
    apply(of, &change);
    mapped[change.i] = change.kind > 1;
  }
}

static void commit_next(void) {
  static int mapped[NAMES];
  make_next(&model, mapped, 1);
  *count = model.number;
  if ((flags & KEFS_TRACK_CALLER) != 0) DONE(kefs_mark_dirty(image, count, sizeof *count));
  commit_all();
  unmap_all(mapped);
}

static void forward_to(struct model *of, unsigned long number) {
  static int mapped[NAMES];
  while (of->number < number) make_next(of, mapped, 0), memset(mapped, 0, sizeof mapped);
}

static void map_count(kefs_image *of, unsigned long **to) {
  void *at;
  DONE(kefs_map(of, number_of(of, "count"), NULL, &at, NULL));
  *to = at;
}

static void check_one(kefs_image *of, unsigned i, const struct entry *it) {
  unsigned file = number_of(of, name_of(i));
  size_t length = 0;
  void *at;
  if (!it->is_there) CHECK(file == 0);
  if (!it->is_there) return;
  DONE(kefs_length(of, file, &length));
  if (file == 0 || length != it->length) dprintf(2, "%s is file %u of %zu bytes, and not %zu\n", name_of(i), file, length, it->length), _exit(1);
  if (length == 0 || i % 4 != 0) return;
  DONE(kefs_map_growing(of, file, NULL, 4 * PAGE, &at, NULL));
  CHECK(is_all(at, length, it->byte));
}

static void check_files(kefs_image *of, const struct model *wanted) {
  for (unsigned i = 0; i < NAMES; i++) check_one(of, i, &wanted->list[i]);
}

static void a_snapshot_follows_many_files(void) {
  kefs_image *reader, *copy;
  unsigned long *seen, *copied;
  begin_names(), begin_model(&model);
  map_count(image, &count);
  DONE(kefs_open(&reader, PATH, KEFS_SNAPSHOT));
  map_count(reader, &seen);
  for (int round = 0; round < 60; round++) {
    for (int more = round % 6; more >= 0; more--) commit_next();
    if (round % 16 == 9) DONE(kefs_tidy(image));
    DONE(kefs_refresh(reader, NULL));
    CHECK(*seen == model.number);
    check_files(reader, &model);
  }
  unlink("copy.img");
  DONE(kefs_backup(reader, "copy.img", 0));
  DONE(kefs_open(&copy, "copy.img", KEFS_RDONLY));
  map_count(copy, &copied);
  CHECK(*copied == model.number);
  check_files(copy, &model);
  DONE(kefs_close(copy));
  DONE(kefs_close(reader));
  leave_and_open();
  check_files(image, &model);
  DONE(kefs_close(image));
}

/* Stops */

static void copy_image(void) { CHECK(system("cp --sparse=always first.img case.img") == 0); }

/* A process whose power is cut at call `n` of a commit, or that ends after it where it makes fewer: its status. */
static int stop_at(long n, int how) {
  int status;
  pid_t child = fork();
  if (child > 0) return waitpid(child, &status, 0) == child ? status : -1;
  static int mapped[NAMES];
  alarm(SECONDS), srandom((unsigned)(n * 8 + how));
  DONE(kefs_open(&image, PATH, flags));
  map_count(image, &count);
  begin_model(&model);
  for (int i = 0; i < 12; i++) make_next(&model, mapped, 1);
  *count = model.number;
  calls = 0, last_call = n, is_armed = 1;
  commit_all();
  _exit(0);
}

static unsigned long number_left(void) {
  unsigned long *left;
  DONE(kefs_open(&image, PATH, flags));
  map_count(image, &left);
  return *left;
}

/* After the twelve commits' changes in one, or before. */
static void check_left(unsigned long number) {
  static int mapped[NAMES];
  memset(mapped, 0, sizeof mapped);
  begin_model(&model);
  for (unsigned long i = 0; i < number; i++) make_next(&model, mapped, 0);
  check_files(image, &model);
}

static void a_stop_leaves_all_files_before_or_after(void) {
  int seen_before = 0, seen_after = 0, status = IS_CUT;
  begin_names();
  DONE(kefs_close(image));
  CHECK(rename(PATH, "first.img") == 0);
  for (long n = 1; status == IS_CUT; n++) {
    for (int how = 0; how < 3; how++) {
      copy_image();
      status = stop_at(n, how);
      CHECK(status == IS_CUT || status == 0);
      unsigned long number = number_left();
      CHECK(number == 12 || (number == 0 && status == IS_CUT));
      check_left(number);
      DONE(kefs_close(image));
      CHECK(system("../kefscheck case.img > /dev/null") == 0);
      seen_after += number == 12, seen_before += number == 0;
    }
  }
  CHECK(seen_before > 10 && seen_after > 3);
  unlink("first.img");
}

/* Kills */

enum { KILLS = 25 };
static struct { long begun, acknowledged; } *shared;

static pid_t killed_writer(void) {
  pid_t child = fork();
  if (child != 0) return child;
  DONE(kefs_open(&image, PATH, random() % 2 == 0 ? KEFS_LAZY : 0));
  map_count(image, &count);
  begin_model(&model);
  for (forward_to(&model, *count);;) {
    __atomic_store_n(&shared->begun, (long)model.number + 1, __ATOMIC_SEQ_CST);
    commit_next();
    __atomic_store_n(&shared->acknowledged, (long)model.number, __ATOMIC_SEQ_CST);
  }
}

static void a_killed_writer_leaves_all_files_of_a_commit(void) {
  shared = mmap(NULL, sizeof *shared, PROT_READ | PROT_WRITE, MAP_SHARED | MAP_ANONYMOUS, -1, 0);
  begin_names();
  DONE(kefs_close(image));
  for (int kill_number = 0; kill_number < KILLS; kill_number++) {
    long before = __atomic_load_n(&shared->acknowledged, __ATOMIC_SEQ_CST);
    pid_t child = killed_writer();
    while (__atomic_load_n(&shared->acknowledged, __ATOMIC_SEQ_CST) == before) usleep(500);
    usleep((useconds_t)(random() % 40000));
    CHECK(kill(child, SIGKILL) == 0 && waitpid(child, NULL, 0) == child);
    DONE(kefs_open(&image, PATH, random() % 2 == 0 ? KEFS_RDONLY : 0));
    map_count(image, &count);
    CHECK((long)*count >= shared->acknowledged && (long)*count <= shared->begun);
    begin_model(&model), forward_to(&model, *count);
    check_files(image, &model);
    DONE(kefs_close(image));
  }
  dprintf(1, "many_files: %ld commits, and %d kills of the writer: all files as after one commit\n", shared->acknowledged, KILLS);
}

static const struct test once[] = {
  TEST(homes_of_files_that_went_are_used_again), TEST(names_go_to_the_last_number), TEST(a_snapshot_follows_many_files), TEST(a_stop_leaves_all_files_before_or_after),
  TEST(a_killed_writer_leaves_all_files_of_a_commit)};
static const struct test with_each_tracker[] = {
  TEST(all_numbers_come_and_go), TEST(ranges_are_of_the_files_that_they_lie_in), TEST(a_roll_back_takes_all_numbers_back)};

int main(int argc, char **argv) { return argc < 2 ? 2 : run_cases(argv, once, COUNT_OF(once), with_each_tracker, COUNT_OF(with_each_tracker)); }
