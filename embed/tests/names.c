/* names FOLDER: names of files: each call and each of its results, what is left of a commit that is cut anywhere, and random calls against a model. Each
   case is a process of its own (cases.h). */
#define _GNU_SOURCE
#define PROGRAM "names"
#include "files_tests.h"
#include "power.h"
#include <pthread.h>

enum { LONGEST_NAME = RECORD - 1 };

/* Images */

static int open_names(unsigned more) {
  struct kefs_options options = {.size = sizeof options, .permissions = 0600};
  return kefs_open_with(&image, PATH, flags | KEFS_CREATE | KEFS_NAMES | more, &options);
}

static void begin_with_names(void) {
  unlink(PATH);
  DONE(open_names(0));
}

static unsigned create(const char *name, size_t length) {
  unsigned file;
  DONE(kefs_create_file(image, name, length, &file));
  return file;
}

static unsigned number_of(const char *name) {
  unsigned file;
  DONE(kefs_lookup(image, name, &file));
  return file;
}

static int has_name(const char *name) {
  unsigned file;
  int result = kefs_lookup(image, name, &file);
  CHECK(result == KEFS_OK || result == KEFS_NO_FILE);
  return result == KEFS_OK;
}

/* Names */

static void an_image_with_names_is_as_the_format_says(void) {
  struct kefs_file file = {PAGE, 0, NULL};
  struct kefs_options options = {.size = sizeof options, .permissions = 0600, .files = &file, .count = 1};
  void *at;
  begin_with_names();
  CHECK(create("a longer name", 5) == 1 && count_files() == 2);
  commit_all();
  DONE(kefs_rename(image, "a longer name", "a name"));
  commit_all();
  RETURNS(EBUSY, kefs_map(image, 0, NULL, &at, NULL));
  DONE(kefs_close(image));
  DONE(kefs_open(&image, PATH, KEFS_RDONLY));
  char *records = (char *)map(0);
  CHECK(length_of(0) == NAMES_LENGTH && strcmp(records, "kefs names 1") == 0 && is_zeros(records + 12, RECORD - 12));
  CHECK(strcmp(records + RECORD, "a name") == 0 && is_zeros(records + RECORD + 6, NAMES_LENGTH - RECORD - 6));
  DONE(kefs_close(image));
  DONE(open_names(0));
  CHECK(has_name("a name"));
  DONE(kefs_close(image));
  RETURNS(KEFS_OTHER_FILES, kefs_open_with(&image, PATH, KEFS_CREATE, &options));
  RETURNS(EINVAL, kefs_open_with(&image, PATH, KEFS_CREATE | KEFS_NAMES, &options));
  RETURNS(EINVAL, kefs_open(&image, PATH, KEFS_NAMES));
  RETURNS(EINVAL, open_names(KEFS_RDONLY));
  make_file(PATH, 1, 0);
  RETURNS(KEFS_OTHER_FILES, open_names(0));
}

static void calls_by_name_have_their_results(void) {
  char long_name[RECORD + 1] = "";
  const char *name;
  unsigned file = 99;
  begin_with_names();
  memset(long_name, 'n', RECORD);
  RETURNS(KEFS_BAD_ARGUMENT, kefs_create_file(image, NULL, 0, &file));
  RETURNS(KEFS_BAD_ARGUMENT, kefs_create_file(image, "a", 0, NULL));
  RETURNS(KEFS_BAD_ARGUMENT, kefs_create_file(NULL, "a", 0, &file));
  RETURNS(EINVAL, kefs_create_file(image, "", 0, &file));
  RETURNS(ENAMETOOLONG, kefs_create_file(image, long_name, 0, &file));
  RETURNS(EFBIG, kefs_create_file(image, "a", LONGEST + 1, &file));
  RETURNS(KEFS_BAD_ARGUMENT, kefs_lookup(image, "a", NULL));
  RETURNS(KEFS_NO_FILE, kefs_lookup(image, "a", &file));
  RETURNS(ENAMETOOLONG, kefs_lookup(image, long_name, &file));
  RETURNS(EINVAL, kefs_lookup(image, "", &file));
  RETURNS(KEFS_NO_FILE, kefs_unlink(image, "a"));
  RETURNS(KEFS_NO_FILE, kefs_rename(image, "a", "b"));
  RETURNS(KEFS_BAD_ARGUMENT, kefs_name_at(image, 1, NULL));
  for (unsigned f = 0; f < 66; f++) RETURNS(KEFS_NO_FILE, kefs_name_at(image, f, &name));
  CHECK(file == 99);
  long_name[LONGEST_NAME] = 0;
  CHECK(create(long_name, 3) == 1 && create("a", 0) == 2);
  RETURNS(EEXIST, kefs_create_file(image, "a", 0, &file));
  RETURNS(EINVAL, kefs_rename(image, "a", ""));
  RETURNS(KEFS_BAD_ARGUMENT, kefs_rename(image, "a", NULL));
  DONE(kefs_rename(image, "a", "a"));
  DONE(kefs_name_at(image, 1, &name));
  CHECK(strcmp(name, long_name) == 0);
  map(1);
  RETURNS(EBUSY, kefs_unlink(image, long_name));
  RETURNS(EBUSY, kefs_rename(image, "a", long_name));
  CHECK(number_of("a") == 2 && number_of(long_name) == 1);
  DONE(kefs_rename(image, long_name, "other"));
  CHECK(number_of("other") == 1 && !has_name(long_name));
  DONE(kefs_close(image));
}

static void an_image_without_names_says_so(void) {
  const char *name;
  unsigned file;
  begin(1, 0);
  RETURNS(EOPNOTSUPP, kefs_create_file(image, "a", 0, &file));
  RETURNS(EOPNOTSUPP, kefs_lookup(image, "a", &file));
  RETURNS(EOPNOTSUPP, kefs_rename(image, "a", "b"));
  RETURNS(EOPNOTSUPP, kefs_unlink(image, "a"));
  RETURNS(EOPNOTSUPP, kefs_name_at(image, 1, &name));
  DONE(kefs_close(image));
}

static void the_file_of_names_stays(void) {
  const char *name;
  begin_with_names();
  RETURNS(EINVAL, kefs_resize(image, 0, 1));
  RETURNS(EINVAL, kefs_remove_file(image, 0));
  RETURNS(EEXIST, kefs_add_file(image, 0, 1));
  create("a", 1);
  DONE(kefs_add_file(image, 2, 1));
  RETURNS(KEFS_NO_FILE, kefs_name_at(image, 2, &name));
  CHECK(create("b", 1) == 3);
  DONE(kefs_remove_file(image, 1));
  CHECK(!has_name("a") && create("a", 1) == 1);
  commit_all();
  DONE(kefs_remove_file(image, 1));
  leave_and_open();
  CHECK(number_of("a") == 1);
  DONE(kefs_remove_file(image, 1));
  commit_all();
  leave_and_open();
  CHECK(!has_name("a") && number_of("b") == 3 && length_of(2) == 1);
  DONE(kefs_close(image));
}

static void what_is_opened_to_read_sees_names(void) {
  kefs_image *writer;
  const char *name;
  unsigned file;
  begin_with_names();
  create("a", 1), create("b", PAGE);
  commit_all();
  writer = image;
  DONE(kefs_open(&image, PATH, KEFS_SNAPSHOT));
  CHECK(number_of("a") == 1 && !has_name("c"));
  DONE(kefs_rename(writer, "a", "c"));
  CHECK(has_name("a"));
  DONE(kefs_commit(writer, NULL, 0, NULL));
  CHECK(has_name("a"));
  DONE(kefs_refresh(image, NULL));
  CHECK(!has_name("a") && number_of("c") == 1);
  DONE(kefs_close(writer));
  DONE(kefs_close(image));
  DONE(kefs_open(&image, PATH, KEFS_RDONLY));
  DONE(kefs_name_at(image, 2, &name));
  CHECK(strcmp(name, "b") == 0 && number_of("c") == 1);
  RETURNS(KEFS_READ_ONLY, kefs_create_file(image, "d", 0, &file));
  RETURNS(KEFS_READ_ONLY, kefs_rename(image, "b", "d"));
  RETURNS(KEFS_READ_ONLY, kefs_unlink(image, "b"));
  DONE(kefs_close(image));
}

static void all_numbers_are_taken(void) {
  char name[8];
  unsigned file;
  begin_with_names();
  for (unsigned f = 1; f < RECORDS; f++) snprintf(name, sizeof name, "n%u", f), CHECK(create(name, f) == f);
  RETURNS(ENFILE, kefs_create_file(image, "one", 0, &file));
  commit_all();
  DONE(kefs_unlink(image, "n9"));
  RETURNS(ENFILE, kefs_create_file(image, "one", 0, &file));
  DONE(kefs_rename(image, "n8", "n9"));
  commit_all();
  CHECK(create("one", 0) == 9);
  commit_all();
  leave_and_open();
  CHECK(count_files() == RECORDS && number_of("n9") == 8 && number_of("one") == 9 && !has_name("n8"));
  for (unsigned f = 10; f < RECORDS; f++) snprintf(name, sizeof name, "n%u", f), CHECK(number_of(name) == f && length_of(f) == f);
  for (unsigned f = 10; f < RECORDS; f++) snprintf(name, sizeof name, "n%u", f), DONE(kefs_unlink(image, name));
  commit_all();
  leave_and_open();
  CHECK(count_files() == 10);
  DONE(kefs_close(image));
}

static void a_small_directory_has_fewer_numbers(void) {
  char name[8];
  unsigned file;
  unsigned char pages = 1;
  begin_with_names();
  DONE(kefs_close(image));
  int fd = open(PATH, O_WRONLY);
  CHECK(pwrite(fd, &pages, 1, SECTOR + 12) == 1 && close(fd) == 0);
  DONE(kefs_open(&image, PATH, flags));
  for (unsigned f = 1; f < 16; f++) snprintf(name, sizeof name, "n%u", f), CHECK(create(name, f) == f);
  RETURNS(ENFILE, kefs_create_file(image, "one", 0, &file));
  commit_all();
  leave_and_open();
  CHECK(count_files() == 16 && number_of("n15") == 15);
  DONE(kefs_close(image));
}

/* An image that a program has damaged: what is no name is of no file, and the next commit of all has it go. */
static void damaged_names_count_for_nothing(void) {
  static char records[RECORDS][RECORD];
  struct kefs_file files[5] = {{NAMES_LENGTH, 0, records}, {1, 0, NULL}, {2, 0, NULL}, {3, 0, NULL}, {4, 0, NULL}};
  const char *name;
  strcpy(records[0], "kefs names 1"), strcpy(records[1], "same"), strcpy(records[2], "same"), strcpy(records[4], "good"), strcpy(records[9], "gone");
  memset(records[3], 'x', RECORD), records[5][7] = 1, records[4][100] = 1;
  unlink(PATH);
  DONE(kefs_format(PATH, 0600, files, 5));
  for (int round = 0; round < 3; round++) {
    DONE(kefs_open(&image, PATH, round == 0 ? KEFS_RDONLY : flags));
    CHECK(number_of("same") == 1 && number_of("good") == 4 && !has_name("gone") && length_of(3) == 3);
    RETURNS(KEFS_NO_FILE, kefs_name_at(image, 2, &name));
    RETURNS(KEFS_NO_FILE, kefs_name_at(image, 3, &name));
    if (round > 0) roll_back_all(), CHECK(written() == (round == 1)), commit_all(), CHECK(written() == 0);
    DONE(kefs_close(image));
  }
  files[0].flags = KEFS_FILE_READ_ONLY;
  unlink(PATH);
  DONE(kefs_format(PATH, 0600, files, 5));
  DONE(kefs_open(&image, PATH, flags));
  RETURNS(EOPNOTSUPP, kefs_name_at(image, 1, &name));
  DONE(kefs_close(image));
  files[0].flags = 0, records[0][20] = 1;
  unlink(PATH);
  DONE(kefs_format(PATH, 0600, files, 5));
  DONE(kefs_open(&image, PATH, flags));
  RETURNS(EOPNOTSUPP, kefs_name_at(image, 1, &name));
  DONE(kefs_close(image));
}

static void a_file_that_came_and_went_takes_no_call(void) {
  begin_with_names();
  create("a", PAGE);
  DONE(kefs_rename(image, "a", "b"));
  DONE(kefs_unlink(image, "b"));
  CHECK(written() == 0);
  commit_all();
  CHECK(commits() == 0 && create("a", 5) == 1);
  commit_all();
  DONE(kefs_rename(image, "a", "b"));
  CHECK(written() == 1);
  DONE(kefs_rename(image, "b", "a"));
  CHECK(written() == 0);
  commit_all();
  CHECK(commits() == 1);
  DONE(kefs_close(image));
}

static void roll_names_back(int is_of_all) {
  begin_with_names();
  fill(map(create("a", PAGE)), PAGE, 1), create("b", 2 * PAGE);
  commit_all();
  DONE(kefs_unlink(image, "b"));
  DONE(kefs_rename(image, "a", "c"));
  unsigned char *new = map(create("b", PAGE));
  fill(new, PAGE, 3), fill(map(1), PAGE, 4);
  if (is_of_all) roll_back_all();
  else DONE(kefs_rollback(image, (struct kefs_range[]){{new, 1}, {map(1), PAGE}}, 2));
  CHECK(number_of("a") == 1 && number_of("b") == 2 && !has_name("c") && length_of(2) == 2 * PAGE && is_all(map(1), PAGE, 1) && written() == 0);
  CHECK(create("d", 0) == 4);
  DONE(kefs_unmap(image, 3));
  CHECK(create("e", 0) == 3);
  commit_all();
  leave_and_open();
  CHECK(number_of("a") == 1 && number_of("b") == 2 && number_of("e") == 3 && number_of("d") == 4);
  DONE(kefs_close(image));
}

static void names_are_rolled_back(void) { roll_names_back(1), roll_names_back(0); }

static void a_start_takes_names_at_once(void) {
  uint64_t ticket;
  begin_with_names();
  create("a", 0);
  commit_all();
  DONE(kefs_rename(image, "a", "b"));
  DONE(kefs_commit_start(image, NULL, 0, NULL, &ticket));
  CHECK(commits() == 2);
  leave_and_open();
  CHECK(has_name("b"));
  DONE(kefs_close(image));
}

static void a_named_file_grows(void) {
  begin_with_names();
  create("a", 10);
  for (size_t pages = 1; pages <= 4096; pages *= 4) {
    unsigned file = number_of("a");
    void *at;
    DONE(kefs_map_growing(image, file, NULL, 4096 * PAGE, &at, NULL));
    DONE(kefs_resize(image, file, pages * PAGE));
    fill(at, pages * PAGE, (unsigned char)pages | 1);
    DONE(kefs_rename(image, "a", "b"));
    commit_all();
    leave_and_open();
    DONE(kefs_rename(image, "b", "a"));
    CHECK(length_of(file) == pages * PAGE);
    DONE(kefs_map(image, file, NULL, &at, NULL));
    CHECK(is_all(at, pages * PAGE, (unsigned char)pages | 1));
    commit_all();
    leave_and_open();
  }
  DONE(kefs_close(image));
}

static void a_backup_has_the_names(void) {
  begin_with_names();
  fill(map(create("a", PAGE)), PAGE, 1);
  commit_all();
  DONE(kefs_rename(image, "a", "b"));
  unlink("copy.img");
  DONE(kefs_backup(image, "copy.img", 0));
  DONE(kefs_close(image));
  DONE(kefs_open(&image, "copy.img", flags));
  CHECK(number_of("a") == 1 && !has_name("b") && is_all(map(1), PAGE, 1));
  DONE(kefs_close(image));
}

/* Names go with other dirty pages as one of them. */
static void names_take_places_of_a_commit(void) {
  struct kefs_stat stat = {.size = sizeof stat};
  void *at;
  begin_with_names();
  DONE(kefs_stat(image, &stat));
  size_t most = stat.most_pages;
  unsigned file = create("a", most * PAGE);
  commit_all();
  DONE(kefs_map(image, file, NULL, &at, NULL));
  fill(at, most * PAGE, 1);
  DONE(kefs_rename(image, "a", "b"));
  CHECK(written() == most + 1);
  RETURNS(KEFS_TOO_MANY, kefs_commit(image, NULL, 0, NULL));
  CHECK(written() == most + 1 && has_name("b"));
  DONE(kefs_commit(image, &(struct kefs_range){at, PAGE}, 1, NULL));
  CHECK(written() == most);
  commit_all();
  leave_and_open();
  DONE(kefs_map(image, file, NULL, &at, NULL));
  CHECK(has_name("b") && is_all(at, most * PAGE, 1));
  DONE(kefs_close(image));
}

/* Threads */

enum { THREADS = 4, TURNS = 30 };

/* Each has files of its own, that others' commits take too. */
static void *use_names(void *of) {
  char name[16], other[16];
  uint64_t ticket;
  unsigned file, found;
  const char *at;
  for (int turn = 0; turn < TURNS; turn++) {
    snprintf(name, sizeof name, "%d.%d", *(int *)of, turn), snprintf(other, sizeof other, "%d", *(int *)of);
    DONE(kefs_create_file(image, name, PAGE, &file));
    fill(map(file), PAGE, (unsigned char)turn);
    DONE(kefs_unmap(image, file));
    DONE(kefs_rename(image, name, other));
    DONE(kefs_name_at(image, file, &at));
    CHECK(strcmp(at, other) == 0);
    DONE(kefs_lookup(image, other, &found));
    CHECK(found == file);
    DONE(kefs_commit_start(image, NULL, 0, NULL, &ticket));
    DONE(kefs_commit_wait(image, ticket));
  }
  return of;
}

static void threads_share_names(void) {
  pthread_t threads[THREADS];
  int numbers[THREADS];
  begin_with_names();
  for (int i = 0; i < THREADS; i++) numbers[i] = i, CHECK(pthread_create(&threads[i], NULL, use_names, &numbers[i]) == 0);
  for (int i = 0; i < THREADS; i++) CHECK(pthread_join(threads[i], NULL) == 0);
  commit_all();
  leave_and_open();
  CHECK(count_files() == 1 + THREADS && has_name("0") && has_name("3"));
  DONE(kefs_close(image));
}

/* Stops */

static void begin_stops(void) {
  begin_with_names();
  fill(map(create("a", 2 * PAGE)), 2 * PAGE, 1);
  fill(map(create("b", PAGE + 7)), PAGE + 7, 2);
  create("idle", 3 * PAGE);
  commit_all();
  leave_and_open();
}

/* Pages of a file that stays and grows, a new file in the place of another, one that goes, one that comes, and one that came and went. */
static void change_all(void) {
  unsigned char *old = map(number_of("a"));
  DONE(kefs_resize(image, number_of("a"), 5 * PAGE + 9));
  fill(old, 5 * PAGE + 9, 3);
  fill(map(create("b.new", 3 * PAGE)), 3 * PAGE, 4);
  DONE(kefs_rename(image, "b.new", "b"));
  DONE(kefs_unlink(image, "idle"));
  create("c", 1), create("none", PAGE);
  DONE(kefs_unlink(image, "none"));
}

static int holds(const char *name, size_t length, unsigned char byte) {
  void *at;
  if (!has_name(name)) return 0;
  unsigned file = number_of(name);
  DONE(kefs_map(image, file, NULL, &at, NULL));
  return length_of(file) == length && is_all(at, length, byte);
}

static void check_image(void) { CHECK(system("../kefscheck case.img > /dev/null") == 0); }

static int is_before(void) { return count_files() == 4 && holds("a", 2 * PAGE, 1) && holds("b", PAGE + 7, 2) && holds("idle", 3 * PAGE, 0); }
static int is_after(void) { return count_files() == 4 && holds("a", 5 * PAGE + 9, 3) && holds("b", 3 * PAGE, 4) && holds("c", 1, 0); }

/* A process whose power is cut at call `n` of a commit, or that ends after it where it makes fewer: its status. */
static int stop_at(long n, int how) {
  int status;
  pid_t child = fork();
  if (child > 0) return waitpid(child, &status, 0) == child ? status : -1;
  alarm(SECONDS), srandom((unsigned)(n * 8 + how));
  begin_stops();
  change_all();
  calls = 0, last_call = n, is_armed = 1;
  commit_all();
  _exit(0);
}

static void a_stop_leaves_names_before_or_after(void) {
  int seen_before = 0, seen_after = 0, status = IS_CUT;
  for (long n = 0; status == IS_CUT || n == 1; n++) {
    for (int how = 0; how < 6; how++) {
      status = stop_at(n, how);
      CHECK(status == IS_CUT || status == 0);
      check_image();
      DONE(kefs_open(&image, PATH, flags));
      int after = is_after();
      CHECK(after || (status == IS_CUT && is_before()));
      DONE(kefs_close(image));
      seen_after += after, seen_before += !after;
    }
  }
  CHECK(seen_before > 20 && seen_after > 6);
}

static void an_exit_before_the_commit_loses_all(void) {
  pid_t child = fork();
  if (child == 0) begin_stops(), change_all(), _exit(0);
  CHECK(status_of(child) == 0);
  DONE(kefs_open(&image, PATH, flags));
  CHECK(is_before());
  DONE(kefs_close(image));
}

/* After a failure all is pending still, or durable. */
static void a_failing_call_loses_no_name(void) {
  int stands, result = KEFS_DEVICE, seen[2] = {0, 0};
  for (long n = 1; result == KEFS_DEVICE; n++) {
    begin_stops();
    change_all();
    calls = 0, last_call = n, is_armed = is_failing = 1;
    result = kefs_commit(image, NULL, 0, NULL);
    is_armed = is_failing = 0, unsynced_count = 0;
    CHECK(result == (calls >= n ? KEFS_DEVICE : KEFS_OK));
    if (result == KEFS_DEVICE) RETURNS(KEFS_HALTED, kefs_unlink(image, "a"));
    if (result == KEFS_DEVICE) DONE(kefs_recover(image, &stands));
    if (result == KEFS_DEVICE) seen[stands]++, CHECK(is_after() && (written() == 0) == (stands == KEFS_AFTER));
    if (result == KEFS_DEVICE && stands == KEFS_BEFORE && n % 2 == 0) {
      DONE(kefs_close(image));
      DONE(kefs_open(&image, PATH, flags));
      CHECK(is_before());
    } else {
      commit_all();
      leave_and_open();
      CHECK(is_after());
    }
    DONE(kefs_close(image));
    check_image();
  }
  CHECK(seen[KEFS_BEFORE] > 3 && seen[KEFS_AFTER] > 0);
}

/* Random calls, against a model: each file is of one byte. */

enum { NAMES = 12, ROUNDS = 1500 };
struct entry { int is_there; unsigned number, id; size_t length; unsigned char byte; };
struct model { struct entry list[NAMES]; };
static struct model durable_model, model;
static unsigned char *mapped[RECORDS];
static struct { size_t length; } made[1 << 16];
static unsigned ids;

static const char *name_of(int i) {
  static char names[2][16];
  static int next;
  snprintf(names[next ^= 1], sizeof *names, i % 2 == 0 ? "%d" : "a longer one %d", i);
  return names[next];
}

static struct entry *durable_of(unsigned id) {
  for (int i = 0; i < NAMES; i++)
    if (durable_model.list[i].is_there && durable_model.list[i].id == id) return &durable_model.list[i];
  return NULL;
}

static void commit_model(void) {
  commit_all();
  durable_model = model;
}

static void forget_mappings(void) { memset(mapped, 0, sizeof mapped); }

static void create_one(int i) {
  struct entry *it = &model.list[i];
  unsigned file;
  size_t length = (size_t)(random() % (6 * PAGE));
  int result = kefs_create_file(image, name_of(i), length, &file);
  if (it->is_there) return RETURNS(EEXIST, result);
  if (result == ENFILE) commit_model(), result = kefs_create_file(image, name_of(i), length, &file);
  DONE(result);
  *it = (struct entry){1, file, ++ids, length, 0};
  made[ids].length = length;
}

static void unlink_one(int i) {
  struct entry *it = &model.list[i];
  int result = kefs_unlink(image, name_of(i));
  if (!it->is_there) return RETURNS(KEFS_NO_FILE, result);
  if (mapped[it->number] != NULL) return RETURNS(EBUSY, result);
  DONE(result);
  it->is_there = 0;
}

static void rename_one(int i, int j) {
  struct entry *from = &model.list[i], *to = &model.list[j];
  int result = kefs_rename(image, name_of(i), name_of(j));
  if (!from->is_there) return RETURNS(KEFS_NO_FILE, result);
  if (i != j && to->is_there && mapped[to->number] != NULL) return RETURNS(EBUSY, result);
  DONE(result);
  if (i == j) return;
  *to = *from;
  from->is_there = 0;
}

static void map_one(struct entry *it) {
  if (it->is_there && mapped[it->number] == NULL) mapped[it->number] = map(it->number);
}

static void unmap_one(struct entry *it) {
  if (!it->is_there || mapped[it->number] == NULL) return;
  const struct entry *was = durable_of(it->id);
  DONE(kefs_unmap(image, it->number));
  mapped[it->number] = NULL;
  it->length = was == NULL ? made[it->id].length : was->length, it->byte = was == NULL ? 0 : was->byte;
}

static void store_one(struct entry *it) {
  if (!it->is_there) return;
  map_one(it);
  it->length = 1 + (size_t)(random() % (10 * PAGE)), it->byte = (unsigned char)random();
  DONE(kefs_resize(image, it->number, it->length));
  fill(mapped[it->number], it->length, it->byte);
}

/* A new file that is mapped has no page, and is let go. */
static void roll_back_model(void) {
  roll_back_all();
  for (int i = 0; i < NAMES; i++) {
    struct entry *it = &model.list[i];
    if (!it->is_there || durable_of(it->id) != NULL || mapped[it->number] == NULL) continue;
    DONE(kefs_unmap(image, it->number));
    mapped[it->number] = NULL;
  }
  model = durable_model;
}

static void open_model(void) {
  leave_and_open();
  forget_mappings();
  model = durable_model;
}

static void compare_one(int i) {
  const struct entry *it = &model.list[i];
  const char *name;
  CHECK(has_name(name_of(i)) == it->is_there);
  if (!it->is_there) return;
  CHECK(number_of(name_of(i)) == it->number && length_of(it->number) == it->length);
  DONE(kefs_name_at(image, it->number, &name));
  CHECK(strcmp(name, name_of(i)) == 0);
  if (mapped[it->number] != NULL && it->length > 0) CHECK(is_all(mapped[it->number], it->length, it->byte));
}

/* A snapshot, whose mappings stay from one refresh to the next, where the files do. */

static kefs_image *reader;
static unsigned char *seen[RECORDS];

static void open_reader(void) {
  DONE(kefs_open(&reader, PATH, KEFS_SNAPSHOT));
  memset(seen, 0, sizeof seen);
}

static void compare_seen(int i) {
  const struct entry *it = &durable_model.list[i];
  unsigned file;
  size_t length;
  void *at;
  int result = kefs_lookup(reader, name_of(i), &file);
  if (!it->is_there) return RETURNS(KEFS_NO_FILE, result);
  CHECK(result == KEFS_OK && file == it->number);
  DONE(kefs_map_growing(reader, file, NULL, 16 * PAGE, &at, &length));
  CHECK(length == it->length && (seen[file] == NULL || seen[file] == at));
  seen[file] = at;
  if (length > 0) CHECK(is_all(at, length, it->byte));
}

static void refresh(void) {
  DONE(kefs_refresh(reader, NULL));
  for (int i = 0; i < NAMES; i++) compare_seen(i);
  if (random() % 8 > 0) return;
  DONE(kefs_close(reader));
  open_reader();
}

static void back_up(void) {
  kefs_image *kept = reader;
  unsigned char *kept_seen[RECORDS];
  memcpy(kept_seen, seen, sizeof seen), memset(seen, 0, sizeof seen);
  unlink("copy.img");
  DONE(kefs_backup(random() % 2 == 0 ? image : kept, "copy.img", 0));
  DONE(kefs_open(&reader, "copy.img", KEFS_RDONLY));
  for (int i = 0; i < NAMES; i++) compare_seen(i);
  DONE(kefs_close(reader));
  reader = kept, memcpy(seen, kept_seen, sizeof seen);
}

static void do_something(void) {
  int i = (int)(random() % NAMES);
  if (random() % 8 == 0) return refresh();
  if (random() % 32 == 0) return DONE(kefs_refresh(reader, NULL)), back_up();
  switch (random() % 16) {
    case 0: case 1: case 2: return create_one(i);
    case 3: case 4: return unlink_one(i);
    case 5: case 6: return rename_one(i, (int)(random() % NAMES));
    case 7: return map_one(&model.list[i]);
    case 8: case 9: return unmap_one(&model.list[i]);
    case 10: case 11: case 12: return store_one(&model.list[i]);
    case 13: return commit_model();
    case 14: if (random() % 2 == 0) roll_back_model(); return;
    default: if (random() % 4 == 0) open_model();
  }
}

static void random_calls_do_as_the_model(void) {
  const char *seed = getenv("SEED");
  unsigned number = seed == NULL ? (unsigned)random() : (unsigned)atoi(seed);
  begin_with_names();
  dprintf(1, "names: seed %u\n", number), srandom(number);
  open_reader();
  for (int round = 0; round < ROUNDS; round++) {
    do_something();
    for (int i = 0; i < NAMES; i++) compare_one(i);
  }
  DONE(kefs_close(reader));
  DONE(kefs_close(image));
}

static const struct test once[] = {
  TEST(an_image_with_names_is_as_the_format_says), TEST(calls_by_name_have_their_results), TEST(an_image_without_names_says_so), TEST(the_file_of_names_stays),
  TEST(what_is_opened_to_read_sees_names), TEST(all_numbers_are_taken), TEST(a_small_directory_has_fewer_numbers), TEST(damaged_names_count_for_nothing),
  TEST(a_file_that_came_and_went_takes_no_call),
  TEST(a_backup_has_the_names), TEST(names_take_places_of_a_commit), TEST(threads_share_names), TEST(a_stop_leaves_names_before_or_after),
  TEST(a_failing_call_loses_no_name)};
static const struct test with_each_tracker[] = {
  TEST(names_are_rolled_back), TEST(a_start_takes_names_at_once), TEST(a_named_file_grows), TEST(an_exit_before_the_commit_loses_all),
  TEST(random_calls_do_as_the_model)};

int main(int argc, char **argv) { return argc < 2 ? 2 : run_cases(argv, once, COUNT_OF(once), with_each_tracker, COUNT_OF(with_each_tracker)); }
