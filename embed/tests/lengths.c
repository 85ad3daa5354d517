/* lengths FOLDER: random calls on files that get other lengths, against a model of what is durable and what is in memory. SEED is that of an earlier run, to
   try it again. Each case is a process of its own (cases.h). */
#define _GNU_SOURCE
#define PROGRAM "lengths"
#include "cases.h"
#include <errno.h>

enum { FILES = 3, FEW = 24 * PAGE, MANY = 260 * PAGE, ROUNDS = 3000 };
static size_t most; /* bytes of a file */

/* The bytes of a file, zeros behind its length. */
struct bytes { unsigned char at[MANY]; size_t length; };
struct model { struct bytes durable, now; unsigned char *mapped; };
static struct model models[FILES];

static size_t below(size_t end) { return end == 0 ? 0 : (size_t)random() % end; }
static size_t up(size_t bytes) { return (bytes + PAGE - 1) / PAGE * PAGE; }
static size_t least(size_t one, size_t other) { return one < other ? one : other; }

static void set_end(struct bytes *bytes, size_t length) {
  if (length < bytes->length) memset(bytes->at + length, 0, bytes->length - length);
  bytes->length = length;
}

/* The model */

/* All that a call of a file's bytes from `first` to `end` takes, whole pages, of those that were pages before and are. */
static void model_commit(struct model *it, size_t first, size_t end) {
  size_t before = it->durable.length, kept = least(up(before), up(it->now.length));
  set_end(&it->durable, it->now.length);
  first = first / PAGE * PAGE, end = least(up(end), kept);
  if (first < end) memcpy(it->durable.at + first, it->now.at + first, end - first);
  if (it->now.length > up(before)) memcpy(it->durable.at + up(before), it->now.at + up(before), it->now.length - up(before));
}

static void model_roll_back(struct model *it, size_t first, size_t end) {
  size_t before = it->now.length, kept = least(up(before), up(it->durable.length));
  set_end(&it->now, it->durable.length);
  first = first / PAGE * PAGE, end = least(up(end), kept);
  if (first < end) memcpy(it->now.at + first, it->durable.at + first, end - first);
  if (before < it->durable.length) memcpy(it->now.at + before, it->durable.at + before, it->durable.length - before);
  set_end(&it->now, it->durable.length);
}

/* Calls */

static void open_image(void) {
  DONE(kefs_open(&image, PATH, flags));
  for (unsigned f = 0; f < FILES; f++) models[f].mapped = NULL;
}

static void map_one(unsigned f) {
  void *at;
  size_t length;
  DONE(kefs_map_growing(image, f, NULL, most, &at, &length));
  CHECK(at != NULL && length == models[f].now.length);
  models[f].mapped = at;
}

static void unmap_one(unsigned f) {
  if (models[f].mapped == NULL) return map_one(f);
  DONE(kefs_unmap(image, f));
  models[f].mapped = NULL, models[f].now = models[f].durable;
}

static void store_some(unsigned f) {
  struct model *it = &models[f];
  size_t at = below(it->now.length), count = least(1 + below(3 * PAGE), it->now.length - at);
  if (it->mapped == NULL || count == 0) return;
  memset(it->mapped + at, 1 + (int)below(255), count);
  if ((flags & KEFS_TRACK_CALLER) != 0) DONE(kefs_mark_dirty(image, it->mapped + at, count));
  memcpy(it->now.at + at, it->mapped + at, count);
}

/* Past the end of a file, in its last page: no commit takes that. */
static void store_behind(unsigned f) {
  struct model *it = &models[f];
  size_t left = up(it->now.length) - it->now.length;
  if (it->mapped != NULL && left > 0) store(it->mapped + it->now.length + below(left), 255);
}

static void resize_one(unsigned f) {
  const size_t lengths[] = {0, 1, PAGE - 1, PAGE, PAGE + 1, 5 * PAGE, most};
  struct model *it = &models[f];
  size_t wanted = random() % 3 == 0 ? lengths[below(COUNT_OF(lengths))] : random() % 3 == 0 ? least(it->now.length + below(PAGE), most) : below(most);
  DONE(kefs_resize(image, f, wanted));
  set_end(&it->now, wanted);
}

static void make_durable(const struct kefs_range *range) {
  size_t before = 0, taken = 0, most = range != NULL;
  uint64_t ticket;
  DONE(kefs_count_dirty(image, range, most, &before));
  if (random() % 3 > 0) DONE(kefs_commit(image, range, most, &taken));
  else DONE(kefs_commit_start(image, range, most, &taken, &ticket));
  CHECK(taken == before);
  if (range == NULL) DONE(kefs_count_dirty(image, range, most, &taken));
  if (range == NULL) CHECK(taken == 0);
}

static void commit_all(void) {
  make_durable(NULL);
  for (unsigned f = 0; f < FILES; f++) model_commit(&models[f], 0, most);
}

static void roll_back_all(void) {
  DONE(kefs_rollback(image, NULL, 0));
  for (unsigned f = 0; f < FILES; f++) model_roll_back(&models[f], 0, most);
}

/* A range of one file, which may lie behind its end. */
static void commit_or_roll_back_some(unsigned f, int commits) {
  struct model *it = &models[f];
  size_t first = below(most), end = first + 1 + below(most - first);
  if (it->mapped == NULL) return;
  struct kefs_range range = {it->mapped + first, end - first};
  if (commits) make_durable(&range), model_commit(it, first, end);
  else DONE(kefs_rollback(image, &range, 1)), model_roll_back(it, first, end);
}

static void leave_and_open(void) {
  DONE(kefs_close(image));
  open_image();
  for (unsigned f = 0; f < FILES; f++) models[f].now = models[f].durable;
}

static void compare(int round) {
  size_t length;
  for (unsigned f = 0; f < FILES; f++) {
    const struct model *it = &models[f];
    DONE(kefs_length(image, f, &length));
    if (length != it->now.length) dprintf(2, "round %d: file %u has %zu bytes, and not %zu\n", round, f, length, it->now.length), _exit(1);
    if (it->mapped == NULL || memcmp(it->mapped, it->now.at, length) == 0) continue;
    dprintf(2, "round %d: file %u, of %zu bytes, differs\n", round, f, length), _exit(1);
  }
}

static void do_something(void) {
  unsigned f = (unsigned)below(FILES);
  switch (random() % 16) {
    case 0: case 1: case 2: case 3: return store_some(f);
    case 4: return store_behind(f);
    case 5: case 6: case 7: case 8: return resize_one(f);
    case 9: return commit_all();
    case 10: case 11: return commit_or_roll_back_some(f, 1);
    case 12: return commit_or_roll_back_some(f, 0);
    case 13: return roll_back_all();
    case 14: return unmap_one(f);
    default: if (random() % 4 == 0) leave_and_open();
  }
}

static void try_calls(size_t longest, int rounds) {
  struct kefs_file files[FILES] = {{9 * PAGE + 5, 0, NULL}, {0, 0, NULL}, {PAGE, 0, NULL}};
  struct kefs_options options = {.size = sizeof options, .files = files, .count = FILES, .pool = 1}; /* so few slots that it is tidied often */
  const char *seed = getenv("SEED");
  unsigned number = seed == NULL ? (unsigned)random() : (unsigned)atoi(seed);
  most = longest;
  unlink(PATH);
  DONE(kefs_open_with(&image, PATH, KEFS_CREATE | flags, &options));
  for (unsigned f = 0; f < FILES; f++) models[f].now.length = models[f].durable.length = files[f].length;
  dprintf(1, "lengths: seed %u\n", number), srandom(number);
  for (int round = 0; round < rounds; round++) do_something(), compare(round);
  DONE(kefs_close(image));
}

static void random_calls_do_as_the_model(void) { try_calls(FEW, ROUNDS); }
static void calls_on_longer_files_do_as_the_model(void) { try_calls(MANY, ROUNDS / 3); } /* new pages are listed that are more than zeros */

static const struct test with_each_tracker[] = {TEST(random_calls_do_as_the_model), TEST(calls_on_longer_files_do_as_the_model)};

int main(int argc, char **argv) { return argc < 2 ? 2 : run_cases(argv, NULL, 0, with_each_tracker, COUNT_OF(with_each_tracker)); }
