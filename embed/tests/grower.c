/* A program whose files grow, to be killed. File 0 is a log: each commit appends a record, of a few bytes to some pages, and where it is too long it
   begins anew, empty. File 1 tells how many commits there were. File 2 has another length after each, and is zeros but for its last byte. All of it
   follows from the number of commits, so that none of it is whole unless all of one commit is. `grower IMAGE TRACKER run SEED` commits until it is
   killed, and writes the number of each commit that was acknowledged. `grower IMAGE TRACKER check` tells the number of commits and whether all files
   are as after so many. TRACKER is scan, signal, caller or lazy. */
#include "kefs.h"
#include <stdio.h>
#include <stdlib.h>
#include <string.h>
#include <unistd.h>

enum { MOST_LOG = 3 << 20, MOST_RECORD = 1 << 17, MOST_SPACE = 1 << 20, KEPT = 4 << 20 };
struct state { uint64_t number; size_t log, space; }; /* how many commits there were, and the lengths of files 0 and 2 then */
static unsigned char *records, *space;
static uint64_t *count;
static kefs_image *image;

static void must(int result, const char *call) {
  if (result != KEFS_OK) fprintf(stderr, "grower: %s: %s: %s: %s\n", call, kefs_name(result), kefs_strerror(result), kefs_errmsg(image)), exit(1);
}

static uint64_t mixed(uint64_t n) {
  n = (n ^ n >> 30) * 0xbf58476d1ce4e5b9u, n = (n ^ n >> 27) * 0x94d049bb133111ebu;
  return n ^ n >> 31;
}

/* Mostly some hundred bytes. */
static size_t record_length(uint64_t n) { return 1 + mixed(n) % (mixed(n) >> 32 & 7 ? 900 : MOST_RECORD); }
static size_t space_length(uint64_t n) { return mixed(3 * n + 1) % (mixed(n) >> 40 & 7 ? 9 * KEFS_PAGE : MOST_SPACE); }
static unsigned char byte_of(uint64_t n, size_t i) { return (unsigned char)(mixed(n + 7) + 13 * i); }

static struct state following(struct state state) {
  size_t log = state.number > 0 && state.log > MOST_LOG ? 0 : state.log;
  return (struct state){state.number + 1, log + record_length(state.number), space_length(state.number)};
}

/* Commits */

static void put_record(uint64_t n, size_t at, size_t length) {
  for (size_t i = 0; i < length; i++) records[at + i] = byte_of(n, i);
  must(kefs_mark_dirty(image, records + at, length), "kefs_mark_dirty");
}

static void put_byte(size_t length, unsigned char byte) {
  if (length == 0) return;
  space[length - 1] = byte;
  must(kefs_mark_dirty(image, space + length - 1, 1), "kefs_mark_dirty");
}

/* A log that begins anew is cut first, so that its bytes are zeros where it grows. */
static void append(struct state before, struct state after) {
  size_t record = record_length(before.number);
  if (after.log == record) must(kefs_resize(image, 0, 0), "kefs_resize");
  must(kefs_resize(image, 0, after.log), "kefs_resize");
  put_record(before.number, after.log - record, record);
  put_byte(before.space, 0);
  must(kefs_resize(image, 2, after.space), "kefs_resize");
  put_byte(after.space, 1);
  *count = after.number;
  must(kefs_mark_dirty(image, count, sizeof *count), "kefs_mark_dirty");
  must(kefs_commit(image, NULL, 0, NULL), "kefs_commit");
}

static struct state state_of(uint64_t number) {
  struct state state = {0, 0, 0};
  while (state.number < number) state = following(state);
  return state;
}

static int run(void) {
  for (struct state state = state_of(*count), after;; state = after) {
    char line[32];
    after = following(state);
    append(state, after);
    int n = sprintf(line, "%lu\n", (unsigned long)after.number);
    if (write(1, line, (size_t)n) != n) return 1;
  }
}

/* Checks */

static int is_record(uint64_t n, size_t at) {
  size_t length = record_length(n);
  for (size_t i = 0; i < length; i++)
    if (records[at + i] != byte_of(n, i)) return 0;
  return 1;
}

/* The records that the log has: the last ones, back to where it began anew. */
static int is_log(uint64_t number, size_t end) {
  while (end > 0) {
    size_t length = record_length(--number);
    if (length > end || !is_record(number, end - length)) return 0;
    end -= length;
  }
  return 1;
}

static int is_space(size_t length) {
  for (size_t i = 0; i < length; i++)
    if (space[i] != (i + 1 == length)) return 0;
  return 1;
}

static int check(size_t log_length, size_t space_now) {
  struct state state = state_of(*count);
  int is_whole = log_length == state.log && space_now == state.space && is_log(state.number, state.log) && is_space(state.space);
  printf("%lu %s\n", (unsigned long)state.number, is_whole ? "whole" : "TORN");
  return 0;
}

static unsigned flags_of(const char *tracker) {
  return strcmp(tracker, "signal") == 0 ? KEFS_TRACK_SIGNAL : strcmp(tracker, "caller") == 0 ? KEFS_TRACK_CALLER
    : strcmp(tracker, "lazy") == 0 ? KEFS_TRACK_SCAN | KEFS_LAZY : KEFS_TRACK_SCAN;
}

int main(int argc, char **argv) {
  struct kefs_file files[] = {{0, KEFS_FILE_GROWS, NULL}, {sizeof *count, 0, NULL}, {0, KEFS_FILE_GROWS, NULL}};
  struct kefs_options options = {.size = sizeof options, .permissions = 0600, .files = files, .count = 3, .pool = 1};
  void *at[3];
  size_t lengths[3];
  if (argc < 4) return 2;
  must(kefs_open_with(&image, argv[1], flags_of(argv[2]) | KEFS_CREATE, &options), argv[1]);
  for (unsigned f = 0; f < 3; f++) must(kefs_map_growing(image, f, NULL, f == 1 ? 0 : KEPT, &at[f], &lengths[f]), "kefs_map_growing");
  records = at[0], count = at[1], space = at[2];
  return strcmp(argv[3], "check") == 0 ? check(lengths[0], lengths[2]) : run();
}
