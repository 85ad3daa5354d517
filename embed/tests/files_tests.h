/* What the programs share that try files which come and go: calls that have to do what they do. */
#ifndef KEFS_FILES_TESTS_H
#define KEFS_FILES_TESTS_H
#include "cases.h"

enum { RECORD = 256, RECORDS = 64, NAMES_LENGTH = RECORD * RECORDS }; /* the names of files, of docs/FORMATS.md */

static inline void commit_all(void) { DONE(kefs_commit(image, NULL, 0, NULL)); }

static inline void roll_back_all(void) { DONE(kefs_rollback(image, NULL, 0)); }

static inline size_t length_of(unsigned file) {
  size_t length;
  DONE(kefs_length(image, file, &length));
  return length;
}

static inline unsigned char *map(unsigned file) {
  void *at;
  DONE(kefs_map_growing(image, file, NULL, 16 * PAGE, &at, NULL));
  return at;
}

static inline void fill(unsigned char *at, size_t length, unsigned char byte) {
  memset(at, byte, length);
  if ((flags & KEFS_TRACK_CALLER) != 0) DONE(kefs_mark_dirty(image, at, length));
}

static inline int is_all(const unsigned char *at, size_t length, unsigned char byte) { return at[0] == byte && memcmp(at, at + 1, length - 1) == 0; }

static inline uint64_t commits(void) {
  struct kefs_stat stat = {.size = sizeof stat};
  DONE(kefs_stat(image, &stat));
  return stat.commits;
}

static inline uint32_t count_files(void) {
  struct kefs_stat stat = {.size = sizeof stat};
  DONE(kefs_stat(image, &stat));
  return stat.files;
}

static inline void leave_and_open(void) {
  DONE(kefs_close(image));
  DONE(kefs_open(&image, PATH, flags));
}

#endif
