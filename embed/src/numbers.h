/* Sets of numbers of files, of which an image may have many: what is in one is found without a look at what is not. */
#ifndef KEFS_NUMBERS_H
#define KEFS_NUMBERS_H
#include "kefs.h"
#include <stdint.h>

/* A bit for each number; and one for each word that has any. */
struct numbers { uint64_t some, words[KEFS_FILES / 64]; };
_Static_assert(KEFS_FILES == 64 * 64, "a word has a bit for each of the words");

static inline int has_number(const struct numbers *set, unsigned f) { return (int)(set->words[f / 64] >> f % 64 & 1); }

static inline void add_number(struct numbers *set, unsigned f) {
  set->words[f / 64] |= (uint64_t)1 << f % 64;
  set->some |= (uint64_t)1 << f / 64;
}

static inline void drop_number(struct numbers *set, unsigned f) {
  set->words[f / 64] &= ~((uint64_t)1 << f % 64);
  if (set->words[f / 64] == 0) set->some &= ~((uint64_t)1 << f / 64);
}

static inline void put_number_in(struct numbers *set, unsigned f, int is_in) {
  if (is_in) add_number(set, f);
  else drop_number(set, f);
}

/* The first number from `f` on that the set has, or KEFS_FILES. */
static inline unsigned next_number(const struct numbers *set, unsigned f) {
  if (f >= KEFS_FILES) return KEFS_FILES;
  uint64_t left = set->words[f / 64] >> f % 64, later = set->some & ~(uint64_t)0 << f / 64 & ~((uint64_t)1 << f / 64);
  if (left != 0) return f + (unsigned)__builtin_ctzll(left);
  if (later == 0) return KEFS_FILES;
  unsigned word = (unsigned)__builtin_ctzll(later);
  return 64 * word + (unsigned)__builtin_ctzll(set->words[word]);
}

static inline unsigned first_number(const struct numbers *set) { return next_number(set, 0); }

static inline uint32_t count_numbers(const struct numbers *set) {
  uint32_t count = 0;
  for (unsigned w = 0; w < KEFS_FILES / 64; w++) count += (uint32_t)__builtin_popcountll(set->words[w]);
  return count;
}

#endif
