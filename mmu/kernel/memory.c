/* The functions of memory that compilers call. They go word by word, and in blocks of eight words, where both places are equally far behind a word's; else byte by byte. */
#include "kernel.h"

enum { WORD = 8, BLOCK = 8 * WORD };
typedef u64 __attribute__((may_alias)) word;

static u64 past_word(const void *at) { return (u64)at % WORD; }

void *memcpy(void *to, const void *from, size_t n) {
  u8 *t = to;
  const u8 *f = from;
  if (past_word(t) == past_word(f)) {
    for (; n && past_word(t); n--) *t++ = *f++;
    for (; n >= BLOCK; n -= BLOCK, t += BLOCK, f += BLOCK)
      for (int i = 0; i < BLOCK; i += WORD) *(word *)(t + i) = *(const word *)(f + i);
    for (; n >= WORD; n -= WORD, t += WORD, f += WORD) *(word *)t = *(const word *)f;
  }
  while (n--) *t++ = *f++;
  return to;
}

void *memmove(void *to, const void *from, size_t n) {
  u8 *t = to;
  const u8 *f = from;
  if (t <= f || t >= f + n) return memcpy(to, from, n);
  if (past_word(t) == past_word(f)) {
    for (; n && past_word(t + n); n--) t[n - 1] = f[n - 1];
    for (; n >= WORD; n -= WORD) *(word *)(t + n - WORD) = *(const word *)(f + n - WORD);
  }
  while (n--) t[n] = f[n];
  return to;
}

void *memset(void *to, int c, size_t n) {
  u8 *t = to;
  u64 eight = (u8)c * 0x0101010101010101ul;
  for (; n && past_word(t); n--) *t++ = c;
  for (; n >= BLOCK; n -= BLOCK, t += BLOCK)
    for (int i = 0; i < BLOCK; i += WORD) *(word *)(t + i) = eight;
  for (; n >= WORD; n -= WORD, t += WORD) *(word *)t = eight;
  while (n--) *t++ = c;
  return to;
}

int memcmp(const void *a, const void *b, size_t n) {
  const u8 *x = a, *y = b;
  for (; n--; x++, y++)
    if (*x != *y) return *x - *y;
  return 0;
}

size_t strlen(const char *text) {
  size_t n = 0;
  while (text[n]) n++;
  return n;
}
