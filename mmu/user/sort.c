/* Sorts 64 thousand numbers, of 128 pages, by merging, with as much room again. */
#include "user.h"

enum { COUNT = 65536 };

/* Merges two sorted runs of `half` numbers each into `to`. */
static void merge(const u64 *from, u64 *to, u64 half) {
  const u64 *left = from, *left_end = from + half, *right = left_end, *right_end = right + half;
  while (left < left_end || right < right_end) *to++ = right == right_end || (left < left_end && *left <= *right) ? *left++ : *right++;
}

int main(void) {
  u64 *numbers = pages(COUNT * 8 / PAGE), *other = pages(COUNT * 8 / PAGE), seed = 1, sum = 0;
  for (u64 i = 0; i < COUNT; i++) sum += numbers[i] = (seed = seed * 6364136223846793005ul + 1442695040888963407ul) >> 33;
  for (u64 half = 1; half < COUNT; half *= 2) {
    for (u64 at = 0; at < COUNT; at += 2 * half) merge(numbers + at, other + at, half);
    u64 *sorted = other;
    other = numbers;
    numbers = sorted;
  }
  u64 falls = 0;
  for (u64 i = 0; i < COUNT; i++) sum -= numbers[i];
  for (u64 i = 1; i < COUNT; i++) falls += numbers[i] < numbers[i - 1];
  say("sorted 65536 numbers; falls: ");
  say_number(falls);
  say(", lost: ");
  say_number(sum);
  say("\n");
  return falls || sum;
}
