/* Faults of one kind after another: the first loads of 300 pages of zeros, their first stores, and loads again, which in few frames find the pages in swap. */
#include "user.h"

enum { COUNT = 300, NUMBERS = PAGE / 8 };

int main(void) {
  volatile u64 *numbers = (volatile u64 *)pages(COUNT);
  long wrong = 0;
  for (u64 i = 0; i < COUNT; i++) wrong += numbers[NUMBERS * i] != 0;
  for (u64 i = 0; i < COUNT; i++) numbers[NUMBERS * i] = i;
  for (u64 i = 0; i < COUNT; i++) wrong += numbers[NUMBERS * i] != i;
  say("pages: wrong numbers ");
  say_number(wrong);
  say("\n");
  return wrong != 0;
}
