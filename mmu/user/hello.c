/* 200 pages are written and read back: where memory has fewer frames, most of them go to swap meanwhile. */
#include "user.h"

enum { PAGES = 200 };

int main(void) {
  say("hello from process ");
  say_number(getpid());
  u64 (*page)[PAGE / 8] = pages(PAGES), wrong = 0;
  for (u64 i = 0; i < PAGES; i++) page[i][i] = 7 * i + 1;
  for (u64 i = 0; i < PAGES; i++) wrong += page[i][i] != 7 * i + 1;
  say("; wrong pages of 200: ");
  say_number(wrong);
  say("\n");
  return wrong != 0;
}
