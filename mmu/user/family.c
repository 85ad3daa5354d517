/* Five children by fork: what each writes is its own (copy-on-write), the common page is all of theirs, and three end by deadly faults. */
#include "user.h"

enum { PAGES = 40, CHILDREN = 5, TURNS = 3, STEP = 1000 };

static u64 (*own)[PAGE / 8];
static u64 *common; /* wrong words that children found, and children that came to their end */

static u64 written(u64 page, u64 child, u64 turn) { return page + STEP * child * turn; }

static void live(u64 child) {
  u64 wrong = 0;
  for (u64 turn = 0; turn < TURNS; turn++) {
    for (u64 page = 0; page < PAGES; page++) {
      wrong += own[page][0] != written(page, child, turn);
      own[page][0] = written(page, child, turn + 1);
    }
    yield();
  }
  __atomic_fetch_add(&common[0], wrong, __ATOMIC_SEQ_CST);
  __atomic_fetch_add(&common[1], 1, __ATOMIC_SEQ_CST);
}

static void die(u64 child, u64 file) {
  if (child == 2) *(volatile u64 *)0x12345678 = 1; /* not mapped */
  if (child == 3) *(volatile u64 *)0x10000 = 1;    /* the text, which may not be written */
  u64 *mapped = mmap(0, 64 * PAGE, READ | WRITE, SHARED, file, 0, HINT);
  if (child == 4) *(volatile u64 *)&mapped[40 * PAGE / 8] = 1; /* past the file's end */
}

static u64 wrong_pages(u64 factor) {
  u64 wrong = 0;
  for (u64 page = 0; page < PAGES; page++) wrong += own[page][0] != factor * page;
  return wrong;
}

int main(int file) {
  own = pages(PAGES);
  common = mmap(0, PAGE, READ | WRITE, COMMON, 0, 0, HINT);
  for (u64 page = 0; page < PAGES; page++) own[page][0] = page;
  for (u64 child = 1; child <= CHILDREN; child++)
    if (fork() == 0) {
      live(child);
      die(child, file);
      exit(child);
    }
  u64 sum = 0;
  for (int status; wait(&status) > 0;) sum += status;
  say("statuses of five children, added up: ");
  say_number(sum); /* 1 and 5, 139 twice for SIGSEGV, and 135 for SIGBUS */
  say("; came to their end: ");
  say_number(common[1]);
  say("; wrong words: ");
  say_number(common[0] + wrong_pages(1));
  dontneed(own, PAGES * PAGE);
  say("; and after dontneed: ");
  say_number(wrong_pages(0));
  say("\n");
  return common[0] + wrong_pages(0) != 0;
}
