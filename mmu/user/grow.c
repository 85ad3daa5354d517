/* A file that grows by a page before each msync, and is cut. What was cut off is gone for all, own copies too, and zeros where the file grows again. */
#include "user.h"

enum { GROWN = 24, CUT = 10, INSIDE = 100, OWN = 20, MOST = 64, LONG = 43, BUS_ERROR = 128 + 7 };

/* Whether a child that loads that byte ends by a bus error. */
static int is_past_end(const u8 *at) {
  long child = fork();
  if (child == 0) exit(*(volatile const u8 *)at);
  int status;
  return wait(&status) == child && status == BUS_ERROR;
}

static void fill(u8 *page, u8 byte) {
  for (u64 i = 0; i < PAGE; i++) page[i] = byte;
}

/* How many of these calls failed: each new page is filled with its number. */
static long grow(u8 *log, u64 file) {
  long failed = truncate(file, 0) != 0;
  for (u64 i = 0; i < GROWN; i++) {
    failed += truncate(file, (i + 1) * PAGE) != 0;
    fill(log + i * PAGE, i + 1);
    failed += msync(log, GROWN * PAGE) != 0;
  }
  return failed;
}

/* How many bytes of the pages are not as they have to be. */
static u64 wrong_bytes(const u8 *log) {
  u64 wrong = 0;
  for (u64 i = 0; i < GROWN * PAGE; i++) wrong += log[i] != (i < CUT * PAGE + INSIDE ? i / PAGE + 1 : 0);
  return wrong;
}

static void tell(const char *what, long n) {
  say(what);
  say_number(n);
}

int main(int file) {
  u8 *log = mmap(0, MOST * PAGE, READ | WRITE, SHARED, file, 0, HINT), *own = mmap(0, MOST * PAGE, READ | WRITE, PRIVATE, file, 0, HINT);
  long failed = grow(log, file);
  own[OWN * PAGE] = 99;
  int past = is_past_end(log + GROWN * PAGE);
  truncate(file, CUT * PAGE + INSIDE);
  past += is_past_end(log + (CUT + 1) * PAGE) + is_past_end(own + OWN * PAGE);
  truncate(file, GROWN * PAGE);
  tell("calls that failed: ", failed);
  tell("; bus errors past the end: ", past);
  tell("; wrong bytes: ", wrong_bytes(log) + own[OWN * PAGE]);
  tell("; refused with ", -truncate(file + 1, 0));
  tell(", ", -truncate(0, 0));
  tell(", ", -truncate(file, 1ul << LONG));
  say("\n");
  return msync(log, GROWN * PAGE) != 0;
}
