/* resumes: exits with 0 where a program goes on after a handler of SIGSEGV as if there had been no fault. Nothing of the library is in it. Under valgrind it
   does so only with the options of GRIND in Makefile: without them it goes on with registers, or at an instruction, of before the fault, here for ever. */
#define _GNU_SOURCE
#include <signal.h>
#include <sys/mman.h>

enum { PAGE = 4096 };
static volatile long *at;

static void on_fault(int number) { (void)number, mprotect((void *)at, PAGE, PROT_READ | PROT_WRITE); }

static __attribute__((noinline)) void store(volatile long *to, long value) { *to = value; }

int main(void) {
  long x = 1;
  at = mmap(NULL, PAGE, PROT_READ, MAP_PRIVATE | MAP_ANONYMOUS, -1, 0);
  signal(SIGSEGV, on_fault);
  /* A register has another value before the store, and again another one after it. */
  x += 1;
  __asm__ volatile("" : "+r"(x));
  *at = x;
  x += 1;
  __asm__ volatile("" : "+r"(x));
  if (*at != 2 || x != 3) return 1;
  /* The store is the first instruction of a function. */
  mprotect((void *)at, PAGE, PROT_READ);
  store(at, 4);
  return *at != 4;
}
