/* The calls, and what is built on them. */
#include "user.h"

enum { CALL_WRITE = 1, CALL_EXIT, CALL_FORK, CALL_MMAP, CALL_MUNMAP, CALL_MPROTECT, CALL_DONTNEED, CALL_MSYNC, CALL_WAIT, CALL_YIELD, CALL_GETPID, CALL_END_ALL, CALL_TRUNCATE };

struct results { long first, second; };

static struct results both(long number, long a, long b, long c, long d, long e, long f, long g) {
  register long a0 asm("a0") = a, a1 asm("a1") = b, a2 asm("a2") = c, a3 asm("a3") = d, a4 asm("a4") = e, a5 asm("a5") = f, a6 asm("a6") = g, a7 asm("a7") = number;
  asm volatile("ecall" : "+r"(a0), "+r"(a1) : "r"(a2), "r"(a3), "r"(a4), "r"(a5), "r"(a6), "r"(a7) : "memory");
  return (struct results){a0, a1};
}

long kernel_call(long number, long a, long b, long c, long d, long e, long f, long g) { return both(number, a, b, c, d, e, f, g).first; }

long write(const char *text, u64 n) { return kernel_call(CALL_WRITE, (long)text, n, 0, 0, 0, 0, 0); }

void exit(int status) {
  for (;;) kernel_call(CALL_EXIT, status, 0, 0, 0, 0, 0, 0);
}

void end_all(int status) {
  for (;;) kernel_call(CALL_END_ALL, status, 0, 0, 0, 0, 0, 0);
}

long fork(void) { return kernel_call(CALL_FORK, 0, 0, 0, 0, 0, 0, 0); }

void *mmap(void *at, u64 n, int prot, int source, u64 file, u64 offset, int placing) {
  return (void *)kernel_call(CALL_MMAP, (long)at, n, prot, source, file, offset, placing);
}

long munmap(void *at, u64 n) { return kernel_call(CALL_MUNMAP, (long)at, n, 0, 0, 0, 0, 0); }
long mprotect(void *at, u64 n, int prot) { return kernel_call(CALL_MPROTECT, (long)at, n, prot, 0, 0, 0, 0); }
long dontneed(void *at, u64 n) { return kernel_call(CALL_DONTNEED, (long)at, n, 0, 0, 0, 0, 0); }
long msync(void *at, u64 n) { return kernel_call(CALL_MSYNC, (long)at, n, 0, 0, 0, 0, 0); }
long truncate(u64 file, u64 length) { return kernel_call(CALL_TRUNCATE, file, length, 0, 0, 0, 0, 0); }
void yield(void) { kernel_call(CALL_YIELD, 0, 0, 0, 0, 0, 0, 0); }
long getpid(void) { return kernel_call(CALL_GETPID, 0, 0, 0, 0, 0, 0, 0); }

long wait(int *status) {
  struct results results = both(CALL_WAIT, 0, 0, 0, 0, 0, 0, 0);
  if (status) *status = results.second;
  return results.first;
}

void *pages(u64 count) { return mmap(0, count * PAGE, READ | WRITE, ANON, 0, 0, HINT); }

void say(const char *text) {
  u64 n = 0;
  while (text[n]) n++;
  write(text, n);
}

void say_number(long n) {
  char digits[24];
  int at = sizeof digits;
  u64 left = n < 0 ? -(u64)n : (u64)n;
  do digits[--at] = '0' + left % 10;
  while (left /= 10);
  if (n < 0) digits[--at] = '-';
  write(digits + at, sizeof digits - at);
}

/* What compilers call. */
void *memcpy(void *to, const void *from, u64 n) {
  for (u64 i = 0; i < n; i++) ((u8 *)to)[i] = ((const u8 *)from)[i];
  return to;
}

void *memset(void *to, int c, u64 n) {
  for (u64 i = 0; i < n; i++) ((u8 *)to)[i] = c;
  return to;
}
