/* Calls of the firmware (RISC-V SBI Specification): the console, the timer; the counters, and the power switch. */
#include "kernel.h"

enum { PUT_CHAR = 1, TIME = 0x54494D45 };
enum { TEST_DEVICE = 0x100000, PASS = 0x5555, FAIL = 0x3333 };

static void firmware(u64 extension, u64 argument) {
  register u64 a0 asm("a0") = argument, a1 asm("a1") = 0, a6 asm("a6") = 0, a7 asm("a7") = extension;
  asm volatile("ecall" : "+r"(a0), "+r"(a1) : "r"(a6), "r"(a7) : "memory");
}

void put_char(int c) { firmware(PUT_CHAR, c); }

void set_timer(u64 at) { firmware(TIME, at); }

u64 time_now(void) {
  u64 t;
  asm volatile("rdtime %0" : "=r"(t));
  return t;
}

u64 instructions(void) {
  u64 n;
  asm volatile("rdinstret %0" : "=r"(n));
  return n;
}

/* QEMU's test device ends it with that status. */
void power_off(int status) {
  *(volatile u32 *)TEST_DEVICE = status ? (u32)status << 16 | FAIL : PASS;
  for (;;) asm volatile("wfi");
}
