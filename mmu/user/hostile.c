/* Children that each do what no program should: each has to end alone, and what the parent has stays as it was. Then forks until there is no number left. */
#include "user.h"

enum { PAGES = 8, FIRST = 77, BEYOND = 80, KERNEL = 0x80200000, KINDS = 14 };
#define DO(words) asm volatile(words ::: "memory", "t0")

static void privileged(int kind) {
  if (kind == 0) DO("csrr t0, sstatus");
  if (kind == 1) DO("csrw satp, zero");
  if (kind == 2) DO("sret");
  if (kind == 3) DO("wfi");
  if (kind == 4) DO(".word 0x22000073"); /* a fence of the hypervisor */
  if (kind == 5) DO("ebreak");
  if (kind == 6) DO(".word 0");
}

static void astray(int kind) {
  if (kind == 7) DO("jr zero");
  if (kind == 8) ((void (*)(void))KERNEL)();
  if (kind == 9) *(volatile u64 *)KERNEL = 1;
  if (kind == 10) (void)*(volatile u64 *)-8ul;
  if (kind == 11) *(volatile u64 *)0x800000000000 = 1;
}

/* Calls with arguments that mean nothing, and in the end without its own text. */
static void call_madly(void) {
  kernel_call(1, 0x12345000, 1l << 60, 0, 0, 0, 0, 0);
  kernel_call(4, -1, -1, -1, 99, -1, -1, 99);
  kernel_call(4, 0, -1, 7, 0, 0, 0, 0);
  kernel_call(8, 0x10000, -1, 0, 0, 0, 0, 0);
  kernel_call(99, 0, 0, 0, 0, 0, 0, 0);
  munmap((void *)0x10000, 0x10000);
}

static void misbehave(int kind) {
  privileged(kind);
  astray(kind);
  if (kind == 12) (void)*(volatile u64 *)((u64)pages(1) + PAGE - 4); /* over the end of a mapping */
  if (kind == 13) call_madly();
  exit(0);
}

int main(void) {
  u64 (*own)[PAGE / 8] = pages(PAGES), wrong = 0, killed = 0, forks = 0;
  for (u64 i = 0; i < PAGES; i++) own[i][0] = i + FIRST;
  for (int kind = 0; kind < KINDS; kind++) {
    long child = fork();
    if (child == 0) misbehave(kind);
    int status;
    killed += wait(&status) == child && status > 128;
  }
  long last = 0;
  while (forks < BEYOND && (last = fork()) > 0) forks++;
  if (last == 0)
    for (;;) yield();
  for (u64 i = 0; i < PAGES; i++) wrong += own[i][0] != i + FIRST;
  say("of 14 children killed: ");
  say_number(killed);
  say("; forks then: ");
  say_number(forks);
  say(", the next says ");
  say_number(last);
  say("; wrong words: ");
  say_number(wrong);
  say("\n");
  end_all(0);
}
