/* The proved pager as a program of Linux: files of the host in place of disks, and its calls in place of the firmware's. It carries out a trace as the tracer does. */
#include "../kernel/kernel.h"

enum { HEAP = 512 << 20, WORDS = 7 };
enum { OPENAT = 56, LSEEK = 62, WRITE = 64, PREAD = 67, PWRITE = 68, FDATASYNC = 83, EXIT_GROUP = 94 };
enum { FOLDER_HERE = -100, READ_AND_WRITE = 2, TO_END = 2 };

_Noreturn void trace_run(void);
void walk_start(int is_sv48);

static u8 heap[HEAP] __attribute__((aligned(PAGE)));
static long files[MOST_DISKS];

static long host_call(long number, long a, long b, long c, long d) {
  register long a0 asm("a0") = a, a1 asm("a1") = b, a2 asm("a2") = c, a3 asm("a3") = d, a7 asm("a7") = number;
  asm volatile("ecall" : "+r"(a0) : "r"(a1), "r"(a2), "r"(a3), "r"(a7) : "memory");
  return a0;
}

void put_char(int c) {
  u8 byte = c;
  host_call(WRITE, 1, (long)&byte, 1, 0);
}

void power_off(int status) {
  for (;;) host_call(EXIT_GROUP, status, 0, 0, 0);
}

u64 disk_bytes(int disk) { return host_call(LSEEK, files[disk], 0, TO_END, 0); }
int disk_read(int disk, u64 at, void *to, u64 n) { return host_call(PREAD, files[disk], (long)to, n, at) == (long)n ? 0 : -1; }
int disk_write(int disk, u64 at, const void *from, u64 n) { return host_call(PWRITE, files[disk], (long)from, n, at) == (long)n ? 0 : -1; }
int disk_flush(int disk) { return host_call(FDATASYNC, files[disk], 0, 0, 0) ? -1 : 0; }

static u64 number_of(const char *text) {
  u64 n = 0;
  while (*text >= '0' && *text <= '9') n = 10 * n + (u64)(*text++ - '0');
  return n;
}

/* IMAGE SWAP TRACE FRAMES SLOTS MODE */
void linux_main(const u64 *stack) {
  const char **words = (const char **)(stack + 1);
  if (stack[0] != WORDS) panic("usage: pagemmu IMAGE SWAP TRACE FRAMES SLOTS MODE; words", stack[0], WORDS);
  for (int disk = 0; disk < MOST_DISKS; disk++) {
    files[disk] = host_call(OPENAT, FOLDER_HERE, (long)words[1 + disk], READ_AND_WRITE, 0);
    if (files[disk] < 0) panic("a file can't be opened; its place", disk, -files[disk]);
  }
  heap_start(heap, heap + HEAP, number_of(words[4]));
  const char *of_pager[] = {"pagemmu", "image", "swap", words[4], words[5], words[6]};
  pager_start(of_pager, 6);
  walk_start(!memcmp(words[6], "sv48", 4));
  trace_run();
}
