/* The two stages of translation. The first stage of a process is the pager's tables as they lie in its frames; the numbers in them count frames from 0, and the second
   stage says where those lie. Frame 0 is the page of zeros: it is mapped without W, so that a mistake faults. */
#include "kernel.h"

enum { V = 1, R = 2, W = 4, X = 8, U = 16, A = 64, D = 128, LEAF = V | R | W | X | U | A | D };
enum { SV39 = 8, SV48 = 9, ENTRIES = 512, LOW_TABLES = 128 };
enum { PTE_PAGE = 10, CALLS_AND_COUNTERS = 7, VSSTATUS_UXL_64 = 2, TIMER_ENABLE = 0x20 };
#define ALIGNED(n) __attribute__((aligned(n)))

static u64 second_root[4 * ENTRIES] ALIGNED(4 * PAGE), second_middle[ENTRIES] ALIGNED(PAGE), second_low[LOW_TABLES][ENTRIES] ALIGNED(PAGE);
static u64 mode = SV39;

static u64 entry(void *to, u64 bits) { return (u64)to / PAGE << PTE_PAGE | bits; }

static void map_frames(void) {
  u64 count = frames_bytes / PAGE;
  for (u64 n = 0; n < count; n++) second_low[n / ENTRIES][n % ENTRIES] = entry(frames_at + PAGE * n, n ? LEAF : LEAF & ~W);
  for (u64 n = 0; ENTRIES * n < count; n++) second_middle[n] = entry(second_low[n], V);
  second_root[0] = entry(second_middle, V);
  fence_second_stage();
}

/* The guest gets no trap and no counter of its own, and hardware may set no A and no D for it (henvcfg.ADUE is 0). */
static void set_registers(void) {
  u64 hgatp = (u64)SV39 << 60 | (u64)second_root / PAGE;
  asm volatile("csrw 0x680, %0" ::"r"(hgatp));
  asm volatile("csrw 0x602, zero\n csrw 0x603, zero\n csrw 0x60a, zero\n csrw 0x606, zero"); /* hedeleg, hideleg, henvcfg, hcounteren */
  asm volatile("csrw 0x200, %0" ::"r"((u64)VSSTATUS_UXL_64 << 32));                           /* vsstatus */
  asm volatile("csrs sie, %0" ::"r"((u64)TIMER_ENABLE));
}

/* The pager learns what is touched by its own faults: hardware that sets A or D would hide stores from it, and an msync would lose them. So it has to
   fault at a leaf without A, and leave the leaf so (the extension Svade). For a moment the guest's frame 0 is the table of this trial. */
static void want_svade(void) {
  static u64 trial[ENTRIES] ALIGNED(PAGE);
  u64 leaf = entry(0, LEAF & ~A);
  trial[0] = leaf;
  u64 was = second_low[0][0];
  second_low[0][0] = entry(trial, LEAF);
  fence_second_stage();
  asm volatile("csrw 0x280, %0" ::"r"((u64)SV39 << 60)); /* vsatp */
  fence_first_stage();
  struct access found = hardware_load(8);
  second_low[0][0] = was;
  fence_second_stage();
  fence_first_stage();
  if (found.cause == LOAD_FAULT && trial[0] == leaf) return;
  put("kernel: this processor sets the accessed and dirty bits of page tables by itself, which the pager has to: ");
  put("run it as -cpu rv64,h=true,svade=on,svadu=off, with QEMU 8.1 or later\n");
  power_off(2);
}

void stages_start(int is_sv48) {
  if (frames_bytes / PAGE > LOW_TABLES * ENTRIES) panic("more frames than the second stage maps", frames_bytes / PAGE, LOW_TABLES * ENTRIES);
  map_frames();
  set_registers();
  want_svade();
  mode = is_sv48 ? SV48 : SV39;
}

/* The next access of the guest is by the tables below this root. */
void use_root(u64 frame) {
  asm volatile("csrw 0x280, %0" ::"r"(mode << 60 | frame)); /* vsatp */
  fence_first_stage();
}

/* Where the addresses of programs end. */
u64 user_end(void) { return 1ul << (mode == SV48 ? 47 : 38); }
