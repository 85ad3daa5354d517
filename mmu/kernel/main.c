/* The start, and what a trap is handed to. */
#include "kernel.h"

enum { HEAP_END = 0x9c000000, MOST_WORDS = 8 };
extern u8 bss_end[];

u64 *trap(u64 cause, u64 value) {
  count_trap(cause);
  switch (cause) {
  case TIMER:
    slices_ended++;
    process_choose();
    break;
  case CALL: call(); break;
  case FETCH_FAULT: case LOAD_FAULT: case STORE_FAULT: fault(cause, value); break;
  case GUEST_FETCH_FAULT: case GUEST_LOAD_FAULT: case GUEST_STORE_FAULT:
    panic("an entry of the pager's tables leads out of the frames, or lets the page of zeros be written; cause, address", cause, value);
  default: end_by(cause, value);
  }
  use_root(current->root);
  count_return();
  return current->regs;
}

void kernel_trapped(u64 cause, u64 at, u64 value) {
  put_hex(value);
  panic(": the kernel trapped; cause, place", cause, at);
}

/* The words that QEMU was given with -append, which stand in the device tree: PROGRAMS FRAMES SLOTS MODE. */
static int words_in(const u8 *tree, const char **words) {
  static char text[128];
  u64 length = tree[4] << 24 | tree[5] << 16 | tree[6] << 8 | tree[7], at = 0;
  while (at + 8 < length && memcmp(tree + at, "pagemmu ", 8)) at++;
  memcpy(text, tree + at, sizeof text - 1);
  int count = 0;
  for (char *t = text; *t && count < MOST_WORDS;) {
    words[count++] = t;
    while (*t && *t != ' ') t++;
    if (*t) *t++ = 0;
  }
  return count;
}

static u64 number_of(const char *text) {
  u64 n = 0;
  while (*text >= '0' && *text <= '9') n = 10 * n + (u64)(*text++ - '0');
  return n;
}

/* Hardware without the hypervisor extension has no second stage: its registers trap. */
static void want_hypervisor(void) {
  if (!hypervisor_trial().cause) return;
  put("kernel: this processor has no hypervisor extension: run it as -cpu rv64,h=true,svade=on,svadu=off\n");
  power_off(2);
}

void kernel_main(u64 hart, const u8 *tree) {
  const char *words[MOST_WORDS];
  if (words_in(tree, words) != 5) panic("-append wants: pagemmu PROGRAMS FRAMES SLOTS MODE", 0, 0);
  u64 programs = number_of(words[1]);
  const char *of_pager[] = {words[0], "image", "swap", words[2], words[3], words[4]};
  put("kernel: pagemmu with ");
  put(words[2]);
  put(" frames and ");
  put(words[3]);
  put(" slots, ");
  put(words[4]);
  put("\n");
  want_hypervisor();
  disks_start();
  heap_start(bss_end, (u8 *)(u64)HEAP_END, number_of(words[2]));
  pager_start(of_pager, 6);
  stages_start(!memcmp(words[4], "sv48", 4));
  for (u64 file = 0; file < programs; file++) program_start(file, programs);
  current = 0;
  process_choose();
  use_root(current->root);
  count_return();
  enter(current->regs);
}
