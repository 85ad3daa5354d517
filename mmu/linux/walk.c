/* A walk of the pager's tables in software, where no hardware has them (RISC-V Privileged Specification, "Virtual Address Translation Process"): an access of user mode, which
   sets neither A nor D. */
#include "../kernel/kernel.h"

enum { V = 1, R = 2, W = 4, X = 8, U = 16, A = 64, D = 128, ENTRIES = 512, PTE_PAGE = 10 };

static int levels;
static u64 root;

void walk_start(int is_sv48) { levels = is_sv48 ? 4 : 3; }
void use_root(u64 frame) { root = frame; }
void fence_first_stage(void) {}

static u8 *frame_bytes(u64 frame) {
  if (frame >= frames_bytes / PAGE) panic("an entry of the pager's tables leads out of the frames", frame, root);
  return frames_at + PAGE * frame;
}

/* Where the bytes of an address are; 0 where they may not be had. */
static u8 *walked(u64 at, u64 wanted) {
  int unused = 64 - 12 - 9 * levels;
  if ((long)(at << unused) >> unused != (long)at) return 0;
  u64 table = root;
  for (int level = levels - 1; level >= 0; level--) {
    u64 entry = ((u64 *)frame_bytes(table))[at >> (12 + 9 * level) & (ENTRIES - 1)];
    if (!(entry & V)) return 0;
    table = entry >> PTE_PAGE;
    if (!(entry & (R | W | X))) continue;
    if (level || (entry & wanted) != wanted) return 0;
    if (wanted & W && !table) panic("the page of zeros may be stored to", at, entry);
    return frame_bytes(table) + at % PAGE;
  }
  return 0;
}

#define LOAD_AS(name, type, permission, fault)                                                             \
  struct access name(u64 at) {                                                                             \
    u8 *bytes = walked(at, V | U | A | permission);                                                        \
    return bytes ? (struct access){*(type *)bytes} : (struct access){.cause = fault};                      \
  }
#define STORE_AS(name, type)                                                                               \
  struct access name(u64 at, u64 value) {                                                                  \
    u8 *bytes = walked(at, V | U | A | D | R | W);                                                         \
    if (bytes) *(type *)bytes = value;                                                                     \
    return (struct access){.cause = bytes ? 0 : STORE_FAULT};                                              \
  }

LOAD_AS(hardware_load, u8, R, LOAD_FAULT)
LOAD_AS(hardware_load_2, u16, R, LOAD_FAULT)
LOAD_AS(hardware_load_4, u32, R, LOAD_FAULT)
LOAD_AS(hardware_load_8, u64, R, LOAD_FAULT)
LOAD_AS(hardware_fetch, u32, X, FETCH_FAULT)
STORE_AS(hardware_store, u8)
STORE_AS(hardware_store_2, u16)
STORE_AS(hardware_store_4, u32)
STORE_AS(hardware_store_8, u64)
