/* Memory for the pager: blocks of powers of two, each with its class before it. What is given back is kept for the next of its class;
   large blocks are taken once, at the start. The block that holds all frames is aligned to pages, since hardware walks the tables in it. */
#include "kernel.h"

enum { HEAD = 16, LEAST = 5, LARGEST_KEPT = 12 };

u8 *frames_at;
u64 frames_bytes;
static u8 *heap, *heap_end;
static void *kept[LARGEST_KEPT + 1];

void heap_start(u8 *from, u8 *to, u64 frames) {
  heap = from;
  heap_end = to;
  frames_bytes = frames * PAGE;
}

static u8 *cut(u64 bytes, u64 align) {
  u8 *at = (u8 *)(((u64)heap + align - 1) & -align);
  if (bytes > (u64)(heap_end - at)) return 0;
  heap = at + bytes;
  return at;
}

static u64 class_of(u64 bytes) {
  u64 class = LEAST;
  while (1ul << class < bytes) class++;
  return class;
}

static void *take(u64 bytes) {
  if (bytes == frames_bytes && !frames_at) return frames_at = cut(bytes, PAGE);
  u64 class = class_of(bytes + HEAD);
  if (class <= LARGEST_KEPT && kept[class]) {
    void **block = kept[class];
    kept[class] = *block;
    return block;
  }
  u8 *block = cut(class <= LARGEST_KEPT ? 1ul << class : bytes + HEAD, HEAD);
  if (!block) return 0;
  *(u64 *)block = class;
  return block + HEAD;
}

static void give(void *block) {
  if (block == frames_at) return;
  u64 class = *(u64 *)((u8 *)block - HEAD);
  if (class > LARGEST_KEPT) return;
  *(void **)block = kept[class];
  kept[class] = block;
}

/* What the pager's object calls. A block is two numbers: whether there is one, and where. */
struct block { u64 is_there, at; };

struct block rattle_alloc(u64 size, u64 align) {
  void *at = take(size);
  return (struct block){at != 0, at ? (u64)at : align};
}

void rattle_dealloc(void *at) { give(at); }

struct block rattle_realloc(void *at, u64 old, u64 size, u64 align) {
  struct block new = rattle_alloc(size, align);
  if (new.is_there) {
    memcpy((void *)new.at, at, old < size ? old : size);
    give(at);
  }
  return new;
}
