/* What pagers that lie share: where the leaf of a page is. */
#pragma once
#include "../kernel/kernel.h"

enum { ENTRY_PAGE = 10, TOP_LEVEL = 2 };

struct reply __real_ask(struct request request);

static u64 *leaf_of(u64 root, u64 addr) {
  for (int level = TOP_LEVEL;; level--) {
    u64 *entry = (u64 *)(frames_at + PAGE * root) + (addr >> (12 + 9 * level) & 511);
    if (!level) return entry;
    root = *entry >> ENTRY_PAGE;
  }
}

/* The request is carried out, and where it is of this kind and was granted, some bits of the page's leaf are others than the pager set. */
static struct reply ask_and_lie(struct request request, enum kind kind, u64 bits) {
  static u64 roots[PROCESSES + 1];
  struct reply reply = __real_ask(request);
  if (reply.kind == PROCESS) roots[reply.first] = reply.root;
  if (request.kind != kind || (reply.kind != DONE && reply.kind != VALUE)) return reply;
  *leaf_of(roots[request.pid], request.addr) ^= bits;
  fence_first_stage();
  return reply;
}
