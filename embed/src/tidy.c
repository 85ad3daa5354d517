/* Tidying: the pages of a pool are brought home, so that all of its slots are free. */
#include "internal.h"
#include <errno.h>

static int result_of(uint32_t answer) {
  switch (answer) {
    case FAMSYNC_OK: return KEFS_OK;
    case FAMSYNC_NO_ROOM: case FAMSYNC_NO_MEMORY: return ENOMEM;
    default: return KEFS_NOT_IMAGE; /* another program has written over the layout: no other refusal is left */
  }
}

/* The proved plan: after its calls the pool has no page, and the image stands for the same files at each moment. */
int plan_tidy(struct kefs_image *image, struct famsync_handle *handle) {
  struct plan *scratch = &image->scratch, *plan = &image->plan;
  begin_heap(&image->heap);
  uint32_t answer = famsync_tidy(handle, image->bytes, image->sectors, scratch->calls, scratch->room, scratch->rows, scratch->room, &plan->used,
                                 plan->calls, plan->room, plan->rows, plan->room);
  end_heap();
  return answer == FAMSYNC_OK ? KEFS_OK : fail(image, result_of(answer), "no plan to tidy the pool (%u)", (unsigned)answer);
}

int kefs_tidy(kefs_image *image) {
  int result = enter(image);
  if (result != KEFS_OK) return result;
  if (image->read_only) return leave(image, fail(image, KEFS_READ_ONLY, "kefs_tidy"));
  result = tidy(image);
  if (image->halted) result = go_on(image, result);
  return leave(image, result);
}
