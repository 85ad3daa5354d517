/* Memory for the calls of libfamsync.a, which ask for it by three names that whoever links the library gives. An image has memory of its own for them, mapped when
   it is opened: so no commit asks the program's malloc, which may be what the program keeps in the image. All that a call asks for is given back when it returns.
   Blocks are cut one behind the other, and each call begins anew. */
#include "internal.h"
#include <string.h>

/* What this thread's call cuts blocks from; NULL where it makes none. */
static _Thread_local struct heap *heap;

enum { ALIGNMENT = 16 }; /* none is asked for that is wider */

/* Where there is no memory, `at` is the address of a byte that nobody uses. */
struct tried { _Bool ok; void *at; };
static unsigned char nothing[ALIGNMENT];

struct tried rattle_alloc(size_t length, size_t alignment);
struct tried rattle_realloc(void *at, size_t kept, size_t length, size_t alignment);
void rattle_dealloc(void *at);

void begin_heap(struct heap *begun) {
  begun->used = begun->last = 0;
  heap = begun;
}

void end_heap(void) { heap = NULL; }

/* A block of no bytes takes some too: each has an address of its own. */
static size_t taken_by(size_t length) { return length < ALIGNMENT ? ALIGNMENT : (length + ALIGNMENT - 1) / ALIGNMENT * ALIGNMENT; }

/* Whether the block that begins at `from` may have this length. */
static int has_place(size_t from, size_t length) { return length <= heap->length && taken_by(length) <= heap->length - from; }

struct tried rattle_alloc(size_t length, size_t alignment) {
  (void)alignment;
  if (heap == NULL || !has_place(heap->used, length)) return (struct tried){0, nothing};
  heap->last = heap->used;
  heap->used += taken_by(length);
  return (struct tried){1, heap->at + heap->last};
}

/* The last block gets longer or shorter where it is. */
struct tried rattle_realloc(void *at, size_t kept, size_t length, size_t alignment) {
  int is_last = heap != NULL && at == heap->at + heap->last;
  if (is_last && !has_place(heap->last, length)) return (struct tried){0, nothing};
  if (is_last) return heap->used = heap->last + taken_by(length), (struct tried){1, at};
  struct tried tried = rattle_alloc(length, alignment);
  if (tried.ok) memcpy(tried.at, at, kept);
  return tried;
}

/* The last block's room is used again at once, as that of a sort is, and any other's when the next call begins. */
void rattle_dealloc(void *at) {
  if (heap != NULL && at == heap->at + heap->last) heap->used = heap->last;
}
