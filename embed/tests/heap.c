/* The memory of libfamsync.a, where it is tried alone: that of malloc. */
#include <stdlib.h>

struct tried { _Bool ok; void *at; };
struct tried rattle_alloc(size_t length, size_t alignment);
struct tried rattle_realloc(void *at, size_t kept, size_t length, size_t alignment);
void rattle_dealloc(void *at);

static struct tried answer(void *at) {
  static char nothing;
  return (struct tried){at != NULL, at != NULL ? at : &nothing};
}

struct tried rattle_alloc(size_t length, size_t alignment) { return answer(malloc(length > 0 ? length : alignment)); }

struct tried rattle_realloc(void *at, size_t kept, size_t length, size_t alignment) {
  (void)kept;
  return answer(realloc(at, length > 0 ? length : alignment));
}

void rattle_dealloc(void *at) { free(at); }
