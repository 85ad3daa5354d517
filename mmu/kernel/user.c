/* The kernel's own accesses to the memory of the current process. Hardware makes them, as the process itself would; one that faults is the pager's,
   as for the process. */
#include "kernel.h"

enum { TRIES = 2 };

static int is_granted(struct reply reply) { return reply.kind == VALUE || reply.kind == DONE; }

/* Returns 0, or an error below 0 where the process may not read there. */
int load_user(u64 from, void *to, u64 n) {
  u8 *bytes = to;
  for (u64 i = 0; i < n; i++) {
    struct access access = hardware_load(from + i);
    if (access.cause) {
      struct reply reply = ask((struct request){LOAD, current->pid, from + i, 1});
      if (reply.kind != VALUE) return reply.kind == STALLED ? result_of(reply) : -EFAULT;
      access.value = reply.first;
    }
    bytes[i] = access.value;
  }
  return 0;
}

/* Stores zeros; likewise. */
int zero_user(u64 at, u64 n) {
  for (u64 i = 0; i < n; i++)
    for (int tries = 0; hardware_store(at + i, 0).cause; tries++) {
      struct reply reply = ask((struct request){TOUCH, current->pid, at + i});
      if (!is_granted(reply) || tries == TRIES) return -EFAULT;
    }
  return 0;
}
