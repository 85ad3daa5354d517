/* A pager that lies: the root frame of each process is another one, by one bit. Tests have to notice. */
#include "../kernel/kernel.h"

struct reply __real_ask(struct request request);

struct reply __wrap_ask(struct request request) {
  struct reply reply = __real_ask(request);
  if (reply.kind == PROCESS) reply.root ^= 1;
  return reply;
}
