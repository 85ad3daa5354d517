/* The pager: the proved program `pagemmu`, on a stack of its own. It serves one request after another: its `read` of standard input takes the request, or
   switches to the kernel's stack until there is one, and what it writes is the reply. */
#include "kernel.h"

enum { STACK = 8 << 20, SAVED = 208 };

int main(int count, char **words);

static u8 stack[STACK] __attribute__((aligned(16)));
static u64 kernel_side, pager_side;
static const char **given_words;
static int word_count, has_ended, status;
static struct { const u8 *bytes; u64 left; } input;
static struct { u8 bytes[256]; u64 length; } output;
u64 requests_made;

static void run(void) {
  has_ended = 0;
  status = main(0, 0);
  has_ended = 1;
  switch_stacks(&pager_side, kernel_side);
  panic("the pager goes on past its end", 0, 0);
}

/* Lets the pager go on until it wants more input. */
static void go_on(void) {
  output.length = 0;
  switch_stacks(&kernel_side, pager_side);
  if (!has_ended) return;
  for (u64 i = 0; i < output.length; i++) put_char(output.bytes[i]);
  panic("the pager has ended", status, 0);
}

/* `pagemmu` with these words: it boots the machine on the disks. */
void pager_start(const char **words, int count) {
  given_words = words;
  word_count = count;
  u64 *top = (u64 *)(stack + STACK - SAVED);
  top[0] = (u64)run; /* where the first switch to this stack returns to */
  pager_side = (u64)top;
  go_on();
  if (!frames_at) panic("the pager took no block of all frames", 0, 0);
}

/* A request is carried out. It may have changed tables and what frames hold, so what hardware keeps of them is let go. */
struct reply ask(struct request request) {
  struct reply reply;
  input.bytes = (const u8 *)&request;
  input.left = sizeof request;
  requests_made++;
  go_on();
  if (output.length != sizeof reply) panic("the pager's reply is of another length", output.length, request.kind);
  memcpy(&reply, output.bytes, sizeof reply);
  fence_first_stage();
  if (reply.kind != HALTED) return reply;
  put("kernel: an msync failed, and the pager has halted; start again, and the files are as after the last msync that returned 0\n");
  power_off(3);
}

/* What a call returns: a number, or an error's below 0. A stall for want of memory is ENOMEM, and one of a device EIO. */
long result_of(struct reply reply) {
  enum { NO_SWAP = 2 };
  switch (reply.kind) {
  case PROCESS: case ADDRESS: case VALUE: return reply.first;
  case DONE: return 0;
  case REFUSED: return -(long)reply.first;
  case STALLED: return reply.first <= NO_SWAP ? -ENOMEM : -EIO;
  case FAULT: return -EFAULT;
  default: return -EINVAL;
  }
}

/* What the pager's object calls for its words, its input and its output. */
long rattle_arg(u64 i, char *to, u64 room) {
  if (i >= (u64)word_count) return -1;
  u64 n = strlen(given_words[i]);
  memcpy(to, given_words[i], n < room ? n : room);
  return n > room ? -2 : (long)n;
}

long read(int file, void *to, u64 room) {
  while (!input.left) switch_stacks(&pager_side, kernel_side);
  u64 n = input.left < room ? input.left : room;
  memcpy(to, input.bytes, n);
  input.bytes += n;
  input.left -= n;
  return n;
}

long write(int file, const void *from, u64 n) {
  u64 room = sizeof output.bytes - output.length;
  memcpy(output.bytes + output.length, from, n < room ? n : room);
  output.length += n < room ? n : room;
  return n;
}
