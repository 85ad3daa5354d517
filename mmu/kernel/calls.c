/* The calls of programs (mmu/user/user.h): the number in a7, up to seven words in a0 to a6, and the result in a0. */
#include "kernel.h"

enum call { WRITE = 1, END, CLONE, MAP, UNMAP, PROTECT, DISCARD, SYNC, WAIT, YIELD, GETPID, END_ALL, RESIZE };
enum { MOST_WRITTEN = 65536 };

static long console_write(u64 from, u64 n) {
  for (u64 i = 0; i < n; i++) {
    u8 byte;
    if (i == MOST_WRITTEN) return i;
    int error = load_user(from + i, &byte, 1);
    if (error) return error;
    put_char(byte);
  }
  return n;
}

static long fork_current(void) {
  struct reply made = ask((struct request){FORK, current->pid});
  if (made.kind != PROCESS) return result_of(made);
  struct process *child = process_begin(made, current->pid);
  memcpy(child->regs, current->regs, sizeof child->regs);
  child->regs[10] = 0;
  return child->pid;
}

static long map(const u64 *words, u64 pid) {
  return result_of(ask((struct request){MMAP, pid, words[0], words[1], words[2], words[3], words[4], words[5], words[6]}));
}

static long range_call(enum kind kind, const u64 *words, u64 pid) {
  return result_of(ask((struct request){kind, pid, words[0], words[1], .prot = words[2]}));
}

static long resize(const u64 *words) { return result_of(ask((struct request){TRUNCATE, .value = words[0], .len = words[1]})); }

/* The calls that return to the process that made them. */
static long result(enum call number, const u64 *words, u64 pid) {
  switch (number) {
  case WRITE: return console_write(words[0], words[1]);
  case CLONE: return fork_current();
  case MAP: return map(words, pid);
  case UNMAP: return range_call(MUNMAP, words, pid);
  case PROTECT: return range_call(MPROTECT, words, pid);
  case DISCARD: return range_call(DONTNEED, words, pid);
  case SYNC: return range_call(words[2] ? MSYNC_ASYNC : MSYNC, words, pid);
  case RESIZE: return resize(words);
  case GETPID: return pid;
  default: return -ENOSYS;
  }
}

void call(void) {
  u64 *regs = current->regs, number = regs[17];
  regs[0] += 4;
  switch (number) {
  case END: return process_end(regs[10] & 255);
  case WAIT: return process_wait();
  case YIELD: return process_choose();
  case END_ALL: end_all(regs[10] & 255);
  default: regs[10] = result(number, regs + 10, current->pid);
  }
}
