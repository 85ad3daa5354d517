/* Page faults: the pager brings the page, or says why the process may not have it. */
#include "kernel.h"

enum { SAME_FAULTS = 16, SIGILL = 4, SIGTRAP = 5, SIGBUS = 7, SIGSEGV = 11 };
enum code { BUS_ADRALN, SEGV_MAPERR, SEGV_ACCERR, BUS_ADRERR };
static const char *codes[] = {"BUS_ADRALN", "SEGV_MAPERR", "SEGV_ACCERR", "BUS_ADRERR"};

static const char *name_of(u64 cause) {
  switch (cause) {
  case ILLEGAL: return "illegal instruction";
  case BREAKPOINT: return "breakpoint";
  case FETCH_FAULT: return "fetch fault";
  case LOAD_FAULT: return "load fault";
  case STORE_FAULT: return "store fault";
  case NOT_FOR_GUESTS: return "instruction that a guest may not run";
  default: return "exception";
  }
}

static void tell(const char *what, u64 cause, u64 at) {
  put("kernel: process ");
  put_number(current->pid);
  put(" at ");
  put_hex(current->regs[0]);
  put(" ended: ");
  put(name_of(cause));
  put(" (cause ");
  put_number(cause);
  put(") at ");
  put_hex(at);
  put(what[0] ? ", " : "");
  put(what);
  put("\n");
}

/* Ends the process by a trap that is no page fault. The status is a shell's for the signal that Linux would send. */
void end_by(u64 cause, u64 at) {
  tell("", cause, at);
  process_end(128 + (cause == BREAKPOINT ? SIGTRAP : SIGILL));
}

/* An instruction needs its own pages and those of its data in frames at once, and the pager promises one. Where there are too few frames each of them pushes out
   another, and the process faults for ever with the same registers. */
static int takes_no_step(struct process *process) {
  if (memcmp(process->fault_regs, process->regs, sizeof process->regs)) {
    memcpy(process->fault_regs, process->regs, sizeof process->regs);
    process->repeats = 0;
  }
  return ++process->repeats > SAME_FAULTS;
}

/* An instruction of two bytes may begin between the multiples of four that the pager fetches at; its page is the same. */
static struct reply bring(u64 cause, u64 at) {
  u64 pid = current->pid;
  switch (cause) {
  case FETCH_FAULT: return ask((struct request){FETCH, pid, at & ~3ul});
  case LOAD_FAULT: return ask((struct request){LOAD, pid, at, 1});
  default: return ask((struct request){TOUCH, pid, at});
  }
}

static void end_by_fault(struct reply reply, u64 cause, u64 at) {
  if (reply.kind == FAULT) {
    tell(codes[reply.second], cause, at);
    process_end(128 + (reply.second == BUS_ADRALN || reply.second == BUS_ADRERR ? SIGBUS : SIGSEGV));
  } else {
    tell(result_of(reply) == -EIO ? "a device failed" : "no frame or slot is left for its page", cause, at);
    process_end(128 + SIGBUS);
  }
}

void fault(u64 cause, u64 at) {
  u64 began = time_now();
  struct reply reply = bring(cause, at);
  slice_extend(time_now() - began);
  if (reply.kind != VALUE && reply.kind != DONE) return end_by_fault(reply, cause, at);
  if (!takes_no_step(current)) return;
  tell("after 16 faults without a step: there are too few frames for the pages of one instruction", cause, at);
  process_end(128 + SIGBUS);
}
