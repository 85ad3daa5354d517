/* Processes: who is there, who goes on, and who waits for whom. The pager gives the number of a process that exited to the next one, and a parent asks for a
   child by its number; so a process that ended gives up its pages at once, and its number when its parent has seen it. */
#include "kernel.h"

enum { SLICE = 100000 }; /* ticks of the timer: 10 ms */

static struct process table[PROCESSES + 1];
struct process *current;
u64 slices_ended;
static u64 slice_end;
static int worst_status;

struct process *process_begin(struct reply made, u64 parent) {
  struct process *process = &table[made.first];
  *process = (struct process){.root = made.root, .pid = made.first, .parent = parent, .state = READY};
  return process;
}

static void release(struct process *process) {
  process->state = FREE;
  ask((struct request){EXIT, process->pid});
}

static struct process *child_of(struct process *parent, int is_ended) {
  for (struct process *child = table + 1; child <= table + PROCESSES; child++)
    if (child->state != FREE && child->parent == parent->pid && (!is_ended || child->state == ENDED)) return child;
  return 0;
}

/* Gives a process that waits a child that ended, or the news that it has none. Returns whether it goes on. */
static int answer_wait(struct process *process) {
  struct process *child = child_of(process, 1);
  if (!child && child_of(process, 0)) return 0;
  process->state = READY;
  process->regs[10] = child ? (long)child->pid : -ECHILD;
  process->regs[11] = child ? child->status : 0;
  if (child) release(child);
  return 1;
}

void process_wait(void) {
  current->state = WAITING;
  if (!answer_wait(current)) process_choose();
}

/* The children of a process that ends are nobody's: those that have ended are done with, and the others will be when they end. */
static void leave_children(struct process *process) {
  for (struct process *child; (child = child_of(process, 1));) release(child);
  for (struct process *child; (child = child_of(process, 0));) child->parent = 0;
}

void process_end(u64 status) {
  struct process *process = current;
  leave_children(process);
  if (process->parent) {
    ask((struct request){MUNMAP, process->pid, 0x10000, user_end() - 0x10000});
    process->state = ENDED;
    process->status = status;
    struct process *parent = &table[process->parent];
    if (parent->state == WAITING) answer_wait(parent);
  } else {
    if (status > (u64)worst_status) worst_status = status & 255;
    release(process);
  }
  process_choose();
}

void end_all(int status) {
  tell_counts();
  power_off(status);
}

/* The next process that is ready goes on, for a slice of time. Where there is none, all have ended: a process waits only for children. */
void process_choose(void) {
  u64 from = current ? current->pid : PROCESSES;
  for (u64 i = 0; i < PROCESSES; i++) {
    struct process *process = &table[(from + i) % PROCESSES + 1];
    if (process->state != READY) continue;
    current = process;
    slice_end = time_now() + SLICE;
    set_timer(slice_end);
    return;
  }
  end_all(worst_status);
}

/* The pager's time is not the process's: else one in few frames would lose its pages to the next before an instruction of its is done. */
void slice_extend(u64 time) { set_timer(slice_end += time); }
