/* A kernel that counts instructions of the pager, from a request to its reply, without the disks' part of them. Its requests are told apart by their kinds, and by what they did
   to the disks. */
#include "../kernel/kernel.h"

enum { KINDS = TRUNCATE + 1, READ = 1, WRITTEN = 2, CASES = 4 };
static const char *kinds[] = {"spawn", "fork", "exit", "mmap", "munmap", "mprotect", "dontneed", "msync", "msync async", "load", "fetch", "touch", "truncate"};
static const char *cases[] = {"no disk", "a page read", "a page given up and written", "one written and one read"};
static struct sum { u64 count, total, least, most; } sums[KINDS][CASES];
static u64 of_disks, done_to_disks;

struct reply __real_ask(struct request request);
int __real_disk_read(int disk, u64 at, void *to, u64 n), __real_disk_write(int disk, u64 at, const void *from, u64 n), __real_disk_flush(int disk);
void __real_tell_counts(void);

static int measured(u64 began, int result) {
  of_disks += instructions() - began;
  return result;
}

int __wrap_disk_read(int disk, u64 at, void *to, u64 n) {
  done_to_disks |= READ;
  return measured(instructions(), __real_disk_read(disk, at, to, n));
}

int __wrap_disk_write(int disk, u64 at, const void *from, u64 n) {
  done_to_disks |= WRITTEN;
  return measured(instructions(), __real_disk_write(disk, at, from, n));
}

int __wrap_disk_flush(int disk) { return measured(instructions(), __real_disk_flush(disk)); }

struct reply __wrap_ask(struct request request) {
  of_disks = done_to_disks = 0;
  u64 began = instructions();
  struct reply reply = __real_ask(request);
  u64 spent = instructions() - began - of_disks;
  struct sum *sum = &sums[request.kind][done_to_disks];
  if (!sum->count++ || spent < sum->least) sum->least = spent;
  if (spent > sum->most) sum->most = spent;
  sum->total += spent;
  return reply;
}

static void tell(const char *kind, const char *what, const struct sum *sum) {
  put("kernel: ");
  put(kind);
  put(", ");
  put(what);
  put(": requests ");
  put_number(sum->count);
  put(", instructions of each ");
  put_number(sum->least);
  put(" to ");
  put_number(sum->most);
  put(", on average ");
  put_number(sum->total / sum->count);
  put("\n");
}

void __wrap_tell_counts(void) {
  __real_tell_counts();
  for (int kind = 0; kind < KINDS; kind++)
    for (int i = 0; i < CASES; i++)
      if (sums[kind][i].count) tell(kinds[kind], cases[i], &sums[kind][i]);
}
