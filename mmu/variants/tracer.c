/* A trace by hardware: each load, store and fetch is made by the tables of the pager, as a process would make it, and one that faults is the pager's; then hardware is
   asked again, and has to agree. All other requests are the pager's. They stand on the third disk, in records which the replies take the place of. */
#include "../kernel/kernel.h"

enum { STORE = TRUNCATE + 1, END, RECORDS = 512, WIDEST = 8 };

struct record {
  union {
    struct request request; /* also a store, of a value of so many bytes */
    struct { struct reply reply; u64 is_by_hardware; };
  };
  u64 unused[7];
};
_Static_assert(sizeof(struct record) == 128, "whole records in a sector");

typedef struct access load(u64 at), store(u64 at, u64 value);
static load *const loads[WIDEST + 1] = {[1] = hardware_load, [2] = hardware_load_2, [4] = hardware_load_4, [8] = hardware_load_8};
static store *const stores[WIDEST + 1] = {[1] = hardware_store, [2] = hardware_store_2, [4] = hardware_store_4, [8] = hardware_store_8};
static u64 roots[PROCESSES + 1], root_used, accesses, let_through, differing;

static u64 width_of(const struct request *it) { return it->kind == FETCH ? 4 : it->len; }

/* Whether hardware is asked: a number that is not aligned is a fault of the machine, and hardware may have it. */
static int is_for_hardware(const struct request *it) {
  if (it->kind != LOAD && it->kind != FETCH && it->kind != STORE) return 0;
  return it->pid <= PROCESSES && roots[it->pid] && it->addr % width_of(it) == 0;
}

static struct access by_hardware(const struct request *it) {
  if (it->kind == FETCH) return hardware_fetch(it->addr);
  return it->kind == LOAD ? loads[it->len](it->addr) : stores[it->len](it->addr, it->value);
}

/* What the pager is asked: that a store may be made, or why the number can't be aligned there. */
static struct reply served(struct request it) {
  if (it.kind == STORE) it.kind = it.addr % it.len ? LOAD : TOUCH;
  struct reply reply = ask(it);
  if (reply.kind == PROCESS) roots[reply.first] = reply.root;
  if (it.kind == EXIT && reply.kind == DONE) roots[it.pid] = 0;
  return reply;
}

static struct reply told(const struct request *it, struct access found) {
  return it->kind == STORE ? (struct reply){DONE} : (struct reply){VALUE, found.value, width_of(it)};
}

static void tell_difference(const struct request *it, struct access found) {
  differing++;
  put("kernel: what the pager granted hardware does not: kind, process, address ");
  put_number(it->kind);
  put(" ");
  put_number(it->pid);
  put(" ");
  put_hex(it->addr);
  put(", found ");
  put_hex(found.cause ? found.cause : found.value);
  put("\n");
}

static void access(struct record *record) {
  struct request it = record->request;
  if (root_used != roots[it.pid]) use_root(root_used = roots[it.pid]);
  accesses++;
  struct access found = by_hardware(&it);
  record->is_by_hardware = !found.cause;
  let_through += !found.cause;
  if (!found.cause) {
    record->reply = told(&it, found);
    return;
  }
  if (found.cause != LOAD_FAULT && found.cause != STORE_FAULT && found.cause != FETCH_FAULT) panic("an access ended by another cause than a page fault; cause, address", found.cause, it.addr);
  record->reply = served(it);
  if (record->reply.kind != VALUE && record->reply.kind != DONE) return;
  found = by_hardware(&it);
  if (found.cause || (it.kind != STORE && found.value != record->reply.first)) tell_difference(&it, found);
}

/* Returns whether the trace goes on. */
static int carry_out(struct record *record) {
  if (record->request.kind == END) return 0;
  if (is_for_hardware(&record->request)) {
    access(record);
  } else {
    record->reply = served(record->request);
    record->is_by_hardware = 0;
  }
  return 1;
}

_Noreturn void trace_run(void) {
  static struct record records[RECORDS];
  int goes_on = 1;
  for (u64 at = 0; goes_on; at += sizeof records) {
    u64 left = disk_bytes(TRACE) - at, some = left < sizeof records ? left : sizeof records;
    if (!some || disk_read(TRACE, at, records, some)) panic("the trace can't be read, or has no end", at, some);
    for (u64 i = 0; goes_on && i < some / sizeof *records; i++) goes_on = carry_out(&records[i]);
    if (disk_write(TRACE, at, records, some)) panic("the replies can't be written", at, some);
  }
  put("kernel: accesses ");
  put_number(accesses);
  put(", let through by hardware ");
  put_number(let_through);
  put(", differing ");
  put_number(differing);
  put("\n");
  power_off(differing != 0);
}

/* The kernel chooses no process: it was given none. */
void __wrap_process_choose(void) { trace_run(); }
