/* What is counted: the instructions of programs, each of which hardware let through by the pager's tables, and the traps to the kernel by their causes. */
#include "kernel.h"

static u64 began, run, fetches, loads, stores, calls;

void count_return(void) { began = instructions(); }

void count_trap(u64 cause) {
  run += instructions() - began;
  fetches += cause == FETCH_FAULT;
  loads += cause == LOAD_FAULT;
  stores += cause == STORE_FAULT;
  calls += cause == CALL;
}

static void tell(const char *what, u64 n) {
  put(what);
  put_number(n);
}

void tell_counts(void) {
  tell("kernel: instructions of programs ", run);
  tell(", faults of fetches ", fetches);
  tell(", of loads ", loads);
  tell(", of stores ", stores);
  tell(", calls ", calls);
  tell(", ends of slices ", slices_ended);
  tell(", requests to the pager ", requests_made);
  put("\n");
}
