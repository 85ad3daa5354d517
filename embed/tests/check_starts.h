/* A part of check.c: commits that are started and waited for. */
#ifndef KEFS_CHECK_STARTS_H
#define KEFS_CHECK_STARTS_H

static uint64_t started(const struct kefs_range *ranges, size_t count, size_t pages) {
  uint64_t ticket = 99;
  size_t taken = 99;
  DONE(kefs_commit_start(image, ranges, count, &taken, &ticket));
  CHECK(taken == pages);
  return ticket;
}

static uint64_t commits(void) {
  struct kefs_stat stat = {.size = sizeof stat};
  DONE(kefs_stat(image, &stat));
  return stat.commits;
}

static void started_commits_go_as_one_in_their_newest_form(void) {
  begin();
  struct kefs_range first = {a, 2 * PAGE}, third = {a + 2 * PAGE, PAGE}, both[] = {third, first};
  DONE(kefs_commit_wait(image, started(NULL, 0, 0)));
  unsigned long before = syncs();
  store(a, 1), store(a + PAGE, 1), store(a + 2 * PAGE, 1), store(b + PAGE, 1);
  uint64_t one = started(&first, 1, 2);
  CHECK(written() == 2 && syncs() == before && commits() == 0);
  store(a, 2), store(a + 2 * PAGE, 2);
  uint64_t two = started(both, 2, 2);
  CHECK(two > one && started(both, 2, 0) == two);
  store(a, 3), store(a + 3 * PAGE, 3);
  DONE(kefs_commit_wait(image, one));
  CHECK(commits() == 1 && syncs() > before);
  before = syncs();
  DONE(kefs_commit_wait(image, two)), DONE(kefs_commit_wait(image, one)), DONE(kefs_commit_wait(image, 0));
  CHECK(syncs() == before && written() == 3);
  RETURNS(EINVAL, kefs_commit_wait(image, two + 1));
  RETURNS(EINVAL, kefs_commit_start(image, NULL, 1, NULL, &one));
  RETURNS(KEFS_BAD_ARGUMENT, kefs_commit_start(image, NULL, 0, NULL, NULL));
  open_again();
  CHECK(a[0] == 2 && a[PAGE] == 1 && a[2 * PAGE] == 2 && a[3 * PAGE] == 0 && b[PAGE] == 0);
  DONE(kefs_close(image));
  DONE(kefs_open(&image, path, KEFS_RDONLY));
  RETURNS(KEFS_READ_ONLY, kefs_commit_start(image, NULL, 0, NULL, &one));
  DONE(kefs_close(image));
}

/* What comes next makes durable what was started, before its own. */
static void started_commits_are_not_lost(void) {
  begin();
  for (int k = 0; k < 8; k++) {
    struct kefs_range page = {a + k * PAGE, PAGE};
    store(a + k * PAGE, 1), store(b, (unsigned char)(k + 1));
    started(&page, 1, 1);
    if (k == 2) DONE(kefs_msync(image, a, 1));
    if (k == 3) CHECK(committed() == 1 && commits() == 3);
    if (k == 4) DONE(kefs_unmap(image, 0)), a = mapped(0);
  }
  store(a, 9), store(a + PAGE, 9);
  open_again();
  for (int k = 0; k < 8; k++) CHECK(a[k * PAGE] == 1);
  CHECK(b[0] == 4);
  store(a, 5);
  uint64_t ticket = started(NULL, 0, 1);
  DONE(kefs_unmap(image, 0));
  DONE(kefs_commit_wait(image, ticket));
  a = mapped(0);
  CHECK(a[0] == 5 && written() == 0);
  DONE(kefs_close(image));
}

static void a_roll_back_goes_to_what_was_started(void) {
  begin();
  store(a, 1), store(b + PAGE, 1), store(b + PAGE + 904, 1);
  started(NULL, 0, 2);
  store(a, 2), store(a + PAGE, 2), store(b + PAGE, 2);
  DONE(kefs_rollback(image, NULL, 0));
  CHECK(a[0] == 1 && a[PAGE] == 0 && b[PAGE] == 1 && b[PAGE + 904] == 0 && written() == 0);
  store(a, 3);
  DONE(kefs_commit_wait(image, started(NULL, 0, 1)));
  store(a, 4);
  DONE(kefs_rollback(image, NULL, 0));
  CHECK(a[0] == 3);
  open_again();
  CHECK(a[0] == 3 && b[PAGE] == 1);
  DONE(kefs_close(image));
}

/* One start takes as many pages as a commit, and several together as many as every commit. */
static void too_many_pages_are_not_started(void) {
  size_t every = image_sectors()->most, most = every, all = most + 7;
  make_image((uint32_t)all);
  open_and_map();
  uint64_t ticket = 0;
  for (size_t k = 0; k < all; k++) store(a + k * PAGE, 1);
  RETURNS(KEFS_TOO_MANY, kefs_commit_start(image, NULL, 0, NULL, &ticket));
  CHECK(ticket == 0 && written() == all && commits() == 0);
  struct kefs_range large = {a, most * PAGE}, rest = {a + most * PAGE, 7 * PAGE}, part = {a, (every - 3) * PAGE}, more = {a + (every - 3) * PAGE, 10 * PAGE};
  started(&large, 1, most);
  CHECK(commits() == 0);
  ticket = started(&rest, 1, 7); /* the first ones are committed for it */
  CHECK(commits() == 1);
  DONE(kefs_commit_wait(image, ticket));
  for (size_t k = 0; k < all; k++) store(a + k * PAGE, 2);
  started(&part, 1, every - 3);
  uint64_t before = commits();
  store(a, 3);
  started(&part, 1, 1);
  CHECK(commits() == before);
  DONE(kefs_commit_wait(image, started(&more, 1, 10)));
  CHECK(commits() >= before + 2);
  DONE(kefs_rollback(image, NULL, 0));
  open_again();
  for (size_t k = 0; k < all; k++) CHECK(a[k * PAGE] == (k == 0 ? 3 : k < every + 7 ? 2 : 1));
  DONE(kefs_close(image));
}

/* The pool */

static void a_tidy_brings_pages_home(void) {
  begin();
  unsigned long before = syncs();
  DONE(kefs_tidy(image));
  CHECK(syncs() == before);
  for (int k = 0; k < 8; k++) store(a + k * PAGE, (unsigned char)(k + 1));
  CHECK(committed() == 8);
  store(a, 99), store(b + PAGE, 1);
  struct kefs_range last = {b + PAGE, PAGE};
  uint64_t ticket = started(&last, 1, 1);
  before = syncs();
  DONE(kefs_tidy(image));
  CHECK(syncs() == before + (image_layout() == 4 ? 2 : 0) && written() == 1 && commits() == 1);
  before = syncs();
  DONE(kefs_tidy(image));
  CHECK(syncs() == before);
  DONE(kefs_rollback(image, NULL, 0));
  CHECK(a[0] == 1);
  DONE(kefs_commit_wait(image, ticket));
  open_again();
  for (int k = 0; k < 8; k++) CHECK(a[k * PAGE] == k + 1);
  CHECK(b[PAGE] == 1);
  DONE(kefs_tidy(image));
  for (int k = 0; k < 8; k++) CHECK(a[k * PAGE] == k + 1);
  open_again();
  for (int k = 0; k < 8; k++) CHECK(a[k * PAGE] == k + 1);
  DONE(kefs_close(image));
  DONE(kefs_open(&image, path, KEFS_RDONLY));
  RETURNS(KEFS_READ_ONLY, kefs_tidy(image));
  DONE(kefs_close(image));
}

/* Where no slot is free the others' pages are brought home first. */
static void all_slots_may_be_used(void) {
  size_t most = image_sectors()->most;
  make_image((uint32_t)most + 5);
  open_and_map();
  for (int round = 1; round <= 3; round++) {
    for (size_t k = 0; k < most; k++) store(a + (k + (size_t)round) * PAGE, (unsigned char)round);
    CHECK(committed() == most);
  }
  store(a, 9);
  CHECK(committed() == 1);
  open_again();
  for (size_t k = 0; k < most + 5; k++) CHECK(a[k * PAGE] == (k == 0 ? 9 : k < 3 ? k : k < most + 3 ? 3 : 0));
  DONE(kefs_close(image));
}

/* Threads make transfers between accounts of a page each, with one lock over the stores and the start, while another process's reader sums them up. */

enum { TELLERS = 16, TRANSFERS = 60, LEDGER = TELLERS };
static pthread_mutex_t bank = PTHREAD_MUTEX_INITIALIZER;
static uint64_t waited; /* the number of a transfer that is durable, with all before it */

static int64_t *account(unsigned char *from, int k) { return (int64_t *)(void *)(from + k * PAGE); }

static uint64_t transfer(unsigned *seed, uint64_t *number) {
  uint64_t ticket;
  int from = (int)(rand_r(seed) % TELLERS), to = (int)(rand_r(seed) % TELLERS), amount = (int)(rand_r(seed) % 1000);
  pthread_mutex_lock(&bank);
  *account(a, from) -= amount, *account(a, to) += amount;
  *number = (uint64_t)++*account(a, LEDGER);
  for (int k = 0; k <= LEDGER && (flags & KEFS_TRACK_CALLER) != 0; k++)
    if (k == from || k == to || k == LEDGER) DONE(kefs_mark_dirty(image, account(a, k), 8));
  DONE(kefs_commit_start(image, NULL, 0, NULL, &ticket));
  pthread_mutex_unlock(&bank);
  return ticket;
}

static void *make_transfers(void *of) {
  unsigned seed = (unsigned)(uintptr_t)of;
  for (int i = 0; i < TRANSFERS; i++) {
    uint64_t number, before, ticket = transfer(&seed, &number);
    DONE(kefs_commit_wait(image, ticket));
    do before = __atomic_load_n(&waited, __ATOMIC_SEQ_CST);
    while (before < number && !__atomic_compare_exchange_n(&waited, &before, number, 0, __ATOMIC_SEQ_CST, __ATOMIC_SEQ_CST));
  }
  return NULL;
}

static uint64_t summed_up(unsigned char *from) {
  int64_t sum = 0;
  for (int k = 0; k < TELLERS; k++) sum += *account(from, k);
  CHECK(sum == 0);
  return (uint64_t)*account(from, LEDGER);
}

static void threads_wait_for_their_transfers(void) {
  pthread_t tellers[TELLERS];
  kefs_image *reader;
  void *seen;
  make_image(LEDGER + 1);
  open_and_map();
  waited = 0;
  DONE(kefs_open(&reader, path, KEFS_SNAPSHOT));
  DONE(kefs_map(reader, 0, NULL, &seen, NULL));
  for (uintptr_t t = 0; t < TELLERS; t++) CHECK(pthread_create(&tellers[t], NULL, make_transfers, (void *)(t + 1)) == 0);
  for (uint64_t number = 0; number < TELLERS * TRANSFERS / 2; number = summed_up(seen)) {
    uint64_t least = __atomic_load_n(&waited, __ATOMIC_SEQ_CST);
    DONE(kefs_refresh(reader, NULL));
    CHECK(summed_up(seen) >= least);
  }
  for (int t = 0; t < TELLERS; t++) pthread_join(tellers[t], NULL);
  DONE(kefs_refresh(reader, NULL));
  CHECK(summed_up(seen) == TELLERS * TRANSFERS && written() == 0 && commits() <= TELLERS * TRANSFERS);
  DONE(kefs_close(reader));
  open_again();
  CHECK(summed_up(a) == TELLERS * TRANSFERS);
  DONE(kefs_close(image));
}
#endif
