/* A bank: accounts in file 0, a ledger in file 1. Each transfer changes two accounts' pages and the ledger's, and one
   kefs_commit makes it durable. `bank IMAGE TRACKER run SEED` transfers until it is killed and writes the number of each
   transfer that was acknowledged. `bank IMAGE TRACKER check` tells the ledger's number and whether both files fit: the
   accounts sum to 0, and the ledger's digest is the sum of each account times its place, which half a transfer would
   change. TRACKER is scan, signal, caller or lazy, or threads: by scan, of several threads that start their transfers and wait for them. */
#include "kefs.h"
#include <pthread.h>
#include <stdio.h>
#include <stdlib.h>
#include <string.h>
#include <unistd.h>

enum { PAGES = 256, PER_PAGE = 512, ACCOUNTS = PAGES * PER_PAGE };
struct ledger { uint64_t number, from, to, amount; int64_t digest; };

static int failed(const char *call, int result) {
  fprintf(stderr, "bank: %s: %s: %s\n", call, kefs_name(result), kefs_strerror(result));
  return 1;
}

static int check(const int64_t *accounts, const struct ledger *ledger) {
  int64_t sum = 0, digest = 0;
  for (int64_t i = 0; i < ACCOUNTS; i++) sum += accounts[i], digest += accounts[i] * (i + 1);
  printf("%lu %s\n", (unsigned long)ledger->number, sum == 0 && digest == ledger->digest ? "whole" : "TORN");
  return 0;
}

static int acknowledge(uint64_t number) {
  char line[32];
  int n = sprintf(line, "%lu\n", (unsigned long)number);
  return write(1, line, (size_t)n) == n;
}

/* The stores are named for the one tracker that has to be told of them. */
static int make_transfer(kefs_image *image, int64_t *accounts, struct ledger *ledger) {
  uint64_t a = (uint64_t)random() % ACCOUNTS, b = (uint64_t)random() % ACCOUNTS, amount = (uint64_t)random() % 1000;
  accounts[a] -= (int64_t)amount;
  accounts[b] += (int64_t)amount;
  ledger->digest += (int64_t)amount * ((int64_t)b - (int64_t)a);
  ledger->number++, ledger->from = a, ledger->to = b, ledger->amount = amount;
  int result = kefs_mark_dirty(image, &accounts[a], sizeof *accounts);
  if (result == KEFS_OK) result = kefs_mark_dirty(image, &accounts[b], sizeof *accounts);
  return result == KEFS_OK ? kefs_mark_dirty(image, ledger, sizeof *ledger) : result;
}

static int run(kefs_image *image, int64_t *accounts, struct ledger *ledger) {
  for (;;) {
    int result = make_transfer(image, accounts, ledger);
    if (result == KEFS_OK) result = kefs_commit(image, NULL, 0, NULL);
    if (result != KEFS_OK) return failed("transfer", result);
    if (!acknowledge(ledger->number)) return 1;
  }
}

enum { TELLERS = 8 };
struct bank { kefs_image *image; int64_t *accounts; struct ledger *ledger; pthread_mutex_t lock; };

static void *tell(void *of) {
  struct bank *bank = of;
  for (;;) {
    uint64_t ticket;
    pthread_mutex_lock(&bank->lock);
    int result = make_transfer(bank->image, bank->accounts, bank->ledger);
    uint64_t number = bank->ledger->number;
    if (result == KEFS_OK) result = kefs_commit_start(bank->image, NULL, 0, NULL, &ticket);
    pthread_mutex_unlock(&bank->lock);
    if (result == KEFS_OK) result = kefs_commit_wait(bank->image, ticket);
    if (result != KEFS_OK || !acknowledge(number)) exit(failed("transfer", result));
  }
}

static int run_threads(kefs_image *image, int64_t *accounts, struct ledger *ledger) {
  static struct bank bank = {.lock = PTHREAD_MUTEX_INITIALIZER};
  pthread_t tellers[TELLERS];
  bank.image = image, bank.accounts = accounts, bank.ledger = ledger;
  for (int t = 0; t < TELLERS; t++)
    if (pthread_create(&tellers[t], NULL, tell, &bank) != 0) return 1;
  return pthread_join(tellers[0], NULL);
}

static unsigned flags_of(const char *tracker) {
  return strcmp(tracker, "signal") == 0 ? KEFS_TRACK_SIGNAL : strcmp(tracker, "caller") == 0 ? KEFS_TRACK_CALLER
    : strcmp(tracker, "lazy") == 0 ? KEFS_TRACK_SCAN | KEFS_LAZY : KEFS_TRACK_SCAN;
}

int main(int argc, char **argv) {
  kefs_image *image;
  void *accounts, *ledger;
  if (argc < 4) return 2;
  int result = kefs_open(&image, argv[1], flags_of(argv[2]));
  if (result == KEFS_OK) result = kefs_map(image, 0, NULL, &accounts, NULL);
  if (result == KEFS_OK) result = kefs_map(image, 1, NULL, &ledger, NULL);
  if (result != KEFS_OK) return failed(argv[1], result);
  if (strcmp(argv[3], "check") == 0) return check(accounts, ledger);
  srandom((unsigned)atoi(argv[4]));
  return strcmp(argv[2], "threads") == 0 ? run_threads(image, accounts, ledger) : run(image, accounts, ledger);
}
