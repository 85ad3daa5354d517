/* workload MODE FILE run SEED TRANSACTIONS   goes on with so many transactions, and closes the store
   workload MODE FILE check SEED [unrepaired] opens what is there to read, and prints one line:
     ok N            everything is as after transaction N
     torn N WHY      it is as after no transaction; N is what the store has for the last one's number
     refused WHAT    the store itself reports a failure
   MODE begins with the name of a store, and says how a transaction is made durable. Transaction t puts PUTS records under keys that the
   seed and t give, with values that t and the key give; drops one key; and puts t under "counter". So the check builds what the
   store has to hold after transaction N anew, and compares every key and the number of records. */
#define _GNU_SOURCE
#include "workload.h"
#include <dlfcn.h>
#include <stdint.h>
#include <stdio.h>
#include <stdlib.h>
#include <string.h>

enum { PUTS = 8, VALUE = 100, TRANSACTIONS_MOST = 1000000 };
static const struct store *const stores[] = {&lmdb, &kyoto, &tokyo, &gdbm, &sqlite, &rewritten, &renamed}, *store;
static uint64_t seed;
static uint64_t last_put[KEYS]; /* of each key the transaction that put it last, 0 where it has to be missing */

_Noreturn void refused(const char *what, const char *why) {
  printf("refused %s: %s\n", what, why);
  exit(3);
}

/* A number that the seed, a and b give (SplitMix64). */
static uint64_t mixed(uint64_t a, uint64_t b) {
  uint64_t z = seed * 0x9E3779B97F4A7C15u + a * 0xD1342543DE82EF95u + b * 0xBF58476D1CE4E5B9u;
  z = (z ^ (z >> 30)) * 0xBF58476D1CE4E5B9u;
  z = (z ^ (z >> 27)) * 0x94D049BB133111EBu;
  return z ^ (z >> 31);
}

static size_t key_text(uint64_t key, char text[32]) { return (size_t)snprintf(text, 32, "key%08lu", (unsigned long)key); }

static void value_of(uint64_t transaction, uint64_t key, unsigned char value[VALUE]) {
  for (size_t i = 0; i < VALUE; i += 8) {
    uint64_t word = mixed(transaction, key * VALUE_MOST + i);
    memcpy(value + i, &word, VALUE - i < 8 ? VALUE - i : 8);
  }
}

static uint64_t key_put(uint64_t transaction, uint64_t place) { return mixed(transaction, place) % KEYS; }
static uint64_t key_dropped(uint64_t transaction) { return mixed(transaction, PUTS) % KEYS; }

/* Takes note of what a transaction changes. */
static void expect(uint64_t transaction) {
  for (uint64_t place = 0; place < PUTS; place++) last_put[key_put(transaction, place)] = transaction;
  last_put[key_dropped(transaction)] = 0;
}

static void carry_out(uint64_t transaction) {
  unsigned char value[VALUE];
  char key[32];
  store->begin();
  for (uint64_t place = 0; place < PUTS; place++) {
    uint64_t number = key_put(transaction, place);
    value_of(transaction, number, value);
    store->put(key, key_text(number, key), value, VALUE);
  }
  store->drop(key, key_text(key_dropped(transaction), key));
  store->put("counter", 7, &transaction, sizeof transaction);
  store->commit();
}

/* The number under "counter"; 0 where there is none. */
static uint64_t counter(void) {
  unsigned char found[VALUE_MOST];
  uint64_t number = 0;
  if (store->get("counter", 7, found) == sizeof number) memcpy(&number, found, sizeof number);
  return number;
}

static int torn(uint64_t transaction, const char *why, uint64_t number) {
  printf("torn %lu %s %lu\n", (unsigned long)transaction, why, (unsigned long)number);
  return 4;
}

static int check(void) {
  unsigned char found[VALUE_MOST], value[VALUE];
  char key[32];
  uint64_t transaction = counter();
  long expected = 1;
  if (transaction == 0 || transaction > TRANSACTIONS_MOST) return torn(transaction, "no counter", 0);
  for (uint64_t t = 1; t <= transaction; t++) expect(t);
  for (uint64_t number = 0; number < KEYS; number++) {
    long length = store->get(key, key_text(number, key), found);
    if (last_put[number] == 0) {
      if (length >= 0) return torn(transaction, "there is a key", number);
      continue;
    }
    expected++;
    value_of(last_put[number], number, value);
    if (length != VALUE || memcmp(found, value, VALUE) != 0) return torn(transaction, "missing or other bytes: key", number);
  }
  long had = store->count();
  if (had != expected) return torn(transaction, "records:", (uint64_t)had);
  printf("ok %lu\n", (unsigned long)transaction);
  return 0;
}

/* Tells the recorder, where it is preloaded, of each transaction that was acknowledged. */
static int run(uint64_t transactions) {
  void (*acknowledged)(uint32_t) = (void (*)(uint32_t))dlsym(RTLD_DEFAULT, "recorder_acknowledged");
  uint64_t first = counter() + 1;
  for (uint64_t t = first; t < first + transactions; t++) {
    carry_out(t);
    if (acknowledged != NULL) acknowledged((uint32_t)t);
  }
  store->close();
  return 0;
}

static const struct store *store_of(const char *mode) {
  for (size_t i = 0; i < sizeof stores / sizeof *stores; i++)
    if (strncmp(mode, stores[i]->name, strlen(stores[i]->name)) == 0) return stores[i];
  return NULL;
}

int main(int argc, char **argv) {
  int is_run = argc == 6 && strcmp(argv[3], "run") == 0;
  int is_check = argc >= 5 && strcmp(argv[3], "check") == 0;
  if ((!is_run && !is_check) || (store = store_of(argv[1])) == NULL) {
    fprintf(stderr, "usage: workload MODE FILE run SEED TRANSACTIONS | workload MODE FILE check SEED [unrepaired]\n");
    return 2;
  }
  seed = strtoull(argv[4], NULL, 10);
  store->open(argv[1], argv[2], is_run ? TO_WRITE : argc == 6 ? TO_READ_UNREPAIRED : TO_READ);
  return is_run ? run(strtoull(argv[5], NULL, 10)) : check();
}
