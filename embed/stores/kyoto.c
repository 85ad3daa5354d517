/* Kyoto Cabinet, its hash database. kyoto: a hard synchronization after each transaction. kyoto-transactions: its own hard
   transactions, with its log. */
#include "workload.h"
#include <kclangc.h>
#include <stdint.h>
#include <stdio.h>
#include <string.h>

static KCDB *db;
static int has_transactions;

static void must(int ok, const char *what) {
  if (!ok) refused(what, kcecodename(kcdbecode(db)));
}

static void open_store(const char *mode, const char *path, enum opening how) {
  char tuned[4096];
  uint32_t flags = how == TO_WRITE ? KCOWRITER | KCOCREATE : how == TO_READ ? KCOREADER : KCOREADER | KCONOREPAIR;
  snprintf(tuned, sizeof tuned, "%s#type=kch#msiz=%d#bnum=%d", path, ROOM, 2 * KEYS);
  db = kcdbnew();
  has_transactions = strstr(mode, "transactions") != NULL;
  must(kcdbopen(db, tuned, flags), "open");
}

static void begin(void) {
  if (has_transactions) must(kcdbbegintran(db, 1), "begin");
}

static void put(const char *key, size_t key_length, const void *value, size_t length) {
  must(kcdbset(db, key, key_length, value, length), "put");
}

static void drop(const char *key, size_t key_length) {
  must(kcdbremove(db, key, key_length) || kcdbecode(db) == KCENOREC, "delete");
}

static void commit(void) {
  if (has_transactions) must(kcdbendtran(db, 1), "commit");
  else must(kcdbsync(db, 1, NULL, NULL), "synchronize");
}

static long get(const char *key, size_t key_length, void *to) {
  int32_t length = kcdbgetbuf(db, key, key_length, to, VALUE_MOST);
  if (length < 0 && kcdbecode(db) != KCENOREC) must(0, "get");
  return length;
}

static long count(void) {
  KCCUR *cursor = kcdbcursor(db);
  long found = 0;
  size_t length;
  kccurjump(cursor);
  for (char *key; (key = kccurgetkey(cursor, &length, 1)) != NULL; found++) kcfree(key);
  if (kccurecode(cursor) != KCENOREC) refused("walk", kcecodename(kccurecode(cursor)));
  if (found != kcdbcount(db)) refused("count", "other than walked");
  return found;
}

static void close_store(void) { must(kcdbclose(db), "close"); }

const struct store kyoto = {"kyoto", open_store, begin, put, drop, commit, get, count, close_store};
