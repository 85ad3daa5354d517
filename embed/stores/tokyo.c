/* Tokyo Cabinet, its hash database. tokyo: tchdbsync after each transaction. tokyo-transactions: its own synchronized
   transactions, with its log. */
#include "workload.h"
#include <stdlib.h>
#include <string.h>
#include <tchdb.h>

static TCHDB *db;
static int has_transactions;

static void must(int ok, const char *what) {
  if (!ok) refused(what, tchdberrmsg(tchdbecode(db)));
}

static void open_store(const char *mode, const char *path, enum opening how) {
  db = tchdbnew();
  has_transactions = strstr(mode, "transactions") != NULL;
  must(tchdbsetxmsiz(db, ROOM), "map size");
  if (how == TO_WRITE) must(tchdbtune(db, 2 * KEYS, 4, 10, 0), "tune");
  must(tchdbopen(db, path, (how == TO_WRITE ? HDBOWRITER | HDBOCREAT : HDBOREADER) | (has_transactions ? HDBOTSYNC : 0)), "open");
}

static void begin(void) {
  if (has_transactions) must(tchdbtranbegin(db), "begin");
}

static void put(const char *key, size_t key_length, const void *value, size_t length) {
  must(tchdbput(db, key, (int)key_length, value, (int)length), "put");
}

static void drop(const char *key, size_t key_length) {
  must(tchdbout(db, key, (int)key_length) || tchdbecode(db) == TCENOREC, "delete");
}

static void commit(void) {
  if (has_transactions) must(tchdbtrancommit(db), "commit");
  else must(tchdbsync(db), "sync");
}

static long get(const char *key, size_t key_length, void *to) {
  int length = tchdbget3(db, key, (int)key_length, to, VALUE_MOST);
  if (length < 0 && tchdbecode(db) != TCENOREC) must(0, "get");
  return length;
}

static long count(void) {
  long found = 0;
  int length;
  must(tchdbiterinit(db), "walk");
  for (void *key; (key = tchdbiternext(db, &length)) != NULL; found++) free(key);
  if (tchdbecode(db) != TCENOREC && tchdbecode(db) != TCESUCCESS) must(0, "walk");
  if ((uint64_t)found != tchdbrnum(db)) refused("count", "other than walked");
  return found;
}

static void close_store(void) { must(tchdbclose(db), "close"); }

const struct store tokyo = {"tokyo", open_store, begin, put, drop, commit, get, count, close_store};
