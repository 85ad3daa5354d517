/* LMDB. lmdb: durable by fdatasync. lmdb-writemap: durable by msync. lmdb-writemap-nosync: not durable. */
#include "workload.h"
#include <lmdb.h>
#include <string.h>

static MDB_env *env;
static MDB_txn *txn;
static MDB_dbi dbi;

static void must(int result, const char *what) {
  if (result != 0) refused(what, mdb_strerror(result));
}

/* To read it takes no locks, so that a state that a crash left is only looked at. */
static void open_store(const char *mode, const char *path, enum opening how) {
  unsigned flags = MDB_NOSUBDIR | MDB_NOTLS;
  if (how != TO_WRITE) flags |= MDB_RDONLY | MDB_NOLOCK;
  else if (strstr(mode, "writemap") != NULL) flags |= MDB_WRITEMAP;
  if (strstr(mode, "nosync") != NULL) flags |= MDB_NOSYNC;
  must(mdb_env_create(&env), "create");
  must(mdb_env_set_mapsize(env, ROOM), "map size");
  must(mdb_env_open(env, path, flags, 0644), "open");
  must(mdb_txn_begin(env, NULL, how == TO_WRITE ? 0 : MDB_RDONLY, &txn), "begin");
  must(mdb_dbi_open(txn, NULL, 0, &dbi), "database");
}

/* The transaction of the opening serves the first `get`s; a writer's first transaction goes on with it. */
static void begin(void) {
  if (txn == NULL) must(mdb_txn_begin(env, NULL, 0, &txn), "begin");
}

static void put(const char *key, size_t key_length, const void *value, size_t length) {
  MDB_val k = {key_length, (void *)key}, v = {length, (void *)value};
  must(mdb_put(txn, dbi, &k, &v, 0), "put");
}

static void drop(const char *key, size_t key_length) {
  MDB_val k = {key_length, (void *)key};
  int result = mdb_del(txn, dbi, &k, NULL);
  must(result == MDB_NOTFOUND ? 0 : result, "delete");
}

static void commit(void) {
  must(mdb_txn_commit(txn), "commit");
  txn = NULL;
}

static long get(const char *key, size_t key_length, void *to) {
  MDB_val k = {key_length, (void *)key}, v;
  int result = mdb_get(txn, dbi, &k, &v);
  if (result == MDB_NOTFOUND) return -1;
  must(result, "get");
  if (v.mv_size > VALUE_MOST) refused("get", "a value of a length that was never put");
  memcpy(to, v.mv_data, v.mv_size);
  return (long)v.mv_size;
}

static long count(void) {
  MDB_cursor *cursor;
  MDB_val k, v;
  long found = 0;
  int result;
  must(mdb_cursor_open(txn, dbi, &cursor), "cursor");
  while ((result = mdb_cursor_get(cursor, &k, &v, MDB_NEXT)) == 0) found++;
  if (result != MDB_NOTFOUND) must(result, "walk");
  return found;
}

static void close_store(void) { mdb_env_close(env); }

const struct store lmdb = {"lmdb", open_store, begin, put, drop, commit, get, count, close_store};
