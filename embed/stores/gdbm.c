/* gdbm: gdbm_sync after each transaction. */
#include "workload.h"
#include <gdbm.h>
#include <stdlib.h>
#include <string.h>

static GDBM_FILE db;

static void must(int ok, const char *what) {
  if (!ok) refused(what, gdbm_strerror(gdbm_errno));
}

static void open_store(const char *mode, const char *path, enum opening how) {
  (void)mode;
  db = gdbm_open(path, 4096, how == TO_WRITE ? GDBM_WRCREAT : GDBM_READER, 0644, NULL);
  must(db != NULL, "open");
}

static void begin(void) {}

static void put(const char *key, size_t key_length, const void *value, size_t length) {
  must(gdbm_store(db, (datum){(char *)key, (int)key_length}, (datum){(char *)value, (int)length}, GDBM_REPLACE) == 0, "put");
}

static void drop(const char *key, size_t key_length) {
  must(gdbm_delete(db, (datum){(char *)key, (int)key_length}) == 0 || gdbm_errno == GDBM_ITEM_NOT_FOUND, "delete");
}

static void commit(void) { must(gdbm_sync(db) == 0, "sync"); }

static long get(const char *key, size_t key_length, void *to) {
  datum value = gdbm_fetch(db, (datum){(char *)key, (int)key_length});
  if (value.dptr == NULL) {
    must(gdbm_errno == GDBM_ITEM_NOT_FOUND, "get");
    return -1;
  }
  if (value.dsize > VALUE_MOST) refused("get", "a value of a length that was never put");
  memcpy(to, value.dptr, (size_t)value.dsize);
  free(value.dptr);
  return value.dsize;
}

static long count(void) {
  gdbm_count_t found;
  must(gdbm_count(db, &found) == 0, "count");
  return (long)found;
}

static void close_store(void) { must(gdbm_close(db) == 0, "close"); }

const struct store gdbm = {"gdbm", open_store, begin, put, drop, commit, get, count, close_store};
