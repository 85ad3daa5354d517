/* SQLite, a table of keys and values. sqlite: its rollback journal, which is cut off after each transaction; sqlite-delete, where it is removed, and
   sqlite-persist, where its head is written over. sqlite-wal: its write-ahead log, which is brought home each 16 pages. Either is a second file, and belongs to
   what there is to read. By default (sqlite-wal-psow) SQLite takes for granted that a write of a part of a sector leaves the rest of it as it is, which a torn one
   does not; in sqlite-wal each transaction begins a sector of the log. With -large at its end each transaction changes BALLAST pages too, with a cache of few. */
#include "workload.h"
#include <sqlite3.h>
#include <stdio.h>
#include <string.h>

enum { BALLAST = 1300, BALLAST_LENGTH = 3900 };
static int is_large;
static sqlite3 *db;
static sqlite3_stmt *setter, *dropper, *getter, *counter;

static void must(int is, const char *what) {
  if (!is) refused(what, sqlite3_errmsg(db));
}

static void carry_out(const char *text) { must(sqlite3_exec(db, text, NULL, NULL, NULL) == SQLITE_OK, text); }

static sqlite3_stmt *prepared(const char *text) {
  sqlite3_stmt *statement;
  must(sqlite3_prepare_v2(db, text, -1, &statement, NULL) == SQLITE_OK, text);
  return statement;
}

/* Rows of a page each, which a transaction by its number changes, all of them. */

static void make_ballast(void) {
  char rows[200];
  snprintf(rows, sizeof rows, "with recursive n(id) as (select 1 union all select id + 1 from n where id < %d) insert or ignore into ballast(id) select id from n", BALLAST);
  carry_out("create table if not exists ballast(id integer primary key, value blob)");
  carry_out(rows);
}

/* Binds the value that the transaction gives to each row. */
static sqlite3_stmt *prepared_ballast(const char *text, const void *transaction) {
  unsigned char value[BALLAST_LENGTH];
  sqlite3_stmt *statement = prepared(text);
  for (size_t i = 0; i < sizeof value; i++) value[i] = (unsigned char)(((const unsigned char *)transaction)[0] + i % 7);
  must(sqlite3_bind_blob(statement, 1, value, sizeof value, SQLITE_TRANSIENT) == SQLITE_OK, "ballast");
  return statement;
}

static void put_ballast(const void *transaction) {
  sqlite3_stmt *statement = prepared_ballast("update ballast set value = ?", transaction);
  must(sqlite3_step(statement) == SQLITE_DONE, "update");
  sqlite3_finalize(statement);
}

static void check_ballast(const void *transaction) {
  sqlite3_stmt *statement = prepared_ballast("select count(*) from ballast where value = ?", transaction);
  must(sqlite3_step(statement) == SQLITE_ROW, "count");
  if (sqlite3_column_int(statement, 0) != BALLAST) refused("ballast", "rows of another transaction");
  sqlite3_finalize(statement);
}

static const char *journal_of(const char *mode) {
  if (strstr(mode, "wal") != NULL) return "pragma journal_mode=wal; pragma wal_autocheckpoint=16";
  if (strstr(mode, "delete") != NULL) return "pragma journal_mode=delete; pragma synchronous=extra";
  return strstr(mode, "persist") != NULL ? "pragma journal_mode=persist" : "pragma journal_mode=truncate";
}

static void open_store(const char *mode, const char *path, enum opening how) {
  char name[4200];
  is_large = strstr(mode, "-large") != NULL;
  snprintf(name, sizeof name, "file:%s?psow=%d", path, strncmp(mode, "sqlite-wal", 10) != 0 || strcmp(mode, "sqlite-wal-psow") == 0);
  must(sqlite3_open_v2(name, &db, SQLITE_OPEN_URI | SQLITE_OPEN_READWRITE | (how == TO_WRITE ? SQLITE_OPEN_CREATE : 0), NULL) == SQLITE_OK, "open");
  carry_out("pragma synchronous=full");
  carry_out(journal_of(mode));
  if (is_large) carry_out("pragma cache_size=20");
  if (how == TO_WRITE) carry_out("create table if not exists records(key text primary key, value blob)");
  if (how == TO_WRITE && is_large) make_ballast();
  setter = prepared("insert or replace into records values(?, ?)"), dropper = prepared("delete from records where key = ?");
  getter = prepared("select value from records where key = ?"), counter = prepared("select count(*) from records");
}

static void begin(void) { carry_out("begin immediate"); }

static void bind_key(sqlite3_stmt *statement, const char *key, size_t length) {
  must(sqlite3_reset(statement) == SQLITE_OK, "reset");
  must(sqlite3_bind_text(statement, 1, key, (int)length, SQLITE_TRANSIENT) == SQLITE_OK, "key");
}

static void put(const char *key, size_t key_length, const void *value, size_t length) {
  bind_key(setter, key, key_length);
  must(sqlite3_bind_blob(setter, 2, value, (int)length, SQLITE_TRANSIENT) == SQLITE_OK, "value");
  must(sqlite3_step(setter) == SQLITE_DONE, "put");
  if (is_large && strcmp(key, "counter") == 0) put_ballast(value);
}

static void drop(const char *key, size_t key_length) {
  bind_key(dropper, key, key_length);
  must(sqlite3_step(dropper) == SQLITE_DONE, "delete");
}

static void commit(void) { carry_out("commit"); }

static long get(const char *key, size_t key_length, void *to) {
  bind_key(getter, key, key_length);
  int result = sqlite3_step(getter), length = -1;
  must(result == SQLITE_ROW || result == SQLITE_DONE, "get");
  if (result == SQLITE_ROW) {
    length = sqlite3_column_bytes(getter, 0);
    if (length > VALUE_MOST) refused("get", "a value of a length that was never put");
    if (length > 0) memcpy(to, sqlite3_column_blob(getter, 0), (size_t)length);
  }
  must(sqlite3_reset(getter) == SQLITE_OK, "reset");
  if (is_large && length > 0 && strcmp(key, "counter") == 0) check_ballast(to);
  return length;
}

static long count(void) {
  must(sqlite3_step(counter) == SQLITE_ROW, "count");
  return (long)sqlite3_column_int64(counter, 0);
}

static void close_store(void) {
  sqlite3_finalize(setter), sqlite3_finalize(dropper), sqlite3_finalize(getter), sqlite3_finalize(counter);
  must(sqlite3_close(db) == SQLITE_OK, "close");
}

const struct store sqlite = {"sqlite", open_store, begin, put, drop, commit, get, count, close_store};
