/* One workload, and a check of what it left, over the stores that have a `struct store` here. */
#ifndef WORKLOAD_H
#define WORKLOAD_H
#include <stddef.h>

/* What every store is told: how large it may grow in bytes, how many records come, and the longest value in bytes. */
enum { ROOM = 2 << 20, KEYS = 2000, VALUE_MOST = 4096 };

/* How a store is opened. */
enum opening {
  TO_WRITE,          /* it is made where it is missing */
  TO_READ,           /* the store may repair itself first */
  TO_READ_UNREPAIRED /* it may not */
};

/* One store. Each function ends the program by `refused` where the store reports a failure. */
struct store {
  const char *name;
  /* `mode` is the store's name and options of its own, as lmdb-writemap. */
  void (*open)(const char *mode, const char *path, enum opening how);
  void (*begin)(void);
  void (*put)(const char *key, size_t key_length, const void *value, size_t length);
  void (*drop)(const char *key, size_t key_length); /* the key may be missing */
  void (*commit)(void); /* durable as the mode says */
  /* The value's length, at most VALUE_MOST, or -1 where the key is missing. */
  long (*get)(const char *key, size_t key_length, void *to);
  /* How many records a walk through all of them finds. */
  long (*count)(void);
  void (*close)(void);
};
extern const struct store lmdb, kyoto, tokyo, gdbm, sqlite, rewritten, renamed;

/* Says what a store reported and ends the program with status 3. */
_Noreturn void refused(const char *what, const char *why);
#endif
