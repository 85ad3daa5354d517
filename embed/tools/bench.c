/* bench commits FOLDER PAGES COMMITS [hot|spread] [SYNC]: times commits of so many pages of a file of 1,024 pages, of several modes in turn, commit by
   commit in random order, so that a noisy device is noisy for each. The pages are the same ones each time (hot) or others (spread, unless given). SYNC is
   how many microseconds each sync takes at least, so that a slower device can be had, alike for all. It prints a line for each mode: its name, the quartiles
   and the mean of the time of a commit in microseconds, and how many syncs one makes.

   kefs     kefs_commit alone, its stores made before
   calls    the device calls of that commit alone, as they were made, from ready buffers: what its plan costs at least
   stored   the stores and kefs_commit; msync: stores to a shared mapping and msync(MS_SYNC), which is not atomic; wal, delete: as many rows of a page in
            SQLite, with a log and synchronous=FULL, and with a rollback journal; lmdb: in LMDB, as it is by default; each where its library is there.
            SQLite's log has its length before the first one, and is written over from its beginning, as it is in a program that has run for a while: a log that
            was cut would grow in each commit

   bench grow FOLDER PAGES COMMITS [SYNC]: times commits that append so many pages, 1,024 at most, to a file of 1,024 pages and what was appended before,
   in turn as above, and prints such lines: kefs is kefs_resize, the stores and kefs_commit; wal and lmdb insert as many rows of a page; plain writes the
   pages to a file by one call and syncs it, which is not atomic. SQLite's log is as above, and it checkpoints as it does by default.

   bench worn FOLDER MIB COMMITS [SYNC]: times commits of one random page of one file of 4 MiB, and of one of MIB MiB, in turn, with each tracker, after
   a store to each 2 MiB of both; with scan, of all that is mapped and (ranges) of a range of that page.

   bench open FOLDER MIB: times of kefs_open and kefs_map of one file of so many MiB, read whole and KEFS_LAZY; then the median time of
   a commit of one page, fresh and after a store to each 2 MiB, and how much memory of the process all that takes.

   bench threads FOLDER THREADS COMMITS [SYNC]: so many threads make as many commits each, of a page of its own: by kefs_commit_start and kefs_commit_wait (started),
   by kefs_commit of that page (kefs), and in SQLite with WAL and synchronous=FULL, by a connection each, whose BEGIN IMMEDIATE tries again after 50 us where another
   one writes (wal, where its library is there). It prints a line for each way: its name, how many commits they made a second, and how many syncs one took.

   bench sync FOLDER: the quartiles of the time of a write of a page and its fdatasync. */
#define _GNU_SOURCE
#include "tests.h"
#include <dlfcn.h>
#include <pthread.h>
#include <sys/mman.h>
#include <sys/syscall.h>
#include <sys/uio.h>
#include <time.h>

enum { PAGES = 1024, PAGE = KEFS_PAGE, SECTOR = 512, VALUE = 4000, WARM_UP = 20 };
enum mode { KEFS, CALLS, STORED, MSYNC, WAL, DELETE, LMDB, PLAIN, MODES };
static const char *const NAMES[MODES] = {"kefs", "calls", "stored", "msync", "wal", "delete", "lmdb", "plain"};
static unsigned char value[PAGE], ready[PAGES * PAGE + PAGE]; /* a page to be stored, and the bytes of the bare calls */
static int chosen[PAGES], count, is_hot;             /* the pages of a commit, in their order */

static void die(const char *what) { perror(what), exit(1); }

static void must(int result, const char *what) {
  if (result != KEFS_OK) fprintf(stderr, "bench: %s: %s\n", what, kefs_strerror(result)), exit(1);
}

static double now(void) {
  struct timespec t;
  clock_gettime(CLOCK_MONOTONIC, &t);
  return (double)t.tv_sec * 1e6 + (double)t.tv_nsec * 1e-3;
}

/* Calls of the system, which are those of the libraries too: syncs are counted, and take as long as they are told to; those of a commit are kept. */

struct call { off_t at; size_t bytes; }; /* a write, or a sync, which has no bytes */
static struct call kept[4096];
static size_t kept_calls, syncs;
static int is_keeping;
static double sync_time;

static void keep(off_t at, size_t bytes) {
  if (is_keeping && kept_calls < sizeof kept / sizeof *kept) kept[kept_calls++] = (struct call){at, bytes};
}

static int end_sync(double start, long result) {
  double left = start + sync_time - now();
  __atomic_fetch_add(&syncs, 1, __ATOMIC_RELAXED);
  if (sync_time > 0 && left > 0) nanosleep(&(struct timespec){(time_t)(left / 1e6), (long)(left * 1e3) % 1000000000}, NULL);
  return (int)result;
}

int fdatasync(int fd) {
  double start = now();
  keep(0, 0);
  return end_sync(start, syscall(SYS_fdatasync, fd));
}

int fsync(int fd) {
  double start = now();
  return end_sync(start, syscall(SYS_fsync, fd));
}

int msync(void *at, size_t length, int flags) {
  double start = now();
  long result = syscall(SYS_msync, at, length, flags);
  return (flags & MS_SYNC) != 0 ? end_sync(start, result) : (int)result;
}

static ssize_t end_write(int fd, double start, ssize_t result) {
  if ((fcntl(fd, F_GETFL) & O_DSYNC) != 0) end_sync(start, 0);
  return result;
}

ssize_t pwrite(int fd, const void *from, size_t length, off_t at) {
  double start = now();
  keep(at, length);
  return end_write(fd, start, syscall(SYS_pwrite64, fd, from, length, at));
}

ssize_t pwrite64(int fd, const void *from, size_t length, off_t at) { return pwrite(fd, from, length, at); }

ssize_t pwritev(int fd, const struct iovec *parts, int number, off_t at) {
  double start = now();
  size_t length = 0;
  for (int i = 0; i < number; i++) length += parts[i].iov_len;
  keep(at, length);
  return end_write(fd, start, syscall(SYS_pwritev, fd, parts, number, (long)at, 0));
}

static void store(unsigned char *at) {
  for (int i = 0; i < count; i++) memcpy(at + chosen[i] * PAGE, value, PAGE);
}

/* kefs */

static kefs_image *images[MODES];
static unsigned char *mapped[MODES];

/* Each home is written once before, and each slot of a pool, so that the file system has a place for each block. */
static void write_homes(const char *path, uint32_t pages) {
  static const unsigned char zeros[PAGE];
  int fd = open(path, O_RDWR);
  for (off_t at = 16 * SECTOR; at < SECTOR * POOL_FRONT && image_layout() == 4; at += PAGE)
    if (pwrite(fd, zeros, PAGE, at) != PAGE) die(path);
  for (uint32_t k = 0; k < pages; k += PAGES)
    if (pwrite(fd, ready, PAGES * PAGE, SECTOR * image_sectors()->homes + (off_t)PAGE * k) != PAGES * PAGE) die(path);
  fsync(fd), close(fd);
}

static void open_kefs(enum mode mode, const char *path, uint32_t pages, unsigned flags) {
  struct kefs_file file = {pages * PAGE, 0, NULL};
  void *at;
  unlink(path);
  must(format_image(path, 0600, &file, 1), path);
  write_homes(path, pages);
  must(kefs_open(&images[mode], path, flags), path);
  must(kefs_map(images[mode], 0, NULL, &at, NULL), path);
  mapped[mode] = at;
}

/* And so is each page of a journal. */
static void settle_kefs(enum mode mode) {
  struct kefs_range parts[] = {{mapped[mode], 1023 * PAGE}, {mapped[mode] + PAGE, 1023 * PAGE}};
  for (int round = 0; round < 4; round++) {
    for (int i = 0; i < PAGES; i++) mapped[mode][i * PAGE] = (unsigned char)(round + 1);
    must(kefs_commit(images[mode], &parts[round % 2], 1, NULL), "kefs_commit");
  }
  must(kefs_rollback(images[mode], NULL, 0), "kefs_rollback");
}

static void commit_kefs(enum mode mode) { must(kefs_commit(images[mode], NULL, 0, NULL), "kefs_commit"); }

static void commit_and_keep(void) {
  kept_calls = 0, is_keeping = 1;
  commit_kefs(KEFS);
  is_keeping = 0;
}

/* Device calls */

static int device, plain;

static int new_file(const char *path, size_t bytes) {
  int fd = open(path, O_RDWR | O_CREAT | O_TRUNC, 0600);
  for (size_t at = 0; at < bytes; at += PAGE)
    if (write(fd, ready, PAGE) != PAGE) die(path);
  fsync(fd);
  return fd;
}

static void make_calls(void) {
  for (size_t i = 0; i < kept_calls; i++) {
    const struct call *call = &kept[i];
    if (call->bytes == 0 ? fdatasync(device) != 0 : pwrite(device, ready, call->bytes, call->at) != (ssize_t)call->bytes) die("bench.calls");
  }
}

/* SQLite and LMDB, whose headers are not needed. */

static void *called(void *library, const char *name) {
  void *found = dlsym(library, name);
  if (found == NULL) die(name);
  return found;
}

static int (*open_base)(const char *, void **), (*execute)(void *, const char *, void *, void *, void *);
static int (*prepare)(void *, const char *, int, void **, void *), (*bind_blob)(void *, int, const void *, int, void *);
static int (*bind_int)(void *, int, int), (*step)(void *), (*reset)(void *), (*finalize)(void *), (*close_base)(void *);
static int (*on_busy)(void *, int (*)(void *, int), void *);
static struct base { void *base, *update, *insert, *begin, *end; } bases[MODES];

static int load_sqlite(void) {
  void *library = dlopen("libsqlite3.so.0", RTLD_NOW);
  if (library == NULL) return 0;
  *(void **)&open_base = called(library, "sqlite3_open"), *(void **)&execute = called(library, "sqlite3_exec");
  *(void **)&prepare = called(library, "sqlite3_prepare_v2"), *(void **)&bind_blob = called(library, "sqlite3_bind_blob");
  *(void **)&bind_int = called(library, "sqlite3_bind_int"), *(void **)&step = called(library, "sqlite3_step");
  *(void **)&reset = called(library, "sqlite3_reset"), *(void **)&on_busy = called(library, "sqlite3_busy_handler");
  *(void **)&finalize = called(library, "sqlite3_finalize"), *(void **)&close_base = called(library, "sqlite3_close");
  return 1;
}

static void unlink_all(const char *path) {
  static const char *const ends[] = {"", "-wal", "-shm", "-journal", "-lock"};
  char name[64];
  for (size_t i = 0; i < sizeof ends / sizeof *ends; i++) snprintf(name, sizeof name, "%s%s", path, ends[i]), unlink(name);
}

static void open_sqlite(enum mode mode, const char *path, const char *journal) {
  struct base *it = &bases[mode];
  char words[200];
  unlink_all(path);
  if (open_base(path, &it->base) != 0) die(path);
  snprintf(words, sizeof words, "pragma page_size=4096; pragma journal_mode=%s; pragma synchronous=FULL", journal);
  execute(it->base, words, 0, 0, 0);
  execute(it->base, "create table t(id integer primary key, b blob)", 0, 0, 0);
  execute(it->base, "with recursive c(i) as (select 0 union all select i+1 from c where i<1023) insert into t select i, zeroblob(4000) from c", 0, 0, 0);
  execute(it->base, "pragma wal_checkpoint(RESTART)", 0, 0, 0);
  prepare(it->base, "update t set b=? where id=?", -1, &it->update, 0), prepare(it->base, "insert into t(b, id) values(?, ?)", -1, &it->insert, 0);
  prepare(it->base, "begin immediate", -1, &it->begin, 0), prepare(it->base, "commit", -1, &it->end, 0);
}

static void run_statement(void *statement) {
  if (step(statement) != 101) die("sqlite3_step"); /* SQLITE_DONE */
  reset(statement);
}

static void commit_rows(const struct base *it, void *statement, const int *rows) {
  run_statement(it->begin);
  for (int i = 0; i < count; i++) bind_blob(statement, 1, value, VALUE, 0), bind_int(statement, 2, rows[i]), run_statement(statement);
  run_statement(it->end);
}

static void commit_sqlite(enum mode mode) { commit_rows(&bases[mode], bases[mode].update, chosen); }

struct bytes { size_t length; void *at; };
static int (*begin_map)(void *, void *, unsigned, void **), (*put)(void *, unsigned, struct bytes *, struct bytes *, unsigned), (*end_map)(void *);
static void *map;
static size_t map_bytes = 64u << 20;
static unsigned table, put_flags;

static void put_rows(const int *rows, int number) {
  void *transaction;
  if (begin_map(map, NULL, 0, &transaction) != 0) die("mdb_txn_begin");
  for (int i = 0; i < number; i++) {
    unsigned key = (unsigned)rows[i];
    struct bytes name = {sizeof key, &key}, row = {VALUE, value};
    if (put(transaction, table, &name, &row, put_flags) != 0) die("mdb_put");
  }
  if (end_map(transaction) != 0) die("mdb_txn_commit");
}

/* MDB_NOSUBDIR and MDB_INTEGERKEY. */
static int open_lmdb(const char *path) {
  void *library = dlopen("liblmdb.so.0", RTLD_NOW), *transaction;
  int all[PAGES];
  if (library == NULL) return 0;
  int (*create)(void **), (*bound)(void *, size_t), (*open_map)(void *, const char *, unsigned, mode_t);
  int (*open_table)(void *, const char *, unsigned, unsigned *);
  *(void **)&create = called(library, "mdb_env_create"), *(void **)&bound = called(library, "mdb_env_set_mapsize");
  *(void **)&open_map = called(library, "mdb_env_open"), *(void **)&open_table = called(library, "mdb_dbi_open");
  *(void **)&begin_map = called(library, "mdb_txn_begin"), *(void **)&put = called(library, "mdb_put"), *(void **)&end_map = called(library, "mdb_txn_commit");
  unlink_all(path);
  if (create(&map) != 0 || bound(map, map_bytes) != 0 || open_map(map, path, 0x4000, 0600) != 0) die(path);
  if (begin_map(map, NULL, 0, &transaction) != 0 || open_table(transaction, NULL, 0x08, &table) != 0 || end_map(transaction) != 0) die(path);
  for (int i = 0; i < PAGES; i++) all[i] = i;
  put_rows(all, PAGES);
  return 1;
}

/* Commits */

static unsigned char *shared;

static double timed(enum mode mode) {
  if (mode == KEFS) store(mapped[KEFS]);
  double start = now();
  switch (mode) {
    case KEFS: commit_and_keep(); break;
    case CALLS: make_calls(); break;
    case STORED: store(mapped[STORED]), commit_kefs(STORED); break;
    case MSYNC:
      store(shared);
      if (msync(shared, PAGES * PAGE, MS_SYNC) != 0) die("msync");
      break;
    case LMDB: put_rows(chosen, count); break;
    default: commit_sqlite(mode);
  }
  return now() - start;
}

static int in_order(const void *a, const void *b) { return *(const int *)a - *(const int *)b; }
static int by_time(const void *a, const void *b) { return (*(const double *)a > *(const double *)b) - (*(const double *)a < *(const double *)b); }

static void say_times(const char *name, double *times, int number, double each_syncs) {
  double sum = 0;
  for (int i = 0; i < number; i++) sum += times[i];
  qsort(times, (size_t)number, sizeof *times, by_time);
  printf("%s %.2f %.2f %.2f %.2f %.2f\n", name, times[number / 4], times[number / 2], times[3 * number / 4], sum / number, each_syncs);
}

static void shuffle(int *numbers, int all, int first) {
  for (int i = 0; i < first; i++) {
    int j = i + (int)(random() % (all - i)), other = numbers[i];
    numbers[i] = numbers[j], numbers[j] = other;
  }
}

static void choose_pages(unsigned long round) {
  static int all[PAGES];
  for (int i = 0; i < PAGES && round == 0; i++) all[i] = i;
  for (int w = 0; w < PAGE / 8; w++) ((unsigned long *)(void *)value)[w] += round + (unsigned long)w;
  if (is_hot && round > 0) return;
  shuffle(all, PAGES, count);
  memcpy(chosen, all, sizeof chosen);
  qsort(chosen, (size_t)count, sizeof *chosen, in_order);
}

/* The modes whose libraries are there. */
static int open_all(int *modes) {
  int number = 0;
  memset(ready, 1, sizeof ready);
  open_kefs(KEFS, "bench.img", PAGES, 0), open_kefs(STORED, "bench.stored", PAGES, 0);
  settle_kefs(KEFS), settle_kefs(STORED);
  device = new_file("bench.calls", (size_t)SECTOR * 16408 + PAGES * PAGE), plain = new_file("bench.plain", PAGES * PAGE);
  shared = mmap(NULL, PAGES * PAGE, PROT_READ | PROT_WRITE, MAP_SHARED, plain, 0);
  if (shared == MAP_FAILED) die("mmap");
  for (enum mode mode = KEFS; mode <= MSYNC; mode++) modes[number++] = (int)mode;
  if (load_sqlite()) {
    open_sqlite(WAL, "bench.wal", "WAL"), open_sqlite(DELETE, "bench.delete", "DELETE");
    modes[number++] = WAL, modes[number++] = DELETE;
  }
  if (open_lmdb("bench.lmdb")) modes[number++] = LMDB;
  return number;
}

/* Times commits of these modes in turn. */
static int time_turns(int *turn, int number, int commits, double (*time_of)(enum mode)) {
  double *taken[MODES];
  size_t made[MODES] = {0};
  for (int m = 0; m < MODES; m++) taken[m] = calloc((size_t)commits, sizeof(double));
  srandom(42);
  for (int r = -WARM_UP; r < commits; r++) {
    if (r > -WARM_UP) shuffle(turn, number, number); /* calls that are made again have to be kept first */
    choose_pages((unsigned long)(r + WARM_UP));
    for (int m = 0; m < number; m++) {
      size_t before = syncs;
      double time = time_of((enum mode)turn[m]);
      if (r >= 0) taken[turn[m]][r] = time, made[turn[m]] += syncs - before;
    }
  }
  qsort(turn, (size_t)number, sizeof *turn, in_order);
  for (int m = 0; m < number; m++) say_times(NAMES[turn[m]], taken[turn[m]], commits, (double)made[turn[m]] / commits);
  return 0;
}

static int time_commits(int commits) {
  int turn[MODES], number = open_all(turn);
  return time_turns(turn, number, commits, timed);
}

/* Growing */

static int grown[MODES]; /* how many pages or rows there are */

static void append_to_map(int first) {
  must(kefs_resize(images[KEFS], 0, (size_t)(first + count) * PAGE), "kefs_resize");
  for (int i = first; i < first + count; i++) memcpy(mapped[KEFS] + (size_t)i * PAGE, value, PAGE);
  commit_kefs(KEFS);
}

static void append_to_plain(int first) {
  for (int i = 0; i < count; i++) memcpy(ready + i * PAGE, value, PAGE);
  if (pwrite(plain, ready, (size_t)count * PAGE, (off_t)first * PAGE) != (ssize_t)count * PAGE || fdatasync(plain) != 0) die("bench.plain");
}

static double timed_growth(enum mode mode) {
  int rows[PAGES], first = grown[mode];
  for (int i = 0; i < count; i++) rows[i] = first + i;
  grown[mode] += count;
  double start = now();
  switch (mode) {
    case KEFS: append_to_map(first); break;
    case PLAIN: append_to_plain(first); break;
    case LMDB: put_rows(rows, count); break;
    default: commit_rows(&bases[mode], bases[mode].insert, rows);
  }
  return now() - start;
}

static void open_growing(size_t most) {
  void *at;
  open_kefs(KEFS, "bench.img", PAGES, 0), settle_kefs(KEFS);
  must(kefs_unmap(images[KEFS], 0), "kefs_unmap");
  must(kefs_map_growing(images[KEFS], 0, NULL, most, &at, NULL), "kefs_map_growing");
  mapped[KEFS] = at;
}

/* MDB_APPEND: rows come behind all others. */
static int time_growth(int commits) {
  int turn[MODES] = {KEFS, PLAIN}, number = 2;
  size_t most = PAGE * ((size_t)PAGES + (size_t)count * (size_t)(commits + WARM_UP));
  double slow = sync_time;
  memset(ready, 1, sizeof ready);
  sync_time = 0, map_bytes = 2 * most + (64u << 20);
  open_growing(most), plain = new_file("bench.plain", PAGES * PAGE);
  if (load_sqlite()) open_sqlite(WAL, "bench.wal", "WAL"), turn[number++] = WAL;
  if (open_lmdb("bench.lmdb")) turn[number++] = LMDB;
  for (int m = 0; m < MODES; m++) grown[m] = PAGES;
  sync_time = slow, put_flags = 0x20000;
  return time_turns(turn, number, commits, timed_growth);
}

/* A worn file */

/* Stores to one page of each 2 MiB: the kernel splits a large page at the first store to it. */
static void wear(kefs_image *image, unsigned char *at, size_t length) {
  for (size_t offset = 0; offset < length; offset += 2 << 20) {
    at[offset] = 1;
    must(kefs_mark_dirty(image, at + offset, 1), "kefs_mark_dirty");
  }
  must(kefs_commit(image, NULL, 0, NULL), "kefs_commit");
}

static int has_ranges;

static double time_one(kefs_image *image, unsigned char *at, size_t length, int value_of) {
  struct kefs_range page = {at + (size_t)random() % (length / PAGE) * PAGE, PAGE};
  *(unsigned char *)(uintptr_t)page.at = (unsigned char)value_of;
  must(kefs_mark_dirty(image, page.at, 1), "kefs_mark_dirty");
  double start = now();
  must(kefs_commit(image, has_ranges ? &page : NULL, has_ranges ? 1 : 0, NULL), "kefs_commit");
  return now() - start;
}

static void time_worn_with(const char *name, unsigned flags, size_t mib, int commits) {
  static const char *const paths[] = {"bench.small", "bench.large"};
  size_t lengths[] = {4u << 20, mib << 20};
  double *taken[2] = {calloc((size_t)commits, sizeof(double)), calloc((size_t)commits, sizeof(double))};
  char words[64];
  for (int i = 0; i < 2; i++) open_kefs((enum mode)i, paths[i], (uint32_t)(lengths[i] / PAGE), flags), wear(images[i], mapped[i], lengths[i]);
  for (int r = -WARM_UP; r < commits; r++)
    for (int i = 0; i < 2; i++) {
      double time = time_one(images[i], mapped[i], lengths[i], r);
      if (r >= 0) taken[i][r] = time;
    }
  for (int i = 0; i < 2; i++) {
    snprintf(words, sizeof words, "%s-%zu", name, lengths[i] >> 20);
    say_times(words, taken[i], commits, 0);
    must(kefs_close(images[i]), paths[i]), unlink(paths[i]), free(taken[i]);
  }
}

static int time_worn(size_t mib, int commits) {
  time_worn_with("scan", KEFS_TRACK_SCAN, mib, commits), time_worn_with("signal", KEFS_TRACK_SIGNAL, mib, commits);
  time_worn_with("caller", KEFS_TRACK_CALLER, mib, commits);
  has_ranges = 1;
  time_worn_with("ranges", KEFS_TRACK_SCAN, mib, commits);
  return 0;
}

/* Threads */

enum { MOST_THREADS = 64 };
enum way { BY_START, BY_COMMIT, BY_ROW, WAYS };
static const char *const WAYS_NAMES[WAYS] = {"started", "kefs", "wal"};
static int commits_each;
struct worker { pthread_t thread; enum way way; int number; };

static int try_again(void *of, int times) {
  (void)of, (void)times;
  nanosleep(&(struct timespec){0, 50000}, NULL);
  return 1;
}

static void commit_page(const struct worker *it, int i) {
  struct kefs_range page = {mapped[KEFS] + (size_t)it->number * PAGE, PAGE};
  uint64_t ticket;
  memset((void *)(uintptr_t)page.at, i, PAGE);
  if (it->way == BY_COMMIT) return must(kefs_commit(images[KEFS], &page, 1, NULL), "kefs_commit");
  must(kefs_commit_start(images[KEFS], &page, 1, NULL, &ticket), "kefs_commit_start");
  must(kefs_commit_wait(images[KEFS], ticket), "kefs_commit_wait");
}

static void open_connection(struct base *it) {
  if (open_base("bench.wal", &it->base) != 0) die("bench.wal");
  on_busy(it->base, try_again, NULL);
  execute(it->base, "pragma synchronous=FULL", 0, 0, 0);
  prepare(it->base, "update t set b=? where id=?", -1, &it->update, 0);
  prepare(it->base, "begin immediate", -1, &it->begin, 0), prepare(it->base, "commit", -1, &it->end, 0);
}

static void update_row(const struct base *it, int number, int i) {
  unsigned char row[VALUE];
  memset(row, i, VALUE);
  run_statement(it->begin);
  bind_blob(it->update, 1, row, VALUE, 0), bind_int(it->update, 2, number), run_statement(it->update);
  run_statement(it->end);
}

static void *work(void *of) {
  const struct worker *it = of;
  struct base connection = {0};
  if (it->way == BY_ROW) open_connection(&connection);
  for (int i = 0; i < commits_each; i++)
    if (it->way == BY_ROW) update_row(&connection, it->number, i);
    else commit_page(it, i);
  if (it->way != BY_ROW) return NULL;
  finalize(connection.update), finalize(connection.begin), finalize(connection.end);
  close_base(connection.base);
  return NULL;
}

static void time_way(enum way way, int threads) {
  struct worker workers[MOST_THREADS];
  size_t before = syncs;
  double start = now();
  for (int t = 0; t < threads; t++) {
    workers[t] = (struct worker){.way = way, .number = t};
    if (pthread_create(&workers[t].thread, NULL, work, &workers[t]) != 0) die("a thread");
  }
  for (int t = 0; t < threads; t++) pthread_join(workers[t].thread, NULL);
  double seconds = (now() - start) * 1e-6, commits = (double)threads * commits_each;
  printf("%s %.0f %.2f\n", WAYS_NAMES[way], commits / seconds, (double)(syncs - before) / commits);
}

/* All are opened before syncs take as long as they are told to. */
static int time_threads(int threads, double slow) {
  if (threads > MOST_THREADS) return 2;
  memset(ready, 1, sizeof ready);
  sync_time = 0;
  open_kefs(KEFS, "bench.img", PAGES, 0), settle_kefs(KEFS);
  int has_sqlite = load_sqlite();
  if (has_sqlite) open_sqlite(WAL, "bench.wal", "WAL");
  sync_time = slow;
  time_way(BY_START, threads), time_way(BY_COMMIT, threads);
  if (has_sqlite) time_way(BY_ROW, threads);
  return 0;
}

static int time_syncs(void) {
  enum { SYNCS = 300 };
  double taken[SYNCS];
  int fd = new_file("bench.syncs", PAGES * PAGE);
  for (int i = 0; i < SYNCS; i++) {
    double start = now();
    if (pwrite(fd, ready, PAGE, random() % PAGES * PAGE) != PAGE || fdatasync(fd) != 0) die("bench.syncs");
    taken[i] = now() - start;
  }
  say_times("sync", taken, SYNCS, 1);
  unlink("bench.syncs");
  return 0;
}

/* Opening */

/* MiB of the process's own memory, without what it shares with the page cache. */
static size_t own_memory(void) {
  size_t all = 0, here = 0, shared_here = 0;
  FILE *facts = fopen("/proc/self/statm", "r");
  if (facts == NULL || fscanf(facts, "%zu %zu %zu", &all, &here, &shared_here) != 3) die("statm");
  fclose(facts);
  return (here - shared_here) * (size_t)sysconf(_SC_PAGESIZE) >> 20;
}

/* The median time of a commit of one page. */
static double time_commit(kefs_image *image, unsigned char *at, size_t length) {
  enum { COMMITS = 51 };
  double times[COMMITS];
  for (int i = 0; i < COMMITS; i++) times[i] = time_one(image, at, length, i + 1);
  qsort(times, COMMITS, sizeof(double), by_time);
  return times[COMMITS / 2];
}

static void time_opening(const char *name, unsigned flags) {
  kefs_image *image;
  void *at;
  size_t length, memory = own_memory();
  double start = now();
  must(kefs_open(&image, "bench.img", flags), name), must(kefs_map(image, 0, NULL, &at, &length), name);
  double opened = now() - start, fresh = time_commit(image, at, length);
  wear(image, at, length);
  double worn = time_commit(image, at, length);
  printf("%-12s opened in %.0f us, %zu MiB of memory, a commit of a page %.0f us, after wear %.0f us\n", name, opened, own_memory() - memory, fresh, worn);
  must(kefs_close(image), name);
}

static int time_openings(uint32_t mib) {
  open_kefs(KEFS, "bench.img", mib << 8, KEFS_LAZY);
  must(kefs_close(images[KEFS]), "bench.img");
  time_opening("scan", KEFS_TRACK_SCAN), time_opening("scan, lazy", KEFS_TRACK_SCAN | KEFS_LAZY);
  time_opening("caller", KEFS_TRACK_CALLER), time_opening("caller, lazy", KEFS_TRACK_CALLER | KEFS_LAZY);
  unlink("bench.img");
  return 0;
}

/* Word `k` as a number, or 0. */
static int number_of(int argc, char **argv, int k) { return k < argc ? atoi(argv[k]) : 0; }

int main(int argc, char **argv) {
  if (argc < 3 || chdir(argv[2]) != 0) return 2;
  count = number_of(argc, argv, 3);
  if (strcmp(argv[1], "sync") == 0) return time_syncs();
  if (strcmp(argv[1], "open") == 0 && count > 0) return time_openings((uint32_t)count);
  int commits = number_of(argc, argv, 4), is_worn = strcmp(argv[1], "worn") == 0, is_threads = strcmp(argv[1], "threads") == 0;
  int is_growing = strcmp(argv[1], "grow") == 0;
  is_hot = argc > 5 && strcmp(argv[5], "hot") == 0;
  sync_time = number_of(argc, argv, is_worn || is_threads || is_growing ? 5 : 6);
  if (commits < 1 || count < 1) return 2;
  commits_each = commits;
  if (is_threads) return time_threads(count, sync_time);
  if (is_growing) return count > PAGES || image_layout() != 4 ? 2 : time_growth(commits);
  if (is_worn) return time_worn((size_t)count, commits);
  return (unsigned long)count > image_sectors()->most ? 2 : time_commits(commits);
}
