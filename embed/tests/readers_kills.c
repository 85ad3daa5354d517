/* readers_kills FOLDER [SECONDS [CASE]]: readers beside a writer that are killed and stopped, and how long who waits. In the first case a writer
   makes transfers between accounts, eight readers sum them up, and all of them are killed at random, for SECONDS, 3 unless given. */
#define _GNU_SOURCE
#include "readers_tests.h"

static double seconds = 3;

/* Readers and a writer that are killed */

enum { READERS = 8, ACCOUNT_PAGES = 256, ACCOUNTS = ACCOUNT_PAGES * (PAGE / 8) };
struct ledger { long number, digest; };
static struct { long begun, acknowledged, seen, refreshes, openings, commits; } *bank;

static void open_bank(kefs_image **image, unsigned flags, long **accounts, struct ledger **ledger) {
  DONE(kefs_open(image, PATH, flags));
  DONE(kefs_map(*image, 0, NULL, (void **)accounts, NULL));
  DONE(kefs_map(*image, 1, NULL, (void **)ledger, NULL));
}

/* The accounts sum to 0, and the ledger has the sum of each times its place, which half a transfer would change. */
static int is_whole(const long *accounts, const struct ledger *ledger) {
  long sum = 0, digest = 0;
  for (long i = 0; i < ACCOUNTS; i++) sum += accounts[i], digest += accounts[i] * (i + 1);
  return sum == 0 && digest == ledger->digest;
}

static void transfer_for_ever(void) {
  long *accounts;
  struct ledger *ledger;
  open_bank(&writer, 0, &accounts, &ledger);
  CHECK(is_whole(accounts, ledger) && ledger->number >= get(&bank->acknowledged) && ledger->number >= get(&bank->seen));
  for (;;) {
    int transfers = random() % 50 == 0 ? 300 : 1;
    for (int i = 0; i < transfers; i++) {
      long from = random() % ACCOUNTS, to = random() % ACCOUNTS, amount = random() % 1000;
      accounts[from] -= amount, accounts[to] += amount;
      ledger->digest += amount * (to - from);
    }
    set(&bank->begun, ++ledger->number);
    DONE(kefs_commit(writer, NULL, 0, NULL));
    set(&bank->acknowledged, ledger->number);
    __atomic_add_fetch(&bank->commits, 1, __ATOMIC_SEQ_CST);
    if (random() % 500 == 0) _exit(kefs_close(writer));
    if (random() % 20 == 0) usleep((useconds_t)(random() % 3000));
  }
}

/* What is read is whole, has each commit that returned before, and what any reader has seen. */
static void sum_for_ever(void) {
  long *accounts;
  struct ledger *ledger;
  long least = get(&bank->acknowledged), others = get(&bank->seen);
  open_bank(&reader, KEFS_SNAPSHOT, &accounts, &ledger);
  __atomic_add_fetch(&bank->openings, 1, __ATOMIC_SEQ_CST);
  for (long last = 0, changed = 1;; __atomic_add_fetch(&bank->refreshes, 1, __ATOMIC_SEQ_CST)) {
    long number = ledger->number;
    CHECK(is_whole(accounts, ledger));
    CHECK(number >= least && number >= others && number >= last && number <= get(&bank->begun));
    CHECK(number == last || changed);
    raise_to(&bank->seen, number);
    last = number;
    if (random() % 300 == 0) _exit(kefs_close(reader));
    if (random() % 10 == 0) usleep((useconds_t)(random() % 20000));
    least = get(&bank->acknowledged), others = get(&bank->seen);
    int differs = 9;
    DONE(kefs_refresh(reader, &differs));
    changed = differs;
  }
}

static pid_t started(int is_writer) {
  pid_t child = fork();
  if (child != 0) return child;
  prctl(PR_SET_PDEATHSIG, SIGKILL);
  srandom((unsigned)getpid());
  if (is_writer) transfer_for_ever();
  else sum_for_ever();
  _exit(2);
}

static void readers_sum_beside_a_writer_under_kills(void) {
  pid_t children[READERS + 1];
  long kills[2] = {0, 0};
  alarm(LIMIT + (unsigned)seconds);
  bank = shared_memory(sizeof *bank);
  make_files(PATH, (struct kefs_file[]){{ACCOUNT_PAGES * PAGE, 0, NULL}, {sizeof (struct ledger), 0, NULL}}, 2);
  for (int i = 0; i <= READERS; i++) children[i] = started(i == 0);
  for (double over = now() + seconds; now() < over || get(&bank->commits) < 3 || get(&bank->refreshes) < 50;) {
    int chosen = random() % 3 == 0 ? 0 : 1 + (int)(random() % READERS);
    usleep((useconds_t)(random() % 120000));
    kills[chosen == 0] += end_child(children[chosen]);
    children[chosen] = started(chosen == 0);
  }
  for (int i = 0; i <= READERS; i++) end_child(children[i]);
  printf("readers_kills: %.0f s, %ld commits, %ld openings and %ld refreshes of %d readers", seconds, bank->commits, bank->openings, bank->refreshes, READERS);
  printf(", %ld kills of the writer and %ld of readers: none torn, none gone back\n", kills[1], kills[0]);
}

/* A writer that is killed before each of its calls */

static int calls_left;

static void count_down(void) {
  if (calls_left-- == 0) raise(SIGKILL);
}

static void be_killed(void) {
  for (int k = 0; k < 20; k++) a[k * PAGE] = 1;
  DONE(kefs_commit(writer, NULL, 0, NULL));
  for (int k = 10; k < 40; k++) a[k * PAGE] = 2;
  before_sync = before_write = count_down;
  DONE(kefs_commit(writer, NULL, 0, NULL));
}

static int is_as_after(int commits) {
  for (int k = 0; k < PAGES; k++) {
    int wanted = commits == 2 && k >= 10 && k < 40 ? 2 : k < 20 ? 1 : 0;
    if (r[k * PAGE] != wanted) return 0;
  }
  return 1;
}

static size_t content(unsigned char *to, size_t room) {
  int fd = open(PATH, O_RDONLY);
  ssize_t length = read(fd, to, room);
  close(fd);
  return (size_t)length;
}

/* The reader writes nothing; both that opens then and that was there see it whole, before or after, and so does the next writer. */
static int is_killed(int call) {
  static unsigned char before[32 << 20], after[32 << 20];
  make_file(PATH, PAGES * PAGE, 0);
  kefs_image *earlier;
  unsigned char *other = opened(&earlier, PATH, KEFS_SNAPSHOT);
  calls_left = call;
  pid_t child = other_writer(be_killed);
  int status = status_of(child), changed;
  size_t length = content(before, sizeof before);
  CHECK(length < sizeof before);
  open_reader();
  CHECK(content(after, sizeof after) == length && memcmp(before, after, length) == 0);
  CHECK(is_as_after(2) || (status != 0 && is_as_after(1)));
  DONE(kefs_refresh(earlier, &changed));
  CHECK(changed == 1 && memcmp(r, other, PAGES * PAGE) == 0);
  a = opened(&writer, PATH, KEFS_NOWAIT);
  CHECK(memcmp(a, r, PAGES * PAGE) == 0 && refreshed() == 0);
  DONE(kefs_close(earlier));
  end();
  return status != 0;
}

static void a_writer_that_is_killed_leaves_before_or_after(void) {
  int calls = 0;
  while (is_killed(calls)) calls++;
  CHECK(calls >= 5);
}

/* Waits */

static void stop_in_a_commit(void) {
  commit(1, 1);
  before_sync = stop;
  commit(2, 2);
}

/* Other work on the machine may make a wait longer, but not each of some. A wait of so many milliseconds at most may be shorter by the part of the
   first one that was over. */
static double shorter(double than, double least, double start) {
  double taken = now() - start;
  CHECK(taken > least - 0.001);
  return taken < than ? taken : than;
}

static void a_wait_for_a_commit_ends(void) {
  kefs_image *other;
  double least[3] = {9, 9, 9};
  make_file(PATH, PAGES * PAGE, 0);
  DONE(opened_within(&reader, KEFS_SNAPSHOT, 200));
  pid_t child = other_writer(stop_in_a_commit);
  stopped(child);
  for (int round = 0; round < 4; round++) {
    double start = now();
    RETURNS(KEFS_BUSY, kefs_refresh(reader, NULL));
    least[0] = shorter(least[0], 0.2, start);
    start = now();
    RETURNS(KEFS_BUSY, opened_within(&other, KEFS_SNAPSHOT, 100));
    least[1] = shorter(least[1], 0.1, start);
    start = now();
    RETURNS(KEFS_BUSY, kefs_open(&other, PATH, KEFS_SNAPSHOT | KEFS_NOWAIT));
    least[2] = shorter(least[2], 0, start);
  }
  CHECK(least[0] < 0.25 && least[1] < 0.15 && least[2] < 0.05);
  CHECK(strstr(kefs_errmsg(reader), "has the image") != NULL || strstr(kefs_errmsg(reader), "does not let readers in") != NULL);
  void *at;
  DONE(kefs_map(reader, 0, NULL, &at, NULL)); /* is as it was */
  r = at;
  CHECK(r[PAGE] == 0 && r[2 * PAGE] == 0);
  let_end(child);
  CHECK(refreshed() == 1 && r[PAGE] == 1 && r[2 * PAGE] == 2);
  DONE(kefs_close(reader));
}

static void on_signal(int number) { (void)number; }

static void a_signal_ends_a_wait(void) {
  struct sigaction action = {.sa_handler = on_signal};
  make_file(PATH, PAGES * PAGE, 0);
  open_reader();
  pid_t child = other_writer(stop_in_a_commit);
  stopped(child);
  CHECK(sigaction(SIGALRM, &action, NULL) == 0);
  ualarm(100000, 0);
  RETURNS(EINTR, kefs_refresh(reader, NULL));
  ualarm(100000, 0);
  kefs_image *other;
  RETURNS(EINTR, kefs_open(&other, PATH, KEFS_SNAPSHOT));
  for (unsigned opening = 0; opening <= KEFS_RDONLY; opening += KEFS_RDONLY) {
    ualarm(100000, 0);
    RETURNS(EINTR, kefs_open(&other, PATH, opening));
    ualarm(100000, 0);
    RETURNS(EINTR, opened_within(&other, opening, 60000));
  }
  end_child(child);
  CHECK(refreshed() == 1 && r[PAGE] == 1 && r[2 * PAGE] == 0);
  DONE(kefs_close(reader));
}

static int fails_last;    /* the last sync of the commit fails, or the first */
static long *is_durable; /* what kefs_recover has said, in memory that is shared */

static uint64_t syncs(void) {
  struct kefs_stat stat = {.size = sizeof stat};
  DONE(kefs_stat(writer, &stat));
  return stat.syncs;
}

static void fail_a_commit(void) {
  int stands;
  commit(1, 1), commit(2, 2);
  uint64_t before = syncs();
  commit(1, 3);
  stop();
  failing_sync = fails_last ? (int)(syncs() - before) : 1;
  a[2 * PAGE] = 4;
  RETURNS(KEFS_DEVICE, kefs_commit(writer, NULL, 0, NULL));
  stop();
  DONE(kefs_recover(writer, &stands));
  *is_durable = stands == KEFS_AFTER;
  stop();
  DONE(kefs_commit(writer, NULL, 0, NULL));
  commit(3, 3);
  stop();
}

/* What became of a commit that failed says kefs_recover: until then nobody sees it. */
static void a_failed_commit_is_not_seen(void) {
  void *at;
  is_durable = shared_memory(sizeof *is_durable);
  for (fails_last = 0; fails_last < 2; fails_last++) {
    make_file(PATH, PAGES * PAGE, 0);
    DONE(opened_within(&reader, KEFS_SNAPSHOT, 50));
    DONE(kefs_map(reader, 0, NULL, &at, NULL));
    r = at;
    pid_t child = other_writer(fail_a_commit);
    stopped(child);
    CHECK(refreshed() == 1 && r[PAGE] == 3 && r[2 * PAGE] == 2);
    let_go_on(child);
    RETURNS(KEFS_BUSY, kefs_refresh(reader, NULL));
    let_go_on(child);
    CHECK(*is_durable == fails_last && refreshed() == fails_last && r[2 * PAGE] == (fails_last ? 4 : 2));
    let_go_on(child);
    CHECK(refreshed() == 1 && r[PAGE] == 3 && r[2 * PAGE] == 4 && r[3 * PAGE] == 3);
    CHECK(end_child(child) && refreshed() == 0);
    DONE(kefs_close(reader));
  }
}

/* A writer does not wait for ever for a reader that was stopped in its turn, and that one does not take for whole what it has read before and
   after. */
static int reads_left;

static void stop_once(void) {
  if (--reads_left == 0) stop();
}

static pid_t reader_that_stops(int read) {
  pid_t child = fork();
  if (child != 0) return stopped(child), child;
  prctl(PR_SET_PDEATHSIG, SIGKILL);
  reads_left = read, before_read = stop_once;
  open_reader();
  CHECK(r[PAGE] == r[1400 * PAGE] && r[PAGE] == 9 && r[2 * PAGE] == 9 && r[TWO_TURNS * PAGE - 1] == 0);
  _exit(0);
}

static void commit_pair(unsigned char value) {
  a[1400 * PAGE] = value;
  commit(1, value);
}

static void a_stopped_reader_stops_no_writer(void) {
  make_file(PATH, TWO_TURNS * PAGE, 0);
  a = opened(&writer, PATH, 0);
  for (int read = 2; read <= 6; read += 2) {
    commit_pair(0);
    pid_t child = reader_that_stops(read);
    double start = now();
    commit_pair(1);
    takes(0.9, 5, start);
    start = now();
    for (unsigned char i = 2; i < 10; i++) commit_pair(i);
    commit(2, 9);
    takes(0, 5, start); /* and not a second each */
    CHECK(kill(child, SIGCONT) == 0 && status_of(child) == 0);
    commit(3, 5);
  }
  DONE(kefs_close(writer));
}

static void a_stopped_reader_is_waited_for_by_an_opening(void) {
  kefs_image *other;
  make_file(PATH, TWO_TURNS * PAGE, 0);
  a = opened(&writer, PATH, 0);
  commit_pair(0);
  pid_t child = reader_that_stops(2);
  DONE(kefs_close(writer));
  double start = now();
  RETURNS(KEFS_BUSY, opened_within(&other, 0, 100));
  takes(0.1, 0.9, start);
  start = now();
  DONE(opened_within(&other, 0, 2000));
  takes(0.9, 5, start);
  DONE(kefs_close(other));
  CHECK(end_child(child));
  DONE(opened_within(&writer, 0, 100));
  DONE(kefs_close(writer));
}

/* Without a writer a reader keeps no lock that keeps one out, and what it has read before the writer came is not taken for whole. An image of layout 2 is all holes
   here, so that little of it is read. */
/* Of an older image, which these tests make with holes, there is less to read. */
static void a_reader_that_was_stopped_alone_keeps_no_writer_out(void) {
  for (int read = 2; read <= (image_layout() == 4 ? 8 : 2); read += 2) {
    make_file(PATH, TWO_TURNS * PAGE, 0);
    pid_t child = reader_that_stops(read);
    double start = now();
    a = opened(&writer, PATH, 0);
    takes(0, 5, start);
    commit_pair(1), commit_pair(9), commit(2, 9);
    CHECK(kill(child, SIGCONT) == 0 && status_of(child) == 0);
    DONE(kefs_close(writer));
  }
}

static void a_recovery_goes_on_past_a_stopped_reader(void) {
  make_file(PATH, TWO_TURNS * PAGE, 0);
  a = opened(&writer, PATH, 0);
  commit_pair(0);
  pid_t child = reader_that_stops(2);
  failing_sync = 1, a[PAGE] = 1;
  RETURNS(KEFS_DEVICE, kefs_commit(writer, NULL, 0, NULL));
  double start = now();
  DONE(kefs_recover(writer, NULL));
  takes(0, 5, start);
  commit_pair(9), commit(2, 9);
  CHECK(kill(child, SIGCONT) == 0 && status_of(child) == 0);
  DONE(kefs_close(writer));
}

/* A process that may only read the image holds locks from this byte on for ever, so many or, where it is 0, all. */
static pid_t reader_that_holds_locks(off_t from, off_t count) {
  int ready[2];
  char byte;
  CHECK(pipe(ready) == 0);
  pid_t child = fork();
  if (child != 0) return CHECK(read(ready[0], &byte, 1) == 1), child;
  prctl(PR_SET_PDEATHSIG, SIGKILL);
  struct flock locks = {.l_type = F_RDLCK, .l_whence = SEEK_SET, .l_start = from, .l_len = count};
  CHECK(fcntl(open(PATH, O_RDONLY), F_OFD_SETLK, &locks) == 0 && write(ready[1], "", 1) == 1);
  for (;;) pause();
}

static long commits_within(double seconds) {
  long commits = 0;
  for (double start = now(); now() - start < seconds; commits++) commit(1, (unsigned char)commits);
  return commits;
}

static const off_t LOCKS = (off_t)1 << 62;

/* As if it were in its turn and waited for the next one. */
static void locks_of_a_reader_take_a_tenth_of_a_writers_time(void) {
  make_file(PATH, PAGES * PAGE, 0);
  a = opened(&writer, PATH, 0);
  pid_t child = reader_that_holds_locks(LOCKS + 1, 2);
  commit(1, 1); /* waits a second, once */
  double start = now(), before = slept;
  CHECK(before > 0.5 && commits_within(1) > 0 && slept - before < 0.15 * (now() - start));
  CHECK(end_child(child));
  DONE(kefs_close(writer));
}

/* Those too by which a writer tells readers: these are kept out then, and the writer not. */
static void all_locks_of_a_reader_stop_no_writer(void) {
  kefs_image *other;
  make_file(PATH, PAGES * PAGE, 0);
  pid_t child = reader_that_holds_locks(LOCKS, 0);
  double start = now();
  a = opened(&writer, PATH, 0);
  commit(1, 1);
  takes(0, 5, start);
  start = now();
  double before = slept;
  CHECK(commits_within(1) > 0 && slept - before < 0.15 * (now() - start));
  RETURNS(KEFS_BUSY, opened_within(&other, KEFS_SNAPSHOT, 100));
  CHECK(end_child(child));
  commit(1, 2);
  open_reader();
  CHECK(r[PAGE] == 2);
  end();
}

/* Nobody waits long where all are as busy as they can be: hardly a refresh sees more commits than that which was under way, and the next one. */
struct waits { long changes, short_ones, longest; };

static void refresh_for_ever(struct waits *waits, const long *commits) {
  for (open_reader();;) {
    double start = now();
    long before = get(commits);
    int changed = refreshed();
    waits->changes += changed, waits->short_ones += changed && get(commits) - before <= 2;
    CHECK(r[PAGE] == r[2 * PAGE]);
    raise_to(&waits->longest, (long)((now() - start) * 1e6));
  }
}

enum { SOME = 4 };

/* On a machine that does much else this takes longer. */
static int is_enough(const struct waits *waits, long commits) {
  for (const struct waits *it = waits; it < waits + SOME; it++)
    if (get(&it->changes) < 4) return 0;
  return commits > 8;
}

static void nobody_waits_long(void) {
  pid_t children[SOME];
  struct { struct waits waits[SOME]; long commits; } *seen = shared_memory(sizeof *seen);
  double slowest = 0;
  make_file(PATH, PAGES * PAGE, 0);
  a = opened(&writer, PATH, 0);
  for (int i = 0; i < SOME; i++) {
    if ((children[i] = fork()) != 0) continue;
    prctl(PR_SET_PDEATHSIG, SIGKILL);
    refresh_for_ever(&seen->waits[i], &seen->commits);
  }
  for (double over = now() + 2; now() < over || !is_enough(seen->waits, seen->commits); set(&seen->commits, seen->commits + 1)) {
    double start = now();
    a[2 * PAGE] = a[PAGE]++ + 1;
    DONE(kefs_commit(writer, NULL, 0, NULL));
    if (now() - start > slowest) slowest = now() - start;
  }
  for (int i = 0; i < SOME; i++) end_child(children[i]);
  if (getenv("TIMES") != NULL) printf("%ld commits, the longest %.0f us\n", seen->commits, slowest * 1e6);
  for (const struct waits *it = seen->waits; it < seen->waits + SOME; it++) {
    if (getenv("TIMES") != NULL) printf("%ld refreshes, %ld short, the longest %ld us\n", it->changes, it->short_ones, it->longest), fflush(stdout);
    CHECK(it->short_ones * 2 > it->changes && it->longest < 5000000 && slowest < 5);
  }
  DONE(kefs_close(writer));
}

/* Openings that follow each other without end keep no commit from beginning. */
static void no_commit_waits_long_for_openings(void) {
  enum { MANY = 6 };
  pid_t children[MANY];
  long *openings = shared_memory(sizeof *openings), commits = 0;
  double slowest = 0;
  make_file(PATH, TWO_TURNS * PAGE, 1);
  a = opened(&writer, PATH, 0);
  for (int i = 0; i < MANY; i++) {
    if ((children[i] = fork()) != 0) continue;
    prctl(PR_SET_PDEATHSIG, SIGKILL);
    for (;; __atomic_add_fetch(openings, 1, __ATOMIC_SEQ_CST)) {
      open_reader();
      CHECK(r[PAGE] == r[1400 * PAGE]);
      DONE(kefs_close(reader));
    }
  }
  for (double over = now() + 2; now() < over || commits < 6 || get(openings) < 6; commits++) {
    double start = now();
    commit_pair((unsigned char)commits);
    if (now() - start > slowest) slowest = now() - start;
  }
  for (int i = 0; i < MANY; i++) end_child(children[i]);
  if (getenv("TIMES") != NULL) printf("%ld openings, %ld commits, the longest %.0f us\n", *openings, commits, slowest * 1e6);
  CHECK(slowest < 5);
  DONE(kefs_close(writer));
}

/* Running */

static const struct test tests[] = {
  TEST(readers_sum_beside_a_writer_under_kills), TEST(a_wait_for_a_commit_ends), TEST(a_signal_ends_a_wait),
  TEST(a_failed_commit_is_not_seen), TEST(a_stopped_reader_stops_no_writer), TEST(a_stopped_reader_is_waited_for_by_an_opening),
  TEST(a_reader_that_was_stopped_alone_keeps_no_writer_out), TEST(a_recovery_goes_on_past_a_stopped_reader),
  TEST(locks_of_a_reader_take_a_tenth_of_a_writers_time), TEST(all_locks_of_a_reader_stop_no_writer),
  TEST(nobody_waits_long), TEST(no_commit_waits_long_for_openings), TEST(a_writer_that_is_killed_leaves_before_or_after)};

int main(int argc, char **argv) {
  if (argc < 2 || chdir(argv[1]) != 0) return 2;
  if (argc > 2) seconds = atof(argv[2]);
  return try_all("readers_kills", tests, sizeof tests / sizeof *tests, argc > 3 ? argv[3] : NULL);
}
