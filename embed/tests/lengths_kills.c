/* lengths_kills FOLDER [SECONDS [CASE|-CASE]]: readers and backups beside a writer that gives files other lengths, while it commits, fails, and is killed,
   and while they are stopped. Images are of layout 4. In the case of kills the writer and its readers are killed at random for SECONDS, 3 unless given. */
#define _GNU_SOURCE
#include "lengths_tests.h"

static double seconds = 3;

/* A thread commits as fast as it can, while another one opens, refreshes and makes copies of either handle. */

static long is_over, last_made, pause_most;

static void *commit_for_ever(void *unused) {
  while (!get(&is_over)) {
    set(&last_made, (long)next_commit());
    if (get(&pause_most) > 0) usleep((useconds_t)(random() % get(&pause_most)));
  }
  return unused;
}

static pthread_t begin_commits(void) {
  pthread_t thread;
  begin_written();
  commit_some(40);
  set(&last_made, (long)number_of(&written));
  CHECK(pthread_create(&thread, NULL, commit_for_ever, NULL) == 0);
  return thread;
}

static void end_commits(pthread_t thread) {
  set(&is_over, 1);
  CHECK(pthread_join(thread, NULL) == 0);
  DONE(kefs_close(written.image));
}

static void turns_beside_a_writer_give_one_commit(void) {
  struct store read;
  pthread_t thread = begin_commits();
  for (int round = 0; round < 20; round++) {
    set(&pause_most, round % 2 == 0 ? 0 : 3000);
    unsigned long least = (unsigned long)get(&last_made);
    open_store(&read, PATH, KEFS_SNAPSHOT);
    CHECK(checked(&read) >= least);
    for (int i = 0; i < 8; i++) {
      usleep((useconds_t)(random() % 10000));
      least = (unsigned long)get(&last_made);
      DONE(kefs_refresh(read.image, NULL));
      CHECK(checked(&read) >= least);
    }
    if (round % 5 == 0) check_backup(read.image, least);
    DONE(kefs_close(read.image));
  }
  end_commits(thread);
}

static void backups_beside_a_writer_are_as_after_one_commit(void) {
  pthread_t thread = begin_commits();
  for (int round = 0; round < 12; round++) {
    set(&pause_most, round % 2 == 0 ? 0 : 3000);
    check_backup(written.image, (unsigned long)get(&last_made));
  }
  end_commits(thread);
}

/* While another thread makes copies of the handle that is refreshed. */
static void *back_up_often(void *of) {
  const struct store *read = of;
  for (int i = 0; i < 12; i++) check_backup(read->image, 0);
  set(&pause_most, -1);
  return NULL;
}

static void backups_beside_refreshes_are_as_after_one_commit(void) {
  struct store read;
  pthread_t thread, other;
  thread = begin_commits();
  open_store(&read, PATH, KEFS_SNAPSHOT);
  CHECK(pthread_create(&other, NULL, back_up_often, &read) == 0);
  while (get(&pause_most) >= 0) {
    DONE(kefs_refresh(read.image, NULL));
    checked(&read);
  }
  CHECK(pthread_join(other, NULL) == 0);
  DONE(kefs_close(read.image));
  end_commits(thread);
}

/* Commits that come at certain moments of a backup: before its first write, and before its last turn */

static int is_acting, acts_at_write, acts_at_sync, fails_to_commit;

static void (*acting)(void);

static void act(void) {
  is_acting = 1;
  acting();
  is_acting = 0;
}

static void fail_and_commit(void) {
  if (fails_to_commit > 0) {
    make_changes(number_of(&written) + 1);
    failing_sync = fails_to_commit;
    if (kefs_commit(written.image, NULL, 0, NULL) == KEFS_DEVICE) DONE(kefs_recover(written.image, NULL));
    failing_sync = 0;
  }
  DONE(kefs_commit(written.image, NULL, 0, NULL));
  commit_some(2);
}

static void act_at_write(void) {
  if (!is_acting && acts_at_write > 0 && --acts_at_write == 0) act();
}

static void act_at_sync(void) {
  if (!is_acting && acts_at_sync > 0 && --acts_at_sync == 0) act();
}

static void commits_within_a_backup_are_in_it(void) {
  begin_written();
  commit_some(3);
  before_write = act_at_write, before_sync = act_at_sync, acting = fail_and_commit;
  for (int round = 0; round < 12; round++) {
    fails_to_commit = round / 3;
    acts_at_write = round % 3 != 0, acts_at_sync = round % 3 != 1;
    unsigned long before = number_of(&written);
    check_backup(written.image, before + 2);
    CHECK(acts_at_write == 0 && acts_at_sync == 0);
    commit_some(20);
  }
  DONE(kefs_close(written.image));
}

/* What a file has that grows may end past the end that the host file had. */
static void grow_much(void) {
  size_t length;
  DONE(kefs_length(writer, 0, &length));
  DONE(kefs_resize(writer, 0, 3 * length));
  DONE(kefs_commit(writer, NULL, 0, NULL));
}

static void a_host_file_gets_longer_within_a_backup(void) {
  size_t length;
  make_file(PATH, 20 * PAGE, 7);
  a = opened(&writer, PATH, 0);
  DONE(kefs_unmap(writer, 0));
  before_write = act_at_write, before_sync = act_at_sync, acting = grow_much;
  for (int round = 0; round < 5; round++) {
    acts_at_write = round % 2 == 0, acts_at_sync = round % 2 == 1;
    unlink("backup.img");
    DONE(kefs_backup(writer, "backup.img", 0600));
    CHECK(acts_at_write == 0 && acts_at_sync == 0);
    r = opened(&reader, "backup.img", 0);
    DONE(kefs_length(writer, 0, &length));
    CHECK(memcmp(r, "\7", 1) == 0 && r[20 * PAGE - 1] == 7 && is_zeros((char *)r + 20 * PAGE, length - 20 * PAGE));
    DONE(kefs_close(reader));
  }
  DONE(kefs_close(writer));
}

/* Failures of a commit, and kills */

static void a_failed_commit_of_lengths_is_not_seen(void) {
  struct store read;
  struct kefs_options options = {.size = sizeof options, .wait = 50};
  int stands = KEFS_BEFORE, failed = 0;
  begin_written();
  DONE(kefs_open_with(&read.image, PATH, KEFS_SNAPSHOT, &options));
  map_files(&read, MOST);
  for (int sync = 1; sync <= 3; sync++) {
    commit_some(5);
    DONE(kefs_refresh(read.image, NULL));
    unsigned long before = checked(&read);
    make_changes(before + 1);
    failing_sync = sync;
    if (kefs_commit(written.image, NULL, 0, NULL) == KEFS_OK) continue;
    RETURNS(KEFS_BUSY, kefs_refresh(read.image, NULL));
    CHECK(checked(&read) == before);
    DONE(kefs_recover(written.image, &stands));
    DONE(kefs_refresh(read.image, NULL));
    CHECK(checked(&read) == before + (stands == KEFS_AFTER));
    DONE(kefs_commit(written.image, NULL, 0, NULL));
    DONE(kefs_refresh(read.image, NULL));
    CHECK(checked(&read) == before + 1);
    failed += 1 + (stands == KEFS_AFTER);
  }
  CHECK(failed >= 3); /* the last one stands */
  DONE(kefs_close(read.image));
  DONE(kefs_close(written.image));
}

static int calls_left;

static void count_down(void) {
  if (calls_left-- == 0) raise(SIGKILL);
}

static pid_t killed_writer(int call) {
  pid_t child = fork();
  if (child != 0) return child;
  prctl(PR_SET_PDEATHSIG, SIGKILL);
  open_written(0);
  make_changes(number_of(&written) + 1);
  calls_left = call, before_sync = before_write = count_down;
  DONE(kefs_commit(written.image, NULL, 0, NULL));
  _exit(0);
}

/* Three kinds of readers, and the next writer, see the lengths of before or after. */
static int is_killed(int call) {
  struct store earlier, later, alone;
  open_store(&earlier, PATH, KEFS_SNAPSHOT);
  unsigned long before = checked(&earlier), after;
  int status = status_of(killed_writer(call));
  open_store(&alone, PATH, KEFS_RDONLY);
  after = checked(&alone);
  CHECK(after == before + 1 || (status != 0 && after == before));
  DONE(kefs_close(alone.image));
  open_store(&later, PATH, KEFS_SNAPSHOT);
  DONE(kefs_refresh(earlier.image, NULL));
  CHECK(checked(&later) == after && checked(&earlier) == after);
  open_written(KEFS_NOWAIT);
  CHECK(number_of(&written) == after && system("../kefscheck readers.img > /dev/null") != 0); /* not now */
  commit_some(1);
  DONE(kefs_refresh(earlier.image, NULL));
  CHECK(checked(&earlier) == after + 1);
  DONE(kefs_close(earlier.image));
  DONE(kefs_close(later.image));
  DONE(kefs_close(written.image));
  CHECK(system("../kefscheck readers.img > /dev/null") == 0);
  return status != 0;
}

static void a_killed_writer_leaves_all_lengths_or_none(void) {
  int calls = 0;
  begin_written();
  commit_some(21); /* the next ones give the large file another length */
  DONE(kefs_close(written.image));
  while (is_killed(calls) || calls < 12) calls++;
}

/* A writer, which makes copies too, and its readers are killed at random */

enum { READERS = 4 };
static struct { long begun, acknowledged, seen, refreshes, openings, commits, backups; } *shared;

static void *back_up_for_ever(void *unused) {
  for (;; __atomic_add_fetch(&shared->backups, 1, __ATOMIC_SEQ_CST)) check_backup(written.image, (unsigned long)get(&shared->acknowledged));
  return unused;
}

static void write_for_ever(void) {
  pthread_t thread;
  struct store all;
  open_store(&all, PATH, random() % 2 == 0 ? KEFS_LAZY : 0);
  unsigned long n = checked(&all);
  CHECK(n >= (unsigned long)get(&shared->acknowledged) && n >= (unsigned long)get(&shared->seen));
  DONE(kefs_close(all.image));
  open_written(random() % 2 == 0 ? KEFS_LAZY : 0);
  CHECK(number_of(&written) == n && pthread_create(&thread, NULL, back_up_for_ever, NULL) == 0);
  for (;; __atomic_add_fetch(&shared->commits, 1, __ATOMIC_SEQ_CST)) {
    set(&shared->begun, (long)++n);
    make_commit(n);
    set(&shared->acknowledged, (long)n);
    if (random() % 4 == 0) usleep((useconds_t)(random() % 3000));
  }
}

static void follow_for_ever(void) {
  struct store read;
  unsigned long least = (unsigned long)get(&shared->acknowledged), others = (unsigned long)get(&shared->seen), last = 0;
  open_store(&read, PATH, KEFS_SNAPSHOT);
  __atomic_add_fetch(&shared->openings, 1, __ATOMIC_SEQ_CST);
  for (int changed = 1;; __atomic_add_fetch(&shared->refreshes, 1, __ATOMIC_SEQ_CST)) {
    unsigned long n = checked(&read);
    CHECK(n >= least && n >= others && n >= last && n <= (unsigned long)get(&shared->begun) && (n == last || changed));
    raise_to(&shared->seen, (long)n);
    last = n;
    if (random() % 8 == 0) map_anew(&read, 1 + (unsigned)random() % (FILES - 1));
    if (random() % 4 == 0) usleep((useconds_t)(random() % 20000));
    least = (unsigned long)get(&shared->acknowledged), others = (unsigned long)get(&shared->seen);
    DONE(kefs_refresh(read.image, &changed));
  }
}

static pid_t started(int is_writer) {
  pid_t child = fork();
  if (child != 0) return child;
  prctl(PR_SET_PDEATHSIG, SIGKILL);
  srandom((unsigned)getpid());
  if (is_writer) write_for_ever();
  else follow_for_ever();
  _exit(2);
}

static void readers_follow_lengths_under_kills(void) {
  pid_t children[READERS + 1];
  long kills[2] = {0, 0};
  alarm(LIMIT + (unsigned)seconds);
  shared = shared_memory(sizeof *shared);
  begin_written();
  commit_some(30);
  set(&shared->begun, 31);
  DONE(kefs_close(written.image));
  for (int i = 0; i <= READERS; i++) children[i] = started(i == 0);
  for (double over = now() + seconds; now() < over || get(&shared->commits) < 20 || get(&shared->refreshes) < 20;) {
    int chosen = random() % 3 == 0 ? 0 : 1 + (int)(random() % READERS);
    usleep((useconds_t)(random() % 200000));
    kills[chosen == 0] += end_child(children[chosen]);
    children[chosen] = started(chosen == 0);
  }
  for (int i = 0; i <= READERS; i++) end_child(children[i]);
  printf("lengths_kills: %.0f s, %ld commits, %ld backups, %ld openings and %ld refreshes of %d readers", seconds, shared->commits, shared->backups,
         shared->openings, shared->refreshes, READERS);
  printf(", %ld kills of the writer and %ld of readers: all lengths and bytes as after one commit\n", kills[1], kills[0]);
}

/* A reader that is stopped in its turn does not take for whole what it has read before and after. */

static int reads_left;

static void stop_once(void) {
  if (--reads_left == 0) stop();
}

static pid_t reader_that_stops(int read, int is_opening) {
  struct store store;
  pid_t child = fork();
  if (child != 0) return stopped(child), child;
  prctl(PR_SET_PDEATHSIG, SIGKILL);
  if (!is_opening) open_store(&store, PATH, KEFS_SNAPSHOT), raise(SIGSTOP);
  reads_left = read, before_read = stop_once;
  if (is_opening) open_store(&store, PATH, KEFS_SNAPSHOT);
  else DONE(kefs_refresh(store.image, NULL));
  checked(&store), check_ends(&store);
  _exit(0);
}

static void a_stopped_reader_takes_no_lengths_for_others(void) {
  begin_written();
  commit_some(24);
  for (int read = 2; read <= 14; read += 2) {
    pid_t child = reader_that_stops(read, read % 4 == 0);
    if (read % 4 != 0) commit_some(24), let_go_on(child); /* stopped in its refresh then */
    commit_some(30);
    CHECK(kill(child, SIGCONT) == 0 && status_of(child) == 0);
    commit_some(3);
  }
  DONE(kefs_close(written.image));
}

/* Running */

static const struct test tests[] = {
  TEST(turns_beside_a_writer_give_one_commit), TEST(backups_beside_a_writer_are_as_after_one_commit), TEST(backups_beside_refreshes_are_as_after_one_commit),
  TEST(commits_within_a_backup_are_in_it), TEST(a_host_file_gets_longer_within_a_backup), TEST(a_failed_commit_of_lengths_is_not_seen),
  TEST(a_killed_writer_leaves_all_lengths_or_none), TEST(readers_follow_lengths_under_kills), TEST(a_stopped_reader_takes_no_lengths_for_others)};

int main(int argc, char **argv) {
  if (argc < 2 || chdir(argv[1]) != 0) return 2;
  if (argc > 2) seconds = atof(argv[2]);
  return try_all("lengths_kills", tests, sizeof tests / sizeof *tests, argc > 3 ? argv[3] : NULL);
}
