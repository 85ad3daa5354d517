/* ends FOLDER: calls that have to come to an end, and programs that have to live on: files without a name, full memory file systems, owners that were killed,
   handlers of signals that were there before, words of errors, readers that are stopped or hold what they can. Each case is a process of its own (cases.h). */
#define _GNU_SOURCE
#define PROGRAM "ends"
#include "cases.h"
#include <errno.h>
#include <pthread.h>
#include <setjmp.h>
#include <sys/mman.h>
#include <sys/resource.h>
#include <sys/syscall.h>

/* Names */

static void a_snapshot_of_a_file_without_a_name_is_refused(void) {
  char path[64];
  make_file(PATH, PAGES, 1);
  int fd = open(PATH, O_RDONLY);
  snprintf(path, sizeof path, "/proc/self/fd/%d", fd);
  CHECK(fd >= 0 && unlink(PATH) == 0);
  alarm(20);
  RETURNS(ESTALE, kefs_open(&image, path, KEFS_SNAPSHOT | KEFS_NOWAIT));
}

/* Memory file systems */

enum { BIG = 64 << 20, STORED = 900 }; /* bytes of a sparse file, and the page of it that is stored to */

/* A sparse file of which a page was committed, whose home has room then or, where it is still in the journal, has none. */
static void make_sparse(const char *path, int is_home) {
  struct kefs_file file = {BIG, KEFS_FILE_SPARSE, NULL};
  void *at;
  DONE(format_image(path, 0600, &file, 1));
  DONE(kefs_open(&image, path, KEFS_TRACK_CALLER));
  DONE(kefs_map(image, 0, NULL, &at, NULL));
  a = at;
  for (int round = 0; round <= is_home; round++) {
    a[STORED * PAGE] = 9;
    DONE(kefs_mark_dirty(image, a + STORED * PAGE, 1));
    if (round == 1) a[0] = 0, DONE(kefs_mark_dirty(image, a, 1)); /* so that the page is not taken again alone */
    DONE(kefs_commit(image, NULL, 0, NULL));
  }
  DONE(kefs_close(image));
}

static blkcnt_t blocks_of(const char *path) {
  struct stat there;
  CHECK(stat(path, &there) == 0);
  return there.st_blocks;
}

static int is_as_committed(const unsigned char *bytes) {
  for (size_t k = 0; k < BIG; k += PAGE)
    if (bytes[k] != (k == STORED * PAGE ? 9 : 0)) return 0;
  return 1;
}

static void read_all_of(unsigned opening) {
  void *at;
  DONE(kefs_open(&image, "memory/sparse.img", opening));
  DONE(kefs_map(image, 0, NULL, &at, NULL));
  CHECK(is_as_committed(at));
  unlink("copy.img");
  DONE(kefs_backup(image, "copy.img", 0600));
  DONE(kefs_close(image));
  DONE(kefs_open(&image, "copy.img", KEFS_RDONLY));
  DONE(kefs_map(image, 0, NULL, &at, NULL));
  CHECK(is_as_committed(at));
  DONE(kefs_close(image));
}

static void read_in_each_way(void) {
  static const unsigned openings[] = {KEFS_RDONLY, KEFS_RDONLY | KEFS_LAZY, 0, KEFS_LAZY, KEFS_TRACK_CALLER | KEFS_LAZY, KEFS_SNAPSHOT};
  blkcnt_t before = blocks_of("memory/sparse.img");
  for (size_t i = 0; i < COUNT_OF(openings); i++) read_all_of(openings[i]);
  CHECK(system("../kefscheck memory/sparse.img > /dev/null && ../kefscheck dump memory/sparse.img 0 > dumped") == 0);
  CHECK(blocks_of("memory/sparse.img") - before <= 16); /* at most what an opening to write makes sure of: 8,192 bytes */
}

static void try_memory(int is_home, int is_full) {
  mount_memory("40M");
  make_sparse("memory/sparse.img", is_home);
  if (is_full) fill_memory();
  read_in_each_way();
}

static void a_sparse_image_is_read_without_taking_room(void) { try_memory(1, 0); }
static void a_sparse_image_is_read_where_there_is_no_room(void) { try_memory(1, 1); }
static void a_journal_of_a_sparse_image_is_read_where_there_is_no_room(void) { try_memory(0, 1); }

/* A copy of an image in which all zeros are holes, of the journals and the gate too. */
static void a_copy_with_holes_is_read_where_there_is_no_room(void) {
  make_file("small.img", PAGES, 0);
  mount_memory("20M");
  CHECK(system("cp --sparse=always small.img memory/small.img") == 0);
  fill_memory();
  DONE(kefs_open(&image, "memory/small.img", KEFS_RDONLY));
  void *at;
  DONE(kefs_map(image, 0, NULL, &at, NULL));
  CHECK(((unsigned char *)at)[0] == 0);
  DONE(kefs_close(image));
  CHECK(system("../kefscheck memory/small.img > /dev/null") == 0);
  int result = kefs_open(&image, "memory/small.img", 0); /* what it has to read has no hole in layout 2 */
  RETURNS(image_layout() == 2 ? KEFS_OK : ENOSPC, result);
}

/* Owners that were killed */

/* A process that has the image, and a child of it that has closed its descriptors but for the one that says so. */
static void own_with_child(int told, int ready) {
  a = open_file(PATH, &image);
  pid_t child = fork();
  if (child == 0) {
    close_range(0, (unsigned)ready - 1, 0), close_range((unsigned)ready + 1, ~0u, 0);
    CHECK(write(ready, "", 1) == 1);
    pause();
  }
  CHECK(write(told, &child, sizeof child) == sizeof child);
  pause();
}

static void an_owner_that_was_killed_lets_the_image_go(void) {
  int told[2], ready[2];
  pid_t child, owner;
  char byte;
  make_file(PATH, PAGES, 0);
  CHECK(pipe(told) == 0 && pipe(ready) == 0);
  owner = fork();
  if (owner == 0) own_with_child(told[1], ready[1]);
  CHECK(read(told[0], &child, sizeof child) == sizeof child && read(ready[0], &byte, 1) == 1);
  kill(owner, SIGKILL), waitpid(owner, NULL, 0);
  int result = kefs_open(&image, PATH, KEFS_NOWAIT);
  kill(child, SIGKILL);
  DONE(result);
  DONE(kefs_close(image));
}

/* Handlers that were there before */

static sigjmp_buf elsewhere;
static volatile int has_mask, runs;

static void on_fault(int number) {
  sigset_t now_blocked;
  pthread_sigmask(SIG_SETMASK, NULL, &now_blocked);
  has_mask = sigismember(&now_blocked, SIGUSR1);
  runs++;
  siglongjmp(elsewhere, number);
}

static void install(int number, void (*handler)(int), int its_flags) {
  struct sigaction ours = {.sa_handler = handler, .sa_flags = its_flags};
  sigaddset(&ours.sa_mask, SIGUSR1);
  CHECK(sigaction(number, &ours, NULL) == 0);
}

static void fault(void) { *(volatile char *)(uintptr_t)PAGE = 1; }

/* The handler leaves by a jump that brings back no mask: as the kernel runs it with SA_NODEFER, the signal is not blocked then. */
static void a_handler_that_defers_nothing_may_jump(void) {
  install(SIGSEGV, on_fault, SA_NODEFER);
  flags = KEFS_TRACK_SIGNAL;
  begin(PAGES, 0);
  for (int round = 0; round < 3; round++) {
    if (sigsetjmp(elsewhere, 0) == 0) fault();
    CHECK(runs == round + 1 && has_mask == 1);
    sigset_t user;
    sigemptyset(&user), sigaddset(&user, SIGUSR1);
    pthread_sigmask(SIG_UNBLOCK, &user, NULL);
    store(a + round * PAGE, 1);
    CHECK(written() == (size_t)round + 1);
  }
  DONE(kefs_close(image));
}

static void a_handler_that_defers_runs_with_its_mask(void) {
  install(SIGSEGV, on_fault, 0);
  flags = KEFS_TRACK_SIGNAL;
  begin(PAGES, 0);
  if (sigsetjmp(elsewhere, 1) == 0) fault();
  CHECK(runs == 1 && has_mask == 1);
  store(a, 1);
  CHECK(written() == 1);
  DONE(kefs_close(image));
}

static void a_handler_for_one_signal_runs_once(void) {
  install(SIGSEGV, on_fault, SA_RESETHAND | SA_NODEFER);
  flags = KEFS_TRACK_SIGNAL;
  begin(PAGES, 0);
  if (sigsetjmp(elsewhere, 1) == 0) fault();
  CHECK(runs == 1);
  store(a, 1);
  CHECK(written() == 1);
  pid_t child = fork();
  if (child == 0) {
    setrlimit(RLIMIT_CORE, &(struct rlimit){0, 0});
    if (sigsetjmp(elsewhere, 1) == 0) fault();
    _exit(0);
  }
  int status;
  CHECK(waitpid(child, &status, 0) == child && WIFSIGNALED(status) && WTERMSIG(status) == SIGSEGV);
}

static void a_signal_that_is_ignored_stays_so(void) {
  signal(SIGSEGV, SIG_IGN);
  flags = KEFS_TRACK_SIGNAL;
  begin(PAGES, 0);
  CHECK(kill(getpid(), SIGSEGV) == 0);
  store(a, 1);
  CHECK(written() == 1);
  pid_t child = fork();
  if (child == 0) {
    setrlimit(RLIMIT_CORE, &(struct rlimit){0, 0});
    fault();
    _exit(0);
  }
  int status;
  CHECK(waitpid(child, &status, 0) == child && WIFSIGNALED(status) && WTERMSIG(status) == SIGSEGV);
  DONE(kefs_close(image));
}

/* A snapshot's copy is a file in memory, for the system. */
static void a_limit_of_files_is_an_error_and_no_signal(void) {
  struct kefs_file file = {PAGE, 0, NULL};
  make_file(PATH, PAGES, 0);
  DONE(kefs_open(&image, PATH, KEFS_RDONLY));
  unlink("unmade.img");
  CHECK(setrlimit(RLIMIT_FSIZE, &(struct rlimit){1 << 20, 1 << 20}) == 0);
  RETURNS(EFBIG, kefs_backup(image, "unmade.img", 0600));
  DONE(kefs_close(image));
  RETURNS(EFBIG, kefs_open(&image, PATH, KEFS_SNAPSHOT));
  RETURNS(EFBIG, kefs_format("unmade.img", 0600, &file, 1));
  CHECK(access("unmade.img", F_OK) != 0);
}

/* Words of errors */

static void *fail_in_words(void *of) {
  size_t length = *(const size_t *)of;
  char wanted[64];
  snprintf(wanted, sizeof wanted, "file %zu:", length);
  for (int i = 0; i < 50000; i++) {
    RETURNS(KEFS_NO_FILE, kefs_length(image, (unsigned)length, &(size_t){0}));
    CHECK(strncmp(kefs_errmsg(image), wanted, strlen(wanted)) == 0);
  }
  return NULL;
}

static void words_of_an_error_are_the_threads_own(void) {
  pthread_t threads[4];
  size_t numbers[] = {5, 17, 333, 4444};
  begin(PAGES, 0);
  for (int i = 0; i < 4; i++) CHECK(pthread_create(&threads[i], NULL, fail_in_words, &numbers[i]) == 0);
  for (int i = 0; i < 4; i++) CHECK(pthread_join(threads[i], NULL) == 0);
  CHECK(kefs_errmsg(image)[0] == 0);
  DONE(kefs_close(image));
}

static const struct test once[] = {
  TEST(a_snapshot_of_a_file_without_a_name_is_refused), TEST(a_sparse_image_is_read_without_taking_room),
  TEST(a_sparse_image_is_read_where_there_is_no_room), TEST(a_journal_of_a_sparse_image_is_read_where_there_is_no_room),
  TEST(a_copy_with_holes_is_read_where_there_is_no_room), TEST(an_owner_that_was_killed_lets_the_image_go),
  TEST(a_handler_that_defers_nothing_may_jump), TEST(a_handler_that_defers_runs_with_its_mask), TEST(a_handler_for_one_signal_runs_once),
  TEST(a_signal_that_is_ignored_stays_so), TEST(words_of_an_error_are_the_threads_own),
  TEST(a_limit_of_files_is_an_error_and_no_signal)};

int main(int argc, char **argv) { return argc < 2 ? 2 : run_cases(argv, once, COUNT_OF(once), NULL, 0); }
