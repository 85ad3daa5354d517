/* hostile FOLDER: programs that a library has to live through: closed streams, locked memory, cancelled threads, replaced files, kills
   while an image is made, few descriptors, small stacks, full devices, jumps into mapped memory, and the like. Each case is a process of its own (cases.h). */
#define _GNU_SOURCE
#define PROGRAM "hostile"
#include "cases.h"
#include <dirent.h>
#include <dlfcn.h>
#include <errno.h>
#include <fcntl.h>
#include <pthread.h>
#include <setjmp.h>
#include <signal.h>
#include <stdarg.h>
#include <stdio.h>
#include <stdlib.h>
#include <string.h>
#include <sys/file.h>
#include <sys/mman.h>
#include <sys/resource.h>
#include <sys/stat.h>
#include <sys/syscall.h>
#include <sys/wait.h>
#include <time.h>
#include <unistd.h>

/* Calls of the library that fail as they are told to */

static int no_room, no_faults;
static long page_bytes;

int fallocate(int fd, int mode, off_t at, off_t length) {
  if (no_room != 0) return errno = no_room, -1;
  return (int)syscall(SYS_fallocate, fd, mode, at, length);
}

/* Closes pages, and stores to the first one at once where it is told to. */
static int is_storing;

int mprotect(void *at, size_t length, int protection) {
  int result = (int)syscall(SYS_mprotect, at, length, protection);
  if (is_storing && protection == PROT_READ) is_storing = 0, *(volatile unsigned char *)at = 9;
  return result;
}

long sysconf(int name) {
  long (*next)(int) = (long (*)(int))(uintptr_t)dlsym(RTLD_NEXT, "sysconf");
  return name == _SC_PAGESIZE && page_bytes != 0 ? page_bytes : next(name);
}

long syscall(long number, ...) {
  static long (*next)(long, ...);
  va_list more;
  long words[6];
  if (number == SYS_userfaultfd && no_faults != 0) return errno = no_faults, -1;
  if (next == NULL) next = (long (*)(long, ...))(uintptr_t)dlsym(RTLD_NEXT, "syscall");
  va_start(more, number);
  for (int i = 0; i < 6; i++) words[i] = va_arg(more, long);
  va_end(more);
  return next(number, words[0], words[1], words[2], words[3], words[4], words[5]);
}

/* With each tracker */

static void print_to_closed_streams(int closed) {
  for (int fd = 0; fd < 3; fd++)
    if (closed >> fd & 1) close(fd);
  a = open_file(PATH, &image);
  for (int fd = 0; fd < 3; fd++)
    if ((closed >> fd & 1) && write(fd, "a line that nobody reads\n", 25) >= 0) _exit(2);
  store(a, 7);
  _exit(kefs_commit(image, NULL, 0, NULL) == KEFS_OK && kefs_close(image) == KEFS_OK ? 0 : 3);
}

static void lines_to_closed_streams_reach_no_image(void) {
  for (int closed = 1; closed < 8; closed++) {
    make_file(PATH, PAGES, 1);
    pid_t child = fork();
    if (child == 0) print_to_closed_streams(closed);
    CHECK(status_of(child) == 0);
    a = open_file(PATH, &image);
    CHECK(a[0] == 7 && a[PAGE] == 1);
    DONE(kefs_close(image));
  }
}

static void locked_memory_is_read(void) {
  if (mlockall(MCL_FUTURE) != 0) _exit(SKIPPED);
  begin(PAGES, 5);
  for (int k = 0; k < PAGES; k++) CHECK(a[k * PAGE] == 5 && a[k * PAGE + PAGE - 1] == 5);
  store(a + 3 * PAGE, 6);
  CHECK(written() == 1);
  DONE(kefs_commit(image, NULL, 0, NULL));
  open_again();
  for (int k = 0; k < PAGES; k++) CHECK(a[k * PAGE] == (k == 3 ? 6 : 5));
  DONE(kefs_close(image));
}

static void *commit_for_ever(void *unused) {
  for (unsigned n = 0;; n++) {
    store(a + n % PAGES * PAGE, (unsigned char)n);
    DONE(kefs_commit(image, NULL, 0, NULL));
    pthread_testcancel();
  }
  return unused;
}

static void a_cancelled_thread_leaves_no_lock(void) {
  begin(PAGES, 0);
  for (int round = 0; round < 30; round++) {
    pthread_t thread;
    CHECK(pthread_create(&thread, NULL, commit_for_ever, NULL) == 0);
    usleep((useconds_t)(random() % 3000));
    CHECK(pthread_cancel(thread) == 0 && pthread_join(thread, NULL) == 0);
    store(a, (unsigned char)round);
    DONE(kefs_commit(image, NULL, 0, NULL));
  }
  DONE(kefs_close(image));
}

static sigjmp_buf elsewhere;

static void on_fault(int number) { siglongjmp(elsewhere, number); }

static void a_jump_into_mapped_memory_is_a_fault(void) {
  signal(SIGSEGV, on_fault);
  begin(PAGES, 0xc3); /* a return, where it could run */
  int seen = sigsetjmp(elsewhere, 1);
  if (seen == 0) ((void (*)(void))(uintptr_t)a)();
  CHECK(seen == SIGSEGV && written() == 0);
  store(a, 1);
  CHECK(written() == 1);
  DONE(kefs_close(image));
}

static void no_bytes_are_no_pages(void) {
  size_t pages = 9;
  struct kefs_range none[1];
  begin(PAGES, 0);
  DONE(kefs_mark_dirty(image, a + 1, 0));
  CHECK(written() == 0);
  store(a, 1);
  DONE(kefs_count_dirty(image, none, 0, &pages));
  CHECK(pages == 0);
  DONE(kefs_rollback(image, none, 0));
  CHECK(a[0] == 1 && written() == 1);
  DONE(kefs_commit(image, none, 0, &pages));
  CHECK(pages == 0 && written() == 1);
  RETURNS(KEFS_BAD_RANGE, kefs_msync(image, &pages, 1));
  RETURNS(KEFS_BAD_RANGE, kefs_msync(image, a, PAGES * PAGE + 1));
  CHECK(written() == 1 && strstr(kefs_errmsg(image), "do not lie in one mapped file") != NULL);
  DONE(kefs_msync(image, a, PAGES * PAGE));
  CHECK(written() == 0);
  DONE(kefs_close(image));
}

static void *use_all_calls(void *unused) {
  size_t n;
  begin(PAGES, 2);
  store(a, 1);
  DONE(kefs_count_dirty(image, NULL, 0, &n));
  DONE(kefs_rollback(image, NULL, 0));
  for (int k = 0; k < PAGES; k++) store(a + k * PAGE, 3);
  DONE(kefs_commit(image, NULL, 0, NULL));
  store(a, 4);
  DONE(kefs_msync(image, a, 1));
  DONE(kefs_recover(image, NULL));
  DONE(kefs_touch(image, a, PAGE));
  unlink("backup.img");
  DONE(kefs_backup(image, "backup.img", 0600));
  DONE(kefs_close(image));
  return unused;
}

static void small_stacks_suffice(void) {
  pthread_attr_t attributes;
  pthread_t thread;
  const char *size = getenv("STACK");
  pthread_attr_init(&attributes);
  CHECK(pthread_attr_setstacksize(&attributes, (size_t)(size == NULL ? 128 : atoi(size)) * 1024) == 0);
  CHECK(pthread_create(&thread, &attributes, use_all_calls, NULL) == 0 && pthread_join(thread, NULL) == 0);
}

/* Each commit sets all of some pages to its number, so that a copy with pages of two commits shows. */
enum { SPREAD = 40 };
static volatile int is_over;

static void *commit_numbers(void *commits) {
  for (unsigned n = 1; !is_over; n++) {
    for (int k = 0; k < SPREAD; k++) {
      unsigned *number = (unsigned *)(void *)(a + k * 50 * PAGE);
      *number = n;
      DONE(kefs_mark_dirty(image, number, sizeof *number));
    }
    DONE(kefs_commit(image, NULL, 0, NULL));
    *(unsigned *)commits = n;
  }
  return NULL;
}

static void check_backup(unsigned least, unsigned most) {
  kefs_image *copy;
  unsigned char *there = open_file("backup.img", &copy);
  unsigned first = *(unsigned *)(void *)there;
  CHECK(least <= first && first <= most);
  for (int k = 0; k < SPREAD; k++) CHECK(*(unsigned *)(void *)(there + k * 50 * PAGE) == first && there[k * 50 * PAGE + PAGE + 1] == 9);
  DONE(kefs_close(copy));
}

static void a_backup_beside_commits_is_whole(void) {
  pthread_t thread;
  unsigned commits = 0;
  begin(SPREAD * 50, 9);
  CHECK(pthread_create(&thread, NULL, commit_numbers, &commits) == 0);
  while (__atomic_load_n(&commits, __ATOMIC_SEQ_CST) == 0) usleep(100);
  for (int round = 0; round < 10; round++) {
    unsigned least = __atomic_load_n(&commits, __ATOMIC_SEQ_CST);
    unlink("backup.img");
    DONE(kefs_backup(image, "backup.img", 0600));
    check_backup(least, __atomic_load_n(&commits, __ATOMIC_SEQ_CST) + 1);
  }
  is_over = 1;
  CHECK(pthread_join(thread, NULL) == 0 && commits > 10);
  RETURNS(EEXIST, kefs_backup(image, "backup.img", 0600));
  CHECK(strstr(kefs_errmsg(image), "backup.img") != NULL);
  DONE(kefs_close(image));
}

/* A store where the kernel has no mapping left marks its neighbours, and not all of the file. */
static void few_pages_are_marked_where_mappings_are_short(void) {
  enum { CROWD = 140000 };
  if ((flags & KEFS_TRACK_SIGNAL) == 0) return;
  begin(4000, 0);
  store(a + 100 * PAGE, 1), store(a + 3000 * PAGE, 1);
  unsigned char *crowd = mmap(NULL, (size_t)CROWD * PAGE, PROT_NONE, MAP_PRIVATE | MAP_ANONYMOUS | MAP_NORESERVE, -1, 0);
  CHECK(crowd != MAP_FAILED);
  size_t k = 0;
  while (k < CROWD && mprotect(crowd + k * PAGE, PAGE, PROT_READ) == 0) k += 2;
  store(a + 110 * PAGE, 1), store(a + 2990 * PAGE, 1);
  munmap(crowd, (size_t)CROWD * PAGE);
  size_t pages = written();
  CHECK(k < CROWD ? pages >= 4 && pages <= 22 : pages == 4);
  DONE(kefs_commit(image, NULL, 0, NULL));
  open_again();
  CHECK(a[110 * PAGE] == 1 && a[2990 * PAGE] == 1);
  DONE(kefs_close(image));
}

/* The second range finds a page that the first one has taken, and that was stored to since: it is for the next commit. */
static void a_store_between_two_ranges_is_not_lost(void) {
  size_t taken;
  if ((flags & KEFS_TRACK_SIGNAL) == 0) return;
  begin(PAGES, 0);
  struct kefs_range twice[] = {{a, PAGES * PAGE}, {a, PAGES * PAGE}};
  store(a, 1);
  is_storing = 1;
  DONE(kefs_commit(image, twice, 2, &taken));
  CHECK(taken == 1 && is_storing == 0 && a[0] == 9 && written() == 1);
  DONE(kefs_commit(image, NULL, 0, &taken));
  CHECK(taken == 1 && written() == 0);
  open_again();
  CHECK(a[0] == 9);
  DONE(kefs_close(image));
}

/* As where a program plays its own roll back after a commit of too many pages. */
static void pages_that_are_as_durable_are_not_too_many(void) {
  enum { MANY = 4100 };
  size_t taken = 0;
  begin(MANY, 5);
  for (int k = 0; k < MANY; k++) store(a + k * PAGE, 6);
  RETURNS(KEFS_TOO_MANY, kefs_commit(image, NULL, 0, NULL));
  CHECK(written() == MANY);
  for (int k = 0; k < MANY; k++) store(a + k * PAGE, 5);
  store(a + 77 * PAGE, 7), store(a + 1400 * PAGE, 8);
  if ((flags & KEFS_TRACK_CALLER) != 0) {
    RETURNS(KEFS_TOO_MANY, kefs_commit(image, NULL, 0, NULL));
  } else {
    DONE(kefs_commit(image, NULL, 0, &taken));
    CHECK(taken == 2 && written() == 0);
    store(a + 3 * PAGE, 9);
    CHECK(written() == 1);
    DONE(kefs_commit(image, NULL, 0, NULL));
    open_again();
    for (int k = 0; k < MANY; k++) CHECK(a[k * PAGE] == (k == 77 ? 7 : k == 1400 ? 8 : k == 3 ? 9 : 5));
  }
  DONE(kefs_close(image));
}

static void commit_pages(int first, int end, unsigned char value) {
  for (int k = first; k < end; k++) store(a + k * PAGE, value);
  DONE(kefs_commit(image, NULL, 0, NULL));
}

/* Pages of a small pool that are not read before it copies them home, and gives their slots to others. */
static void pages_that_leave_their_slots_unread_are_kept(void) {
  enum { MANY = 900, IN_POOL = 400 };
  struct kefs_file file = {MANY * PAGE, 0, NULL};
  struct kefs_options options = {.size = sizeof options, .permissions = 0600, .files = &file, .count = 1, .pool = 1};
  unlink(PATH);
  DONE(kefs_open_with(&image, PATH, KEFS_CREATE, &options));
  DONE(kefs_close(image));
  a = open_file(PATH, &image);
  commit_pages(0, IN_POOL, 1);
  open_again();
  CHECK(a[7 * PAGE] == 1);
  commit_pages(5, 9, 2);
  for (int i = 0; i < 5; i++) commit_pages(IN_POOL + 10 * i, IN_POOL + 10 * i + 400, (unsigned char)(3 + i));
  for (int k = 0; k < IN_POOL; k++) CHECK(a[k * PAGE] == (k >= 5 && k < 9 ? 2 : 1));
  open_again();
  for (int k = 0; k < IN_POOL; k++) CHECK(a[k * PAGE] == (k >= 5 && k < 9 ? 2 : 1));
  DONE(kefs_close(image));
}

static void a_sparse_file_takes_room_as_it_fills(void) {
  struct kefs_file sparse[] = {{PAGES * PAGE, 0, NULL}, {64u << 20, KEFS_FILE_SPARSE, NULL}, {PAGES * PAGE, 0, NULL}};
  struct stat there;
  void *at;
  unlink(PATH);
  DONE(format_image(PATH, 0600, sparse, 3));
  CHECK(stat(PATH, &there) == 0 && there.st_size > 64 << 20 && there.st_blocks * 512 < 1 << 20);
  DONE(kefs_open(&image, PATH, flags));
  DONE(kefs_map(image, 1, NULL, &at, NULL));
  a = at;
  for (no_room = ENOSPC; no_room == ENOSPC; no_room = no_room == ENOSPC ? EDQUOT : 0) {
    store(a + 7777 * (size_t)PAGE, 1), store(a + 9 * PAGE, 2);
    RETURNS(no_room, kefs_commit(image, NULL, 0, NULL));
    CHECK(written() == 2 && strstr(kefs_errmsg(image), "room for sectors ") != NULL);
  }
  no_room = 0;
  DONE(kefs_commit(image, NULL, 0, NULL));
  store(a + 100 * PAGE, 3);
  no_room = ENOSPC;
  RETURNS(ENOSPC, kefs_commit(image, NULL, 0, NULL));
  CHECK(written() == 1 && strstr(kefs_errmsg(image), "room for sectors ") != NULL);
  no_room = 0;
  DONE(kefs_commit(image, NULL, 0, NULL));
  DONE(kefs_close(image));
  DONE(kefs_open(&image, PATH, flags));
  DONE(kefs_map(image, 1, NULL, &at, NULL));
  a = at;
  CHECK(a[7777 * (size_t)PAGE] == 1 && a[9 * PAGE] == 2 && a[100 * PAGE] == 3 && written() == 0);
  DONE(kefs_close(image));
}

/* Once */

static void *open_waiting(void *unused) {
  a = open_file(PATH, &image);
  return unused;
}

static void an_opening_takes_the_file_that_has_the_name(void) {
  kefs_image *holder;
  pthread_t thread;
  make_file(PATH, PAGES, 1), make_file("new.img", PAGES, 2);
  DONE(kefs_open(&holder, PATH, 0));
  CHECK(pthread_create(&thread, NULL, open_waiting, NULL) == 0);
  usleep(100000);
  CHECK(rename("new.img", PATH) == 0);
  DONE(kefs_close(holder));
  CHECK(pthread_join(thread, NULL) == 0 && a[0] == 2);
  DONE(kefs_close(image));
}

static void make_for_ever(void) {
  for (;;) make_file_by(kefs_format, PATH, 4096, 3);
}

static int other_files(const char *begin) {
  int found = 0;
  DIR *folder = opendir(".");
  CHECK(folder != NULL);
  for (struct dirent *entry; (entry = readdir(folder)) != NULL;)
    found += strncmp(entry->d_name, begin, strlen(begin)) == 0 && strcmp(entry->d_name, begin) != 0;
  closedir(folder);
  return found;
}

static void a_kill_leaves_a_whole_image_or_none(void) {
  int whole = 0, none = 0;
  unlink(PATH);
  for (int round = 0; round < 30; round++) {
    pid_t child = fork();
    if (child == 0) make_for_ever();
    usleep((useconds_t)(random() % 60000));
    kill(child, SIGKILL), waitpid(child, NULL, 0);
    if (access(PATH, F_OK) != 0) {
      none++;
      continue;
    }
    whole++;
    a = open_file(PATH, &image);
    CHECK(a[0] == 3 && a[4096 * PAGE - 1] == 3);
    DONE(kefs_close(image));
  }
  CHECK(none + whole == 30 && other_files(PATH) == 0);
}

static void want_of_descriptors_changes_no_tracker(void) {
  struct rlimit few;
  make_file(PATH, PAGES, 0);
  int next = dup(0);
  close(next);
  CHECK(getrlimit(RLIMIT_NOFILE, &few) == 0);
  few.rlim_cur = (rlim_t)next + 1;
  CHECK(setrlimit(RLIMIT_NOFILE, &few) == 0);
  RETURNS(EMFILE, kefs_open(&image, PATH, 0));
  no_faults = ENOMEM;
  RETURNS(ENOMEM, kefs_open(&image, PATH, 0));
  no_faults = ENOSYS;
  DONE(kefs_open(&image, PATH, 0));
  struct kefs_stat facts = {.size = sizeof facts};
  DONE(kefs_stat(image, &facts));
  CHECK(strcmp(facts.tracker, "signal") == 0);
  DONE(kefs_close(image));
  RETURNS(KEFS_NO_TRACKER, kefs_open(&image, PATH, KEFS_TRACK_SCAN));
}

static void a_full_device_is_told(void) {
  struct kefs_file file = {PAGE, 0, NULL};
  for (int i = 0; i < 3; i++) {
    int number = i == 0 ? ENOSPC : i == 1 ? EDQUOT : EFBIG;
    unlink(PATH);
    no_room = number;
    RETURNS(number, kefs_format(PATH, 0600, &file, 1));
    CHECK(access(PATH, F_OK) != 0 && strstr(kefs_errmsg(NULL), PATH) != NULL);
  }
  no_room = EOPNOTSUPP; /* a file system that can't take room beforehand */
  DONE(kefs_format(PATH, 0600, &file, 1));
  a = open_file(PATH, &image);
  store(a, 1);
  DONE(kefs_commit(image, NULL, 0, NULL));
  DONE(kefs_close(image));
}

static void what_is_no_file_is_refused_at_once(void) {
  unlink("fifo");
  CHECK(mkfifo("fifo", 0600) == 0);
  RETURNS(KEFS_NOT_IMAGE, kefs_open(&image, "fifo", KEFS_RDONLY | KEFS_NOWAIT));
  RETURNS(KEFS_NOT_IMAGE, kefs_open(&image, "fifo", 0));
  unlink("fifo");
}

static void other_page_sizes_are_refused(void) {
  make_file(PATH, PAGES, 0);
  page_bytes = 65536;
  RETURNS(ENOSYS, kefs_open(&image, PATH, 0));
  CHECK(strstr(kefs_errmsg(NULL), "65536") != NULL);
}

/* Rolls all of a file back, with so many pages in the journal: the seconds of the processor. */
static double timed_roll_back(uint32_t pages, uint32_t journal) {
  flags = KEFS_TRACK_CALLER;
  begin(pages, 0);
  for (uint32_t k = 0; k < journal; k++) store(a + (size_t)k * (pages / journal) * PAGE, 1);
  DONE(kefs_commit(image, NULL, 0, NULL));
  DONE(kefs_mark_dirty(image, a, (size_t)pages * PAGE));
  double start = seconds_of(CLOCK_THREAD_CPUTIME_ID);
  DONE(kefs_rollback(image, NULL, 0));
  double taken = seconds_of(CLOCK_THREAD_CPUTIME_ID) - start;
  DONE(kefs_close(image));
  return taken;
}

static void a_roll_back_beside_a_full_journal_is_quick(void) {
  double one = timed_roll_back(32768, 1), full = timed_roll_back(32768, (uint32_t)image_sectors()->most);
  CHECK(full < 4 * one + 0.05);
}

static void a_wait_ends(void) {
  kefs_image *other;
  pthread_t thread;
  struct kefs_options options = {.size = sizeof options, .wait = 100};
  make_file(PATH, PAGES, 0);
  CHECK(pthread_create(&thread, NULL, open_waiting, NULL) == 0 && pthread_join(thread, NULL) == 0);
  double start = now();
  RETURNS(KEFS_BUSY, kefs_open_with(&other, PATH, 0, &options));
  double taken = now() - start;
  CHECK(taken >= 0.09 && taken < 5 && other == NULL);
  CHECK(strstr(kefs_errmsg(NULL), PATH) != NULL); /* and the process that has it, where the file system's numbers are those of /proc/locks */
  RETURNS(KEFS_BUSY, kefs_open(&other, PATH, KEFS_NOWAIT));
  options.size = 8;
  RETURNS(EINVAL, kefs_open_with(&other, PATH, 0, &options));
  DONE(kefs_close(image));
}

static void add_one(void) {
  struct kefs_file file = {PAGE, 0, NULL};
  size_t older = offsetof(struct kefs_options, pool); /* where nothing of `pool` is looked at */
  struct kefs_options options = {.size = older, .permissions = 0600, .files = &file, .count = 1, .pool = UINT32_MAX};
  void *at;
  DONE(kefs_open_with(&image, PATH, KEFS_CREATE, &options));
  DONE(kefs_map(image, 0, NULL, &at, NULL));
  ++*(int *)at;
  DONE(kefs_commit(image, NULL, 0, NULL));
  DONE(kefs_close(image));
  _exit(0);
}

static void an_opening_makes_an_image_once(void) {
  pid_t children[8];
  unlink(PATH);
  RETURNS(ENOENT, kefs_open(&image, PATH, 0));
  for (int i = 0; i < 8; i++)
    if ((children[i] = fork()) == 0) add_one();
  for (int i = 0; i < 8; i++) CHECK(status_of(children[i]) == 0);
  a = open_file(PATH, &image);
  CHECK(*(int *)(void *)a == 8);
  DONE(kefs_close(image));
  struct kefs_options options = {.size = sizeof options};
  RETURNS(EINVAL, kefs_open_with(&image, PATH, KEFS_CREATE | KEFS_RDONLY, &options));
  unlink("link");
  CHECK(symlink("no/where", "link") == 0);
  RETURNS(ENOENT, kefs_open_with(&image, "link", KEFS_CREATE, &options));
  unlink("link");
}

static void *other_message(void *unused) {
  CHECK(kefs_errmsg(NULL)[0] == 0);
  return unused;
}

static void a_failed_opening_has_words_of_its_thread(void) {
  pthread_t thread;
  CHECK(kefs_errmsg(NULL)[0] == 0);
  RETURNS(ENOENT, kefs_open(&image, "missing.img", 0));
  CHECK(strstr(kefs_errmsg(NULL), "missing.img: No such file") != NULL);
  CHECK(pthread_create(&thread, NULL, other_message, NULL) == 0 && pthread_join(thread, NULL) == 0);
  RETURNS(EINVAL, kefs_format(PATH, 0600, NULL, 4097));
  CHECK(strstr(kefs_errmsg(NULL), "4097 files") != NULL);
}

static void what_has_not_failed_recovers(void) {
  int stands = 9;
  begin(PAGES, 0);
  store(a, 1);
  DONE(kefs_recover(image, &stands));
  CHECK(stands == KEFS_BEFORE && written() == 1);
  DONE(kefs_close(image));
}

/* A lock is a child's too, until it ends. */
static void a_child_of_a_killed_owner_keeps_the_lock(void) {
  int pipes[2];
  pid_t child, owner;
  make_file(PATH, PAGES, 0);
  CHECK(pipe(pipes) == 0);
  owner = fork();
  if (owner == 0) {
    a = open_file(PATH, &image);
    child = fork();
    if (child == 0) pause();
    CHECK(write(pipes[1], &child, sizeof child) == sizeof child);
    pause();
  }
  CHECK(read(pipes[0], &child, sizeof child) == sizeof child);
  kill(owner, SIGKILL), waitpid(owner, NULL, 0);
  RETURNS(KEFS_BUSY, kefs_open(&image, PATH, KEFS_NOWAIT));
  kill(child, SIGKILL);
  DONE(kefs_open(&image, PATH, 0));
  DONE(kefs_close(image));
}

static const struct test with_each_tracker[] = {
  TEST(lines_to_closed_streams_reach_no_image), TEST(locked_memory_is_read), TEST(a_cancelled_thread_leaves_no_lock),
  TEST(a_jump_into_mapped_memory_is_a_fault), TEST(no_bytes_are_no_pages), TEST(small_stacks_suffice), TEST(a_backup_beside_commits_is_whole),
  TEST(pages_that_are_as_durable_are_not_too_many), TEST(few_pages_are_marked_where_mappings_are_short), TEST(a_store_between_two_ranges_is_not_lost), TEST(a_sparse_file_takes_room_as_it_fills), TEST(pages_that_leave_their_slots_unread_are_kept)};
static const struct test once[] = {
  TEST(an_opening_takes_the_file_that_has_the_name), TEST(a_kill_leaves_a_whole_image_or_none), TEST(want_of_descriptors_changes_no_tracker),
  TEST(a_full_device_is_told), TEST(what_is_no_file_is_refused_at_once), TEST(other_page_sizes_are_refused),
  TEST(a_roll_back_beside_a_full_journal_is_quick), TEST(a_wait_ends), TEST(an_opening_makes_an_image_once),
  TEST(a_failed_opening_has_words_of_its_thread), TEST(what_has_not_failed_recovers), TEST(a_child_of_a_killed_owner_keeps_the_lock)};

int main(int argc, char **argv) { return argc < 2 ? 2 : run_cases(argv, once, COUNT_OF(once), with_each_tracker, COUNT_OF(with_each_tracker)); }
