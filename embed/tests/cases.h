/* What programs of cases share: each case is a process of its own, which has to end well and in time, once or with each tracker that the system has. Images are of
   layout 4, or of that which the environment's LAYOUT says, but those that a case itself makes. A program says its name in PROGRAM before it takes this in. */
#ifndef KEFS_CASES_H
#define KEFS_CASES_H
#include "tests.h"
#include <sched.h>
#include <signal.h>
#include <sys/mount.h>
#include <sys/wait.h>
#include <time.h>

static const char *const program = PROGRAM;
enum { PAGE = KEFS_PAGE, PAGES = 64, SECONDS = 300, SKIPPED = 77 };
static unsigned flags; /* of the tracker that is tried, and KEFS_LAZY */
static const char *const PATH = "case.img";
static kefs_image *image;
static unsigned char *a;

static inline void check_that(int holds, const char *what, int line) {
  if (!holds) dprintf(2, "%s:%d: not so: %s (%s)\n", program, line, what, kefs_errmsg(NULL)), _exit(1);
}
#define CHECK(condition) check_that((condition) != 0, #condition, __LINE__)

static inline void check_result(int wanted, int result, const char *call, int line) {
  const char *words = kefs_strerror(result);
  if (result != wanted) dprintf(2, "%s:%d: %s returned %s: %s (%s)\n", program, line, call, kefs_name(result), words, kefs_errmsg(NULL)), _exit(1);
}
#define RETURNS(wanted, call) check_result(wanted, call, #call, __LINE__)
#define DONE(call) RETURNS(KEFS_OK, call)

typedef int maker(const char *path, unsigned permissions, const struct kefs_file *files, size_t count);

static inline void make_file_by(maker *make, const char *path, uint32_t pages, unsigned char byte) {
  unsigned char *content = byte == 0 ? NULL : malloc((size_t)pages * PAGE);
  if (content != NULL) memset(content, byte, (size_t)pages * PAGE);
  struct kefs_file file = {pages * PAGE, 0, content};
  unlink(path);
  DONE(make(path, 0600, &file, 1));
  free(content);
}

static inline void make_file(const char *path, uint32_t pages, unsigned char byte) { make_file_by(format_image, path, pages, byte); }

static inline unsigned char *open_file(const char *path, kefs_image **to) {
  void *at;
  DONE(kefs_open(to, path, flags));
  DONE(kefs_map(*to, 0, NULL, &at, NULL));
  return at;
}

static inline void begin(uint32_t pages, unsigned char byte) {
  make_file(PATH, pages, byte);
  a = open_file(PATH, &image);
}

static inline void store(unsigned char *at, unsigned char value) {
  *(volatile unsigned char *)at = value;
  if ((flags & KEFS_TRACK_CALLER) != 0) DONE(kefs_mark_dirty(image, at, 1));
}

static inline size_t written(void) {
  size_t pages;
  DONE(kefs_count_dirty(image, NULL, 0, &pages));
  return pages;
}

static inline void open_again(void) {
  DONE(kefs_close(image));
  a = open_file(PATH, &image);
}

static inline double seconds_of(clockid_t clock) {
  struct timespec time;
  clock_gettime(clock, &time);
  return (double)time.tv_sec + (double)time.tv_nsec * 1e-9;
}

static inline double now(void) { return seconds_of(CLOCK_MONOTONIC); }

/* A memory file system of so many bytes, which nobody else sees. */
static inline void mount_memory(const char *size) {
  char words[64];
  snprintf(words, sizeof words, "size=%s", size);
  mkdir("memory", 0700);
  if (unshare(CLONE_NEWNS) != 0 || mount(NULL, "/", NULL, MS_REC | MS_PRIVATE, NULL) != 0) _exit(SKIPPED);
  if (mount("none", "memory", "tmpfs", 0, words) != 0) _exit(SKIPPED);
}

static inline void fill_memory(void) {
  static char page[PAGE] = {1};
  int fd = open("memory/filler", O_WRONLY | O_CREAT, 0600);
  while (write(fd, page, PAGE) > 0) continue;
  close(fd);
}

/* The exit status of a child, or -1 where a signal ended it. */
static inline int status_of(pid_t child) {
  int status;
  return waitpid(child, &status, 0) == child && WIFEXITED(status) ? WEXITSTATUS(status) : -1;
}

/* Running */

struct test { void (*run)(void); const char *name; };
#define TEST(name) {name, #name}

static int failed, skipped, tried;

static inline void try(const struct test *test, const char *tracker) {
  fflush(NULL);
  pid_t child = fork();
  if (child == 0) {
    alarm(SECONDS);
    srandom((unsigned)getpid());
    test->run();
    _exit(0);
  }
  int status = 0;
  double start = now();
  waitpid(child, &status, 0);
  if (getenv("TIMES") != NULL) printf("%6.2f s %s, %s\n", now() - start, test->name, tracker);
  int is_skipped = WIFEXITED(status) && WEXITSTATUS(status) == SKIPPED, holds = status == 0 || is_skipped;
  if (WIFSIGNALED(status)) printf("%s: %s: signal %d\n", program, test->name, WTERMSIG(status));
  if (!holds) printf("%s: %s, %s: FAILED\n", program, tracker, test->name);
  tried++, failed += !holds, skipped += is_skipped;
}

/* Whether the system has the tracker. It is tried in a process of its own, since it may leave a handler of signals. */
static inline int is_there(void) {
  pid_t child = fork();
  if (child == 0) {
    make_file(PATH, 1, 0);
    _exit(kefs_open(&image, PATH, flags) == KEFS_NO_TRACKER);
  }
  return status_of(child) == 0;
}

static inline void try_all(const struct test *tests, size_t count, const char *name, const char *tracker) {
  for (size_t i = 0; i < count; i++)
    if (name == NULL || strcmp(name, tests[i].name) == 0) try(&tests[i], tracker);
}

/* Tries the cases in the folder that is the first word, all or the one that the second word names, and says how many failed: the status of the program. */
static inline int run_cases(char **words, const struct test *once, size_t count, const struct test *with_each_tracker, size_t each) {
  static const struct { unsigned flags; const char *name; } trackers[] = {
    {KEFS_TRACK_SCAN, "scan"}, {KEFS_TRACK_SIGNAL, "signal"}, {KEFS_TRACK_CALLER, "caller"},
    {KEFS_TRACK_SCAN | KEFS_LAZY, "scan, lazy"}, {KEFS_TRACK_CALLER | KEFS_LAZY, "caller, lazy"}};
  if (words[1] == NULL || chdir(words[1]) != 0) return 2;
  try_all(once, count, words[2], "once");
  for (size_t t = 0; t < sizeof trackers / sizeof *trackers && each > 0; t++) {
    flags = trackers[t].flags;
    if (is_there()) try_all(with_each_tracker, each, words[2], trackers[t].name);
  }
  printf("%s: layout %d, %d cases: %d failed, %d skipped\n", program, image_layout(), tried, failed, skipped);
  return failed > 0;
}
#define COUNT_OF(list) (sizeof (list) / sizeof *(list))
#endif
