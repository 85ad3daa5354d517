/* costs FOLDER: what calls may cost at most: of commits a number of writes and syncs, of sparse files by what was ever written and not by their lengths, of waits next to
   nothing. Calls, processor time and memory are counted, which other work on the machine hardly changes. Each case is a process of its own (cases.h). */
#define _GNU_SOURCE
#define PROGRAM "costs"
#include "cases.h"
#include <sys/file.h>
#include <sys/mman.h>
#include <sys/resource.h>
#include <sys/syscall.h>
#include <sys/uio.h>

static double processor_seconds(void) { return seconds_of(CLOCK_PROCESS_CPUTIME_ID); }

/* Pages of addresses that the process has, and in *here how many of these it has in memory. */
static size_t addresses_now(size_t *here) {
  size_t all;
  FILE *facts = fopen("/proc/self/statm", "r");
  CHECK(facts != NULL && fscanf(facts, "%zu %zu", &all, here) == 2);
  fclose(facts);
  return all;
}

/* MiB that the process has in memory. */
static size_t memory_now(void) {
  size_t here;
  addresses_now(&here);
  return here * PAGE >> 20;
}

static void make_sparse(uint32_t length, size_t count) {
  struct kefs_file files[4];
  for (size_t i = 0; i < count; i++) files[i] = (struct kefs_file){length, KEFS_FILE_SPARSE, NULL};
  unlink(PATH);
  DONE(kefs_format(PATH, 0600, files, count));
}

static void a_map_of_an_empty_file_is_cheap(void) {
  make_sparse(1u << 31, 1);
  size_t memory = memory_now();
  double start = processor_seconds();
  a = open_file(PATH, &image);
  store(a + (1u << 30), 7);
  DONE(kefs_commit(image, NULL, 0, NULL));
  CHECK(processor_seconds() - start < 0.5 && memory_now() - memory < 40);
  open_again();
  CHECK(a[1u << 30] == 7 && a[(1u << 30) + PAGE] == 0 && a[0] == 0 && written() == 0);
  CHECK(processor_seconds() - start < 1 && memory_now() - memory < 40);
  DONE(kefs_close(image));
}

static void a_backup_of_empty_files_is_cheap(void) {
  void *at;
  make_sparse(UINT32_MAX, 4);
  flags = KEFS_TRACK_CALLER | KEFS_LAZY;
  a = open_file(PATH, &image);
  store(a + (3u << 30), 7);
  DONE(kefs_commit(image, NULL, 0, NULL));
  store(a + (1u << 30), 8);
  DONE(kefs_commit(image, NULL, 0, NULL));
  double start = processor_seconds();
  for (int i = 0; i < 2; i++) {
    kefs_image *source = image, *copy;
    if (i == 1) DONE(kefs_open(&source, PATH, KEFS_SNAPSHOT));
    unlink("copy.img");
    DONE(kefs_backup(source, "copy.img", 0600));
    DONE(kefs_open(&copy, "copy.img", KEFS_RDONLY | KEFS_LAZY));
    DONE(kefs_map(copy, 0, NULL, &at, NULL));
    CHECK(((unsigned char *)at)[3u << 30] == 7 && ((unsigned char *)at)[1u << 30] == 8 && ((unsigned char *)at)[0] == 0);
    DONE(kefs_close(copy));
    if (i == 1) DONE(kefs_close(source));
  }
  CHECK(processor_seconds() - start < 2);
  DONE(kefs_close(image));
}

/* Commits */

static long writes, copied; /* calls that write, and those that write homes */

static void note_write(off_t at) { writes++, copied += at >= 512 * image_sectors()->homes; }

ssize_t pwritev(int fd, const struct iovec *parts, int count, off_t at) {
  note_write(at);
  return syscall(SYS_pwritev, fd, parts, count, at, 0);
}

ssize_t pwrite(int fd, const void *from, size_t length, off_t at) {
  note_write(at);
  return syscall(SYS_pwrite64, fd, from, length, at);
}

static struct kefs_stat facts(void) {
  struct kefs_stat stat = {.size = sizeof stat};
  DONE(kefs_stat(image, &stat));
  return stat;
}

/* Of pages in a run it writes them, a map and the gate, each by one call, as long as the pages that are in slots and the new ones are no more than half of the
   slots. */
static void a_commit_to_a_pool_writes_no_home(void) {
  static const int runs[] = {1, 10, 100, 1000, 900, 10, 1};
  if (image_layout() != 4) _exit(SKIPPED);
  flags = KEFS_TRACK_CALLER;
  begin(2000, 0);
  for (size_t i = 0; i < COUNT_OF(runs); i++) {
    struct kefs_stat before = facts();
    writes = 0;
    for (int k = 0; k < runs[i]; k++) store(a + (size_t)(k + (i == 4 ? 1000 : 0)) * PAGE, (unsigned char)i);
    DONE(kefs_commit(image, NULL, 0, NULL));
    struct kefs_stat after = facts();
    CHECK(after.written_bytes - before.written_bytes <= (uint64_t)(runs[i] + MAP_BLOCKS) * PAGE + 512 && after.syncs - before.syncs == 2 && copied == 0);
    if (i < 4) CHECK(writes == 3);
  }
  DONE(kefs_close(image));
}

/* A pool with no room for a commit and for what is in it copies that home, once, and then has room for many. */
static void a_full_pool_is_emptied_at_once(void) {
  if (image_layout() != 4) _exit(SKIPPED);
  flags = KEFS_TRACK_CALLER;
  begin(2100, 0);
  for (int k = 0; k < 2000; k++) store(a + (size_t)k * PAGE, 1);
  DONE(kefs_commit(image, NULL, 0, NULL));
  for (int k = 2000; k < 2100; k++) store(a + (size_t)k * PAGE, 2);
  CHECK(copied == 0);
  DONE(kefs_commit(image, NULL, 0, NULL));
  CHECK(copied > 0 && facts().syncs == 4);
  copied = 0;
  for (int i = 0; i < 19; i++) {
    for (int k = 100 * i; k < 100 * i + 100; k++) store(a + (size_t)k * PAGE, 3);
    DONE(kefs_commit(image, NULL, 0, NULL));
  }
  CHECK(copied == 0);
  DONE(kefs_close(image));
}

/* Appends */

static long maps; /* calls that map memory, elsewhere than before, or no longer */

void *mmap(void *at, size_t length, int access, int kind, int fd, off_t from) {
  maps++;
  return (void *)syscall(SYS_mmap, at, length, access, kind, fd, from);
}

void *mremap(void *at, size_t length, size_t longer, int kind, ...) {
  maps++;
  return (void *)syscall(SYS_mremap, at, length, longer, kind, NULL);
}

int munmap(void *at, size_t length) {
  maps++;
  return (int)syscall(SYS_munmap, at, length);
}

/* How many more addresses, in pages, the process has after a commit of a file with so many pages more, none of them zeros. */
static long append(size_t pages) {
  size_t length, here;
  DONE(kefs_length(image, 0, &length));
  DONE(kefs_resize(image, 0, length + pages * PAGE));
  memset(a + length, 1, pages * PAGE);
  size_t before = addresses_now(&here);
  maps = 0;
  DONE(kefs_commit(image, NULL, 0, NULL));
  return (long)addresses_now(&here) - (long)before;
}

/* The room that the first one takes is there for those that follow, but where it is large. */
static void an_append_maps_no_memory(void) {
  void *at;
  if (image_layout() != 4) _exit(SKIPPED);
  make_file(PATH, PAGES, 0);
  DONE(kefs_open(&image, PATH, 0));
  DONE(kefs_map_growing(image, 0, NULL, 20000 * PAGE, &at, NULL));
  a = at;
  CHECK(append(1) > 0 && maps > 0);
  for (int k = 0; k < 100; k++) CHECK(append(1) == 0 && maps == 0);
  CHECK(append(1000) << 12 < 16 << 20 && maps > 0);
  for (size_t pages = 1; pages < 1024; pages += 100) CHECK(append(pages) == 0 && maps == 0);
  CHECK(append(5000) < 0 && maps > 0);
  CHECK(append(1) > 0 && append(1) == 0 && maps == 0);
  DONE(kefs_close(image));
}

/* Waits */

static int has_coarse_times; /* as where the times of a file system are whole seconds */

int fstat(int fd, struct stat *to) {
  int result = (int)syscall(SYS_fstat, fd, to);
  if (has_coarse_times) to->st_ctim.tv_nsec = 0;
  return result;
}

static long sleeps(void) {
  struct rusage usage;
  getrusage(RUSAGE_SELF, &usage);
  return usage.ru_nvcsw;
}

/* The image's lock, as another program has it. */
static int locked(void) {
  make_file(PATH, PAGES, 0);
  int fd = open(PATH, O_RDWR);
  CHECK(flock(fd, LOCK_EX) == 0);
  return fd;
}

/* Of openings to write, to read, and of a snapshot. */
static void a_wait_takes_hardly_any_time_of_a_processor(void) {
  struct kefs_options options = {.size = sizeof options, .wait = 3000};
  static const unsigned openings[] = {0, KEFS_RDONLY, KEFS_SNAPSHOT};
  locked();
  for (size_t i = 0; i < COUNT_OF(openings); i++) {
    double start = now(), before = processor_seconds();
    long looks = sleeps();
    RETURNS(KEFS_BUSY, kefs_open_with(&image, PATH, openings[i], &options));
    CHECK(now() - start > 2.9 && processor_seconds() - before < 0.010 && sleeps() - looks < 160);
  }
}

static long sleeps_of(pid_t process) {
  char path[64], line[256];
  long found = -1;
  snprintf(path, sizeof path, "/proc/%d/status", (int)process);
  FILE *facts = fopen(path, "r");
  while (facts != NULL && fgets(line, sizeof line, facts) != NULL) (void)!sscanf(line, "voluntary_ctxt_switches: %ld", &found);
  CHECK(facts != NULL && found >= 0);
  fclose(facts);
  return found;
}

static void a_wait_without_a_limit_is_one_sleep(void) {
  int fd = locked();
  for (unsigned opening = 0; opening <= KEFS_RDONLY; opening += KEFS_RDONLY) {
    CHECK(flock(fd, LOCK_EX) == 0);
    pid_t child = fork();
    if (child == 0) _exit(kefs_open(&image, PATH, opening) != KEFS_OK || kefs_close(image) != KEFS_OK);
    usleep(500000);
    long before = sleeps_of(child);
    sleep(1);
    CHECK(sleeps_of(child) - before <= 2);
    CHECK(flock(fd, LOCK_UN) == 0 && status_of(child) == 0);
  }
}

/* A snapshot beside nobody begins some seconds after the last change then. */
static void a_reading_waits_asleep_until_times_tell_changes(void) {
  make_file(PATH, PAGES, 7);
  has_coarse_times = 1;
  double start = now(), before = processor_seconds();
  long looks = sleeps();
  DONE(kefs_open(&image, PATH, KEFS_SNAPSHOT));
  CHECK(now() - start > 1.5 && processor_seconds() - before < 0.020 && sleeps() - looks < 250);
  DONE(kefs_close(image));
}

static const struct test with_each_tracker[] = {TEST(a_map_of_an_empty_file_is_cheap)};
static const struct test once[] = {TEST(a_commit_to_a_pool_writes_no_home), TEST(a_full_pool_is_emptied_at_once), TEST(an_append_maps_no_memory), TEST(a_backup_of_empty_files_is_cheap), TEST(a_wait_takes_hardly_any_time_of_a_processor), TEST(a_wait_without_a_limit_is_one_sleep),
  TEST(a_reading_waits_asleep_until_times_tell_changes)};

int main(int argc, char **argv) { return argc < 2 ? 2 : run_cases(argv, once, COUNT_OF(once), with_each_tracker, COUNT_OF(with_each_tracker)); }
