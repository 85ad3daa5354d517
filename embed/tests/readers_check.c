/* readers_check FOLDER [CASE|-CASE]: readers beside a writer (KEFS_SNAPSHOT, kefs_refresh): what they see, other openings, files that change under them,
   threads and children. */
#define _GNU_SOURCE
#include "readers_tests.h"

/* What a snapshot is */

static sigjmp_buf elsewhere;

static void on_fault(int number) { siglongjmp(elsewhere, number); }

static void a_snapshot_stays_until_a_refresh(void) {
  begin(PAGES);
  unsigned char *there = r;
  commit(3, 1);
  CHECK(r[3 * PAGE] == 0 && refreshed() == 1 && r[3 * PAGE] == 1 && refreshed() == 0);
  for (int i = 0; i < 40; i++) {
    for (int n = i % 4; n >= 0; n--) commit((i * 7 + n * 3) % PAGES, (unsigned char)(i + 10));
    CHECK(refreshed() == 1 && memcmp(r, a, PAGES * PAGE) == 0);
  }
  commit(5, a[5 * PAGE]);
  a[6 * PAGE] = 77;
  CHECK(refreshed() == 0 && r[6 * PAGE] != 77 && kefs_refresh(reader, NULL) == KEFS_OK);
  void *at;
  DONE(kefs_map(reader, 0, NULL, &at, NULL));
  CHECK(at == there && r == there);
  signal(SIGSEGV, on_fault);
  int seen = sigsetjmp(elsewhere, 1);
  if (seen == 0) *(volatile unsigned char *)r = 1;
  CHECK(seen == SIGSEGV);
  end();
}

static void a_reader_takes_no_store_and_no_commit(void) {
  struct kefs_stat stat = {.size = sizeof stat};
  size_t pages = 9;
  begin(PAGES);
  RETURNS(KEFS_READ_ONLY, kefs_commit(reader, NULL, 0, NULL));
  RETURNS(KEFS_READ_ONLY, kefs_msync(reader, r, PAGE));
  RETURNS(KEFS_READ_ONLY, kefs_mark_dirty(reader, r, 1));
  DONE(kefs_rollback(reader, NULL, 0));
  DONE(kefs_touch(reader, r, PAGES * PAGE));
  DONE(kefs_count_dirty(reader, NULL, 0, &pages));
  DONE(kefs_stat(reader, &stat));
  CHECK(pages == 0 && strcmp(stat.tracker, "none") == 0 && stat.lazy == 0 && stat.files == 1 && stat.pages == PAGES + (image_layout() == 4 ? DIRECTORY_PAGES : 0) && stat.written_bytes == 0);
  DONE(kefs_recover(reader, NULL));
  DONE(kefs_unmap(reader, 0));
  commit(1, 1);
  CHECK(refreshed() == 1);
  void *at, *wanted = mmap(NULL, 2 * PAGES * PAGE, PROT_NONE, MAP_PRIVATE | MAP_ANONYMOUS, -1, 0);
  RETURNS(EEXIST, kefs_map(reader, 0, wanted, &at, NULL));
  munmap(wanted, 2 * PAGES * PAGE);
  DONE(kefs_map(reader, 0, wanted, &at, NULL));
  r = at;
  CHECK(at == wanted && r[PAGE] == 1);
  end();
}

static void a_refresh_of_anything_else_is_refused(void) {
  int changed = 9;
  begin(PAGES);
  RETURNS(KEFS_BAD_ARGUMENT, kefs_refresh(NULL, &changed));
  RETURNS(EINVAL, kefs_refresh(writer, &changed));
  CHECK(strstr(kefs_errmsg(writer), "KEFS_SNAPSHOT") != NULL && changed == 9);
  commit(1, 1); /* the writer goes on */
  struct kefs_options options = {.size = sizeof options};
  kefs_image *other;
  RETURNS(EINVAL, kefs_open_with(&other, PATH, KEFS_SNAPSHOT | KEFS_CREATE, &options));
  RETURNS(ENOENT, kefs_open(&other, "missing.img", KEFS_SNAPSHOT));
  RETURNS(KEFS_NOT_IMAGE, kefs_open(&other, ".", KEFS_SNAPSHOT));
  CHECK(close(open("none.img", O_RDWR | O_CREAT | O_TRUNC, 0600)) == 0);
  RETURNS(KEFS_NOT_IMAGE, kefs_open(&other, "none.img", KEFS_SNAPSHOT));
  CHECK(truncate("none.img", 6 << 20) == 0 && other == NULL);
  RETURNS(KEFS_NOT_IMAGE, kefs_open(&other, "none.img", KEFS_SNAPSHOT));
  DONE(kefs_close(writer));
  RETURNS(KEFS_OK, kefs_refresh(reader, &changed)); /* after the writer's end */
  CHECK(changed == 1 && r[PAGE] == 1);
  DONE(kefs_open(&writer, PATH, KEFS_RDONLY));
  RETURNS(EINVAL, kefs_refresh(writer, &changed));
  end();
}

/* Files of several kinds: their lengths are no pages, one is only a bound, and a last page has other bytes past its end. */
static void all_files_are_read(void) {
  static unsigned char garbage[PAGE];
  struct kefs_file files[] = {{3 * PAGE + 5, 0, NULL}, {0, 0, NULL}, {4, KEFS_FILE_READ_ONLY, "abcd"}, {3u << 30, KEFS_FILE_SPARSE, NULL}};
  unsigned char *at[4], *there[4];
  struct stat facts;
  make_files(PATH, files, 4);
  memset(garbage, 'g', sizeof garbage);
  CHECK(stat(PATH, &facts) == 0);
  off_t homes = facts.st_size - (off_t)PAGE * (4 + 0 + 1 + (3 << 18));
  int fd = open(PATH, O_RDWR);
  CHECK(pwrite(fd, garbage, PAGE, homes + 3 * PAGE) == PAGE && close(fd) == 0);
  DONE(kefs_open(&writer, PATH, KEFS_LAZY));
  DONE(kefs_open(&reader, PATH, KEFS_SNAPSHOT | KEFS_LAZY | KEFS_RDONLY));
  for (unsigned f = 0; f < 4; f++) {
    DONE(kefs_map(writer, f, NULL, (void **)&at[f], NULL));
    DONE(kefs_map(reader, f, NULL, (void **)&there[f], NULL));
  }
  CHECK(there[1] == NULL && memcmp(there[2], "abcd", 5) == 0);
  CHECK(there[0][3 * PAGE + 4] == 'g' && there[0][3 * PAGE + 5] == 0 && there[0][4 * PAGE - 1] == 0);
  for (int i = 1; i < 9; i++) {
    for (int n = i % 3; n >= 0; n--) {
      at[0][3 * PAGE + 4] = at[3][(size_t)i << 28] = at[3][PAGE] = (unsigned char)i;
      DONE(kefs_commit(writer, NULL, 0, NULL));
    }
    CHECK(refreshed() == 1 && there[0][3 * PAGE + 4] == i && there[0][3 * PAGE + 5] == 0);
    CHECK(there[3][(size_t)i << 28] == i && there[3][PAGE] == i && there[3][((size_t)i << 28) + PAGE] == 0);
  }
  end();
}

/* Commits of any pages, in few runs and in many, and of any number between two refreshes: each shows what the writer has, every page of it. */
static void a_refresh_after_any_commits_is_whole(void) {
  enum { MANY = 700 };
  begin(MANY);
  for (int round = 0; round < 40; round++) {
    for (long commits = random() % 24; commits >= 0; commits--) {
      long runs = random() % 8 == 0 ? 60 : random() % 6;
      for (long i = 0; i <= runs; i++) {
        int from = (int)(random() % MANY), most = (int)(random() % 9);
        for (int k = from; k < MANY && k <= from + most; k++) a[(size_t)k * PAGE + 8] = (unsigned char)random();
      }
      DONE(kefs_commit(writer, NULL, 0, NULL));
      if (random() % 6 == 0) DONE(kefs_tidy(writer)); /* a page may get the slot again that it had */
    }
    if (round % 10 == 9) {
      DONE(kefs_close(writer));
      a = opened(&writer, PATH, round % 20 == 19 ? KEFS_LAZY : 0);
    }
    refreshed();
    CHECK(memcmp(a, r, (size_t)MANY * PAGE) == 0);
  }
  end();
}

/* Where nothing was committed a refresh reads nothing, and after up to REACH commits their pages alone; without a writer it reads nothing either, when the
   last change is long ago. */
enum { REACH = 16 };
static void a_refresh_reads_what_has_changed(void) {
  make_file(PATH, 4096 * PAGE, 9);
  a = opened(&writer, PATH, 0);
  open_reader();
  commit(9, 1), refreshed();
  long start = get(&bytes_read);
  CHECK(refreshed() == 0 && get(&bytes_read) == start);
  commit(10, 1);
  CHECK(refreshed() == 1 && get(&bytes_read) - start < 20 * PAGE && r[10 * PAGE] == 1);
  start = get(&bytes_read);
  for (int i = 0; i < REACH; i++) commit(i, 2);
  CHECK(refreshed() == 1 && get(&bytes_read) - start < 40 * PAGE && r[0] == 2 && r[(REACH - 1) * PAGE] == 2);
  start = get(&bytes_read);
  for (int i = 0; i <= REACH; i++) commit(i, 3);
  CHECK(refreshed() == 1 && get(&bytes_read) - start > 4096 * PAGE / 8);
  DONE(kefs_close(writer));
  CHECK(refreshed() == 0);
  sleep(5);
  CHECK(refreshed() == 0);
  start = get(&bytes_read);
  CHECK(refreshed() == 0 && get(&bytes_read) == start);
  a = opened(&writer, PATH, 0);
  CHECK(refreshed() == 0);
  commit(11, 1);
  CHECK(refreshed() == 1 && r[11 * PAGE] == 1);
  end();
}

/* Where some call of it fails nothing has changed, and the next one is as good as any. */
static void a_refresh_that_fails_changes_nothing(void) {
  static unsigned char before[TWO_TURNS * PAGE];
  int result = KEFS_DEVICE;
  begin(TWO_TURNS);
  for (int i = 1; result != KEFS_OK; i++) {
    for (int n = 2; n >= 0; n--) a[(TWO_TURNS - 1) * PAGE] = (unsigned char)i, commit(n, (unsigned char)i);
    memcpy(before, r, sizeof before);
    failing_read = i;
    result = kefs_refresh(reader, NULL);
    CHECK(result == KEFS_OK ? i > 5 && memcmp(r, a, sizeof before) == 0 : result == KEFS_DEVICE && memcmp(r, before, sizeof before) == 0);
    CHECK(result == KEFS_OK || strstr(kefs_errmsg(reader), "pread of ") != NULL);
    failing_read = 0;
    CHECK(refreshed() == (result != KEFS_OK) && memcmp(r, a, sizeof before) == 0);
  }
  end();
}

/* Where no writer says that what it wrote is synced, the system may keep what the disk has not. */
static void what_may_not_be_synced_is_dropped(void) {
  begin(PAGES);
  long before = drops;
  commit(1, 1), refreshed();
  commit(1, 2), commit(1, 3), refreshed();
  DONE(kefs_close(reader));
  open_reader();
  CHECK(drops == before);
  DONE(kefs_close(writer));
  refreshed();
  CHECK(drops == before + 1);
  DONE(kefs_close(reader));
  open_reader();
  CHECK(drops == before + 2);
  DONE(kefs_close(reader));
}

/* Other openings */

/* A program of an older library has the image by flock alone, and tells no reader what it does. */
static void an_older_writer_is_not_read_beside(void) {
  kefs_image *other;
  make_file(PATH, PAGES * PAGE, 0);
  DONE(opened_within(&reader, KEFS_SNAPSHOT, 50));
  int fd = open(PATH, O_RDWR);
  CHECK(flock(fd, LOCK_EX | LOCK_NB) == 0); /* a reader holds nothing */
  RETURNS(KEFS_BUSY, opened_within(&other, KEFS_SNAPSHOT, 50));
  CHECK(strstr(kefs_errmsg(NULL), "another process") != NULL);
  RETURNS(KEFS_BUSY, kefs_refresh(reader, NULL));
  CHECK(flock(fd, LOCK_UN) == 0);
  DONE(kefs_refresh(reader, NULL));
  a = opened(&writer, PATH, 0);
  CHECK(flock(fd, LOCK_EX | LOCK_NB) == -1 && flock(fd, LOCK_SH | LOCK_NB) == -1); /* nor does an older reader run beside a writer */
  RETURNS(KEFS_BUSY, kefs_open(&other, PATH, KEFS_RDONLY | KEFS_NOWAIT));
  close(fd);
  end();
}

static void readers_of_both_kinds_stand_beside_each_other(void) {
  kefs_image *other;
  begin(PAGES);
  commit(1, 1);
  DONE(kefs_close(writer));
  a = opened(&writer, PATH, KEFS_RDONLY);
  CHECK(a[PAGE] == 1 && refreshed() == 1 && r[PAGE] == 1);
  DONE(kefs_open(&other, PATH, KEFS_SNAPSHOT | KEFS_NOWAIT));
  DONE(kefs_close(other));
  RETURNS(KEFS_BUSY, kefs_open(&other, PATH, KEFS_NOWAIT));
  end();
}

static void a_writer_opens_beside_readers_at_once(void) {
  kefs_image *more[5], *other;
  begin(PAGES);
  for (int i = 0; i < 5; i++) DONE(kefs_open(&more[i], PATH, KEFS_SNAPSHOT | KEFS_NOWAIT));
  for (int i = 0; i < 20; i++) {
    commit(i, 1);
    DONE(kefs_close(writer));
    DONE(kefs_open(&writer, PATH, KEFS_NOWAIT));
    void *at;
    DONE(kefs_map(writer, 0, NULL, &at, NULL));
    a = at;
    RETURNS(KEFS_BUSY, kefs_open(&other, PATH, KEFS_NOWAIT));
    int changed = 0;
    DONE(kefs_refresh(more[i % 5], &changed));
    CHECK(changed == 1);
  }
  for (int i = 0; i < 5; i++) DONE(kefs_close(more[i]));
  end();
}

/* Files */

static void a_file_that_was_replaced_is_told(void) {
  kefs_image *old = NULL;
  begin(PAGES);
  commit(1, 1), refreshed();
  make_file("new.img", PAGES * PAGE, 7);
  CHECK(rename("new.img", PATH) == 0);
  commit(2, 2);
  RETURNS(ESTALE, kefs_refresh(reader, NULL));
  CHECK(strstr(kefs_errmsg(reader), "replaced or removed") != NULL && r[PAGE] == 1 && r[2 * PAGE] == 0);
  old = writer;
  DONE(kefs_close(reader));
  open_reader();
  CHECK(r[PAGE] == 7);
  DONE(kefs_close(old));
  writer = NULL;
  CHECK(unlink(PATH) == 0);
  RETURNS(ESTALE, kefs_refresh(reader, NULL));
  end();
}

static void *open_waiting(void *unused) {
  open_reader();
  return unused;
}

/* While it waited for the turn. */
static void an_opening_takes_the_file_that_has_the_name(void) {
  pthread_t thread;
  make_file(PATH, PAGES * PAGE, 1), make_file("new.img", PAGES * PAGE, 2);
  int fd = open(PATH, O_RDWR);
  CHECK(flock(fd, LOCK_EX) == 0 && pthread_create(&thread, NULL, open_waiting, NULL) == 0);
  usleep(100000);
  CHECK(rename("new.img", PATH) == 0 && close(fd) == 0 && pthread_join(thread, NULL) == 0 && r[0] == 2);
  DONE(kefs_close(reader));
}

static int is_copied(int from, int to, size_t length) {
  unsigned char *bytes = malloc(length);
  int copied = pread(from, bytes, length, 0) == (ssize_t)length && pwrite(to, bytes, length, 0) == (ssize_t)length;
  free(bytes);
  return copied && close(from) == 0 && close(to) == 0;
}

static void a_file_of_another_length(void) {
  struct stat facts;
  size_t length;
  begin(PAGES);
  CHECK(stat(PATH, &facts) == 0 && truncate(PATH, facts.st_size + 5 * PAGE) == 0);
  commit(1, 1);
  CHECK(refreshed() == 1 && r[PAGE] == 1);
  DONE(kefs_close(writer));
  CHECK(truncate(PATH, facts.st_size - 512) == 0);
  RETURNS(KEFS_NOT_IMAGE, kefs_refresh(reader, NULL));
  CHECK(strstr(kefs_errmsg(reader), "cut") != NULL && r[PAGE] == 1);
  DONE(kefs_close(reader));
  make_file(PATH, PAGES * PAGE, 0);
  open_reader();
  make_files("new.img", (struct kefs_file[]){{PAGE, 0, NULL}, {(PAGES - 1) * PAGE, 0, NULL}}, 2);
  int from = open("new.img", O_RDONLY), to = open(PATH, O_WRONLY); /* made anew in place */
  CHECK(stat("new.img", &facts) == 0 && is_copied(from, to, (size_t)facts.st_size));
  if (image_layout() == 4) /* is as after a commit that cut the file */
    CHECK(refreshed() == 1 && kefs_length(reader, 0, &length) == KEFS_OK && length == PAGE);
  else {
    RETURNS(KEFS_NOT_IMAGE, kefs_refresh(reader, NULL));
    CHECK(strstr(kefs_errmsg(reader), "directory") != NULL);
  }
  DONE(kefs_close(reader));
}

static int layout_read(void) {
  struct kefs_stat facts = {.size = sizeof facts};
  DONE(kefs_stat(reader, &facts));
  return (int)facts.layout;
}

/* Made anew in place, with the file that it had. */
static void a_file_of_another_layout(void) {
  struct stat facts;
  int layout = image_layout();
  begin(PAGES);
  DONE(kefs_close(writer));
  CHECK(layout_read() == layout && setenv("LAYOUT", layout == 2 ? "4" : "2", 1) == 0);
  make_file("new.img", PAGES * PAGE, 7);
  int from = open("new.img", O_RDONLY), to = open(PATH, O_WRONLY);
  CHECK(stat("new.img", &facts) == 0 && is_copied(from, to, (size_t)facts.st_size));
  RETURNS(KEFS_NOT_IMAGE, kefs_refresh(reader, NULL));
  CHECK(strstr(kefs_errmsg(reader), "layout") != NULL && r[PAGE] == 0);
  DONE(kefs_close(reader));
  open_reader();
  CHECK(layout_read() == image_layout() && r[PAGE] == 7);
  DONE(kefs_close(reader));
}

/* All of a large image takes many turns, with commits between them. Each sets pages all over it to its number, and others now and then. */
enum { SPREAD = 40, STEP = 200, AT_FIRST = 0x09090909 };
static long is_over;
static size_t commits_made;

static unsigned *number_at(unsigned char *file, int k, int page) { return (unsigned *)(void *)(file + ((size_t)k * STEP + (size_t)page) * PAGE); }

static void *commit_numbers(void *unused) {
  for (unsigned n = 1; !get(&is_over); n++) {
    for (unsigned k = 0; k < SPREAD; k++) {
      *number_at(a, (int)k, 0) = n;
      if (n % (k + 1) == 0) *number_at(a, (int)k, 2) = n;
    }
    DONE(kefs_commit(writer, NULL, 0, NULL));
    __atomic_store_n(&commits_made, n, __ATOMIC_SEQ_CST);
  }
  return unused;
}

static void check_numbers(size_t least) {
  unsigned first = *number_at(r, 0, 0), commits = first == AT_FIRST ? 0 : first;
  CHECK(least <= commits);
  for (unsigned k = 0; k < SPREAD; k++) {
    unsigned last = commits - commits % (k + 1);
    CHECK(*number_at(r, (int)k, 0) == first && *number_at(r, (int)k, 1) == AT_FIRST && *number_at(r, (int)k, 2) == (last == 0 ? AT_FIRST : last));
  }
}

static void many_turns_give_one_commit(void) {
  pthread_t thread;
  make_file(PATH, SPREAD * STEP * PAGE, 9);
  a = opened(&writer, PATH, 0);
  CHECK(pthread_create(&thread, NULL, commit_numbers, NULL) == 0);
  for (int round = 0; round < 3; round++) {
    size_t least = __atomic_load_n(&commits_made, __ATOMIC_SEQ_CST);
    open_reader();
    check_numbers(least);
    for (int i = 0; i < 5; i++) {
      usleep((useconds_t)(random() % 20000));
      least = __atomic_load_n(&commits_made, __ATOMIC_SEQ_CST);
      refreshed();
      check_numbers(least);
    }
    unlink("backup.img");
    DONE(kefs_backup(reader, "backup.img", 0600));
    DONE(kefs_close(reader));
    r = opened(&reader, "backup.img", 0);
    check_numbers(least);
    DONE(kefs_close(reader));
  }
  set(&is_over, 1);
  CHECK(pthread_join(thread, NULL) == 0 && commits_made > 5);
  DONE(kefs_close(writer));
}

/* A small pool drops pages again and again, and a page may come to have the slot that it had: between two refreshes there are commits of few pages and of many, in
   runs and scattered. */
enum { DROPPING = 5000, ROUNDS = 120 };

/* More than 504 pages may be too many. */
static void commit_random(void) {
  static const int sizes[] = {1, 3, 40, 200, 500, 504, 900};
  int pages = sizes[(size_t)random() % (sizeof sizes / sizeof *sizes)], first = (int)(random() % (DROPPING - 1000)), step = random() % 2 == 0 ? 1 : 1 + (int)(random() % 900) / pages;
  for (int k = 0; k < pages; k++) *(long *)(void *)(a + (size_t)(first + k * step) * PAGE) = random();
  int result = kefs_commit(writer, NULL, 0, NULL);
  CHECK(result == KEFS_OK || (result == KEFS_TOO_MANY && pages > 504 && kefs_rollback(writer, NULL, 0) == KEFS_OK));
}

static void a_pool_that_drops_pages_is_followed(void) {
  struct kefs_file file = {DROPPING * PAGE, 0, NULL};
  struct kefs_options options = {.size = sizeof options, .permissions = 0600, .files = &file, .count = 1, .pool = 1};
  kefs_image *other;
  unlink(PATH);
  DONE(kefs_open_with(&writer, PATH, KEFS_CREATE, &options));
  DONE(kefs_close(writer));
  a = opened(&writer, PATH, 0);
  open_reader();
  for (int round = 0; round < ROUNDS; round++) {
    for (long commits = random() % 4; commits >= 0; commits--) commit_random();
    refreshed();
    CHECK(memcmp(a, r, DROPPING * PAGE) == 0);
    if (round % 20 != 0) continue;
    CHECK(memcmp(opened(&other, PATH, KEFS_SNAPSHOT), a, DROPPING * PAGE) == 0);
    DONE(kefs_close(other));
    DONE(kefs_close(writer));
    a = opened(&writer, PATH, round % 40 == 0 ? KEFS_LAZY : 0);
    CHECK(memcmp(a, r, DROPPING * PAGE) == 0 && refreshed() == 0);
  }
  end();
}

/* Threads and processes */

static void *refresh_many(void *unused) {
  kefs_image *image;
  unsigned char *at = opened(&image, PATH, KEFS_SNAPSHOT);
  for (int i = 0; i < 200; i++) {
    DONE(kefs_refresh(image, NULL));
    CHECK(at[PAGE] == at[9 * PAGE] && at[PAGE] == at[63 * PAGE]);
  }
  DONE(kefs_close(image));
  return unused;
}

static void threads_have_readers_and_a_writer(void) {
  pthread_t threads[4];
  make_file(PATH, PAGES * PAGE, 0);
  a = opened(&writer, PATH, 0);
  for (int i = 0; i < 4; i++) CHECK(pthread_create(&threads[i], NULL, refresh_many, NULL) == 0);
  for (int i = 0; i < 100; i++) {
    a[PAGE] = a[9 * PAGE] = a[63 * PAGE] = (unsigned char)i;
    DONE(kefs_commit(writer, NULL, 0, NULL));
  }
  for (int i = 0; i < 4; i++) CHECK(pthread_join(threads[i], NULL) == 0);
  DONE(kefs_close(writer));
}

/* While another thread refreshes a handle, its backup, its facts and its mapping. */
static void *use_reader(void *unused) {
  struct kefs_stat stat = {.size = sizeof stat};
  for (int i = 0; i < 20; i++) {
    unlink("backup.img");
    DONE(kefs_backup(reader, "backup.img", 0600));
    DONE(kefs_stat(reader, &stat));
    kefs_image *copy;
    unsigned char *at = opened(&copy, "backup.img", 0);
    CHECK(at[PAGE] == at[700 * PAGE] && at[PAGE] == at[1400 * PAGE]);
    DONE(kefs_close(copy));
  }
  set(&is_over, 1);
  return unused;
}

static void threads_share_a_reader(void) {
  pthread_t thread;
  begin(TWO_TURNS);
  CHECK(pthread_create(&thread, NULL, use_reader, NULL) == 0);
  for (unsigned i = 0; !get(&is_over); i++) {
    a[PAGE] = a[700 * PAGE] = a[1400 * PAGE] = (unsigned char)i;
    DONE(kefs_commit(writer, NULL, 0, NULL));
    refreshed();
  }
  CHECK(pthread_join(thread, NULL) == 0);
  end();
}

static void a_child_has_no_snapshot(void) {
  begin(PAGES);
  commit(1, 1);
  pid_t child = fork();
  if (child == 0) {
    signal(SIGSEGV, on_fault);
    int changed, seen = sigsetjmp(elsewhere, 1);
    if (seen == 0) seen = -*(volatile unsigned char *)r;
    CHECK(seen == SIGSEGV);
    RETURNS(KEFS_FORKED, kefs_refresh(reader, &changed));
    RETURNS(KEFS_FORKED, kefs_close(reader));
    RETURNS(KEFS_FORKED, kefs_close(writer));
    open_reader();
    CHECK(r[PAGE] == 1);
    _exit(kefs_close(reader));
  }
  CHECK(status_of(child) == 0 && refreshed() == 1 && r[PAGE] == 1);
  commit(2, 2);
  CHECK(refreshed() == 1);
  end();
}

static void descriptors_are_closed_by_exec(void) {
  begin(PAGES);
  for (int fd = 3; fd < 100; fd++) {
    int facts = fcntl(fd, F_GETFD);
    struct stat there;
    if (facts >= 0 && fstat(fd, &there) == 0 && S_ISREG(there.st_mode) && there.st_size > PAGES * PAGE) CHECK((facts & FD_CLOEXEC) != 0);
  }
  end();
}

static void lines_to_closed_streams_reach_no_snapshot(void) {
  make_file(PATH, PAGES * PAGE, 7);
  pid_t child = fork();
  if (child == 0) {
    close(0), close(1), close(2);
    open_reader();
    for (int fd = 0; fd < 3; fd++)
      if (write(fd, "a line that nobody reads\n", 25) >= 0) _exit(2);
    for (int k = 0; k < PAGES * PAGE; k++) CHECK(r[k] == 7);
    _exit(kefs_close(reader));
  }
  CHECK(status_of(child) == 0);
}

static void want_of_descriptors_is_told(void) {
  struct rlimit few;
  make_file(PATH, PAGES * PAGE, 0);
  int next = dup(0);
  close(next);
  CHECK(getrlimit(RLIMIT_NOFILE, &few) == 0);
  few.rlim_cur = (rlim_t)next + 1;
  CHECK(setrlimit(RLIMIT_NOFILE, &few) == 0);
  RETURNS(EMFILE, kefs_open(&reader, PATH, KEFS_SNAPSHOT));
  CHECK(reader == NULL);
}

static void *use_all(void *unused) {
  begin(PAGES);
  for (int i = 0; i < 3; i++) commit(i, 1), refreshed();
  commit(1, 2), commit(2, 2), refreshed();
  end();
  return unused;
}

static void small_stacks_suffice(void) {
  pthread_attr_t attributes;
  pthread_t thread;
  pthread_attr_init(&attributes);
  CHECK(pthread_attr_setstacksize(&attributes, 128 * 1024) == 0);
  CHECK(pthread_create(&thread, &attributes, use_all, NULL) == 0 && pthread_join(thread, NULL) == 0);
}

/* Running */

static const struct test tests[] = {
  TEST(a_snapshot_stays_until_a_refresh), TEST(a_reader_takes_no_store_and_no_commit), TEST(a_refresh_of_anything_else_is_refused),
  TEST(all_files_are_read), TEST(a_refresh_reads_what_has_changed), TEST(a_refresh_after_any_commits_is_whole), TEST(a_refresh_that_fails_changes_nothing),
  TEST(what_may_not_be_synced_is_dropped), TEST(an_older_writer_is_not_read_beside), TEST(readers_of_both_kinds_stand_beside_each_other),
  TEST(a_writer_opens_beside_readers_at_once), TEST(a_file_that_was_replaced_is_told), TEST(an_opening_takes_the_file_that_has_the_name),
  TEST(a_file_of_another_length), TEST(a_file_of_another_layout), TEST(many_turns_give_one_commit), TEST(a_pool_that_drops_pages_is_followed), TEST(threads_have_readers_and_a_writer), TEST(threads_share_a_reader),
  TEST(a_child_has_no_snapshot), TEST(descriptors_are_closed_by_exec), TEST(lines_to_closed_streams_reach_no_snapshot),
  TEST(want_of_descriptors_is_told), TEST(small_stacks_suffice)};

int main(int argc, char **argv) {
  if (argc < 2 || chdir(argv[1]) != 0) return 2;
  return try_all("readers_check", tests, sizeof tests / sizeof *tests, argc > 2 ? argv[2] : NULL);
}
