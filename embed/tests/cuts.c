/* cuts FOLDER COMMITS [kept|blocks]: power cuts and failing calls within commits, openings, recoveries in place and the making of an
   image. The calls on files that the library makes are those of this program, so that it is the library's own calls that are
   looked at, in their order. Before each of them power cuts are simulated, which leave the sectors that were not synced as
   they were, as they became, or each of them one of these, cut in its midst or of any bytes. Each image that is left is
   opened, and has to hold the files as before or as after the commit, and after it as after. Then each call fails once, and,
   where COMMITS is 40 or more, in the opening or recovery that follows each call again. A sync that fails leaves its sectors unsynced and clean: some have
   reached the disk, no later sync writes the others, and reads show them until the system is told to drop what it keeps.

   kept     a control: the system keeps what it has, whatever it is told. Some images have to be torn then.
   blocks   power is cut, and each block of 4,096 bytes that has an unsynced sector may hold any bytes, in all its sectors. Layout 4
            stands that, and layout 2 does not, which is the control: some of its images have to be torn.

   So are commits that are started and waited for: what is left has to hold the files as after some start, of those up to the last one the newest that was waited for or a
   later one. Some are started between the calls of the commit that runs.

   The images are of layout 4, or of that which the environment's LAYOUT says; those that the library makes are of layout 4. Of these some commits find a pool so
   full that they copy pages home. */
#define _GNU_SOURCE
#include "tests.h"
#include <errno.h>
#include <fcntl.h>
#include <stdarg.h>
#include <stdint.h>
#include <stdio.h>
#include <stdlib.h>
#include <string.h>
#include <sys/mman.h>
#include <sys/syscall.h>
#include <sys/uio.h>
#include <unistd.h>

enum { PAGE = KEFS_PAGE, SECTOR = 512, PAGES = 12, MOST_SECTORS = POOL_FRONT + 8 * (DIRECTORY_PAGES + PAGES), MOST_BYTES = SECTOR * MOST_SECTORS, FILLINGS = 4 };
enum { BLOCK = 8, FIRST_PAGES = 8 }; /* sectors of a block; pages of file 0 */
enum model { DROPS, KEEPS, BLOCKS };
static const char *const PATH = "cuts.img";

/* The device: what the disk holds, what a read gives, and which sectors the next sync writes. */
static unsigned char disk[MOST_BYTES], cached[MOST_BYTES], left[MOST_BYTES], dirty[MOST_SECTORS], *left_file;
static size_t bytes, sectors;  /* of the image */
static unsigned char used[MOST_SECTORS]; /* what commits of so few pages can write: of the rest of the journals nothing is looked at */
static enum model model;
static size_t map_blocks = MAP_BLOCKS; /* of a pool */
static long each = 1, seen; /* of calls that are neither syncs nor writes of the gate power is cut before each so many */
static int watched = -1;    /* the descriptor whose calls are noted, or -1 */
static int is_cutting;      /* power is cut before each call */
static enum kind { ANY, GATE_WRITE, SYNC, KINDS } counted; /* which calls are noted, */
static long calls, failing; /* how many they were, and the one that fails, or 0 */
static int failing_number = EIO, reaching; /* with what, and how many of four dirty sectors reach the disk in a sync that fails */
static long cuts, bad, failures;
static unsigned char before[PAGES * PAGE], after[PAGES * PAGE];
enum { STARTS = 24 };
static unsigned char states[STARTS + 1][PAGES * PAGE]; /* the files as after so many starts, */
static int is_living, starts, waited, lets_in;        /* where that is looked at; how many there were, how many were waited for, and whether more may come now */
static void start_some(void);

static void die(const char *what) { perror(what), exit(1); }

static void must(int result, const char *what) {
  if (result != KEFS_OK) fprintf(stderr, "cuts: %s: %s: %s\n", what, kefs_name(result), kefs_strerror(result)), exit(1);
}

static void expect(int holds, const char *what, int line) {
  if (!holds) fprintf(stderr, "cuts.c:%d: not so: %s\n", line, what);
  bad += !holds;
}
#define EXPECT(condition) expect((condition) != 0, #condition, __LINE__)

static void use(size_t first, size_t end) { memset(used + first / BLOCK * BLOCK, 1, (end + BLOCK - 1) / BLOCK * BLOCK - first / BLOCK * BLOCK); }

/* Of a pool: the block of a map that says how many count. Slots are behind it. */
static size_t map_of_pool(size_t j) { return 16 + 4040 * map_blocks * j + BLOCK * (map_blocks - 1); }

enum { SLOTS = PAGES * PAGES }; /* of a body that commits of so few pages take: each takes a row, and behind so many slots with a page and rows too short lies one */

static size_t homes_of(int layout) { return layout == 4 ? 16 + 8080 * map_blocks : (size_t)sectors_of(layout)->homes; }

/* A journal is a map of a block and a body. */
static void use_image(int layout) {
  size_t homes = homes_of(layout), journals = BLOCK * (1 + PAGES), map[] = {map_of_pool(0), map_of_pool(1)};
  sectors = homes + BLOCK * (PAGES + (layout == 4 ? DIRECTORY_PAGES : 0)), bytes = SECTOR * sectors;
  memset(used, 0, sizeof used);
  if (layout == 2) use(0, 3 + journals);
  else use(0, 9), use(map[0], map[0] + BLOCK * (1 + SLOTS)), use(map[1], map[1] + BLOCK * (1 + SLOTS));
  use(homes, sectors);
}

/* The first used sector from `s` on, or `sectors`. */
static size_t next_used(size_t s) {
  while (s < sectors && !used[s]) s++;
  return s;
}

/* Cuts */

static void fill_sector(int way, size_t sector) {
  unsigned char *to = left + SECTOR * sector;
  size_t cut = way == 0 ? 0 : way == 1 ? SECTOR : (size_t)random() % SECTOR;
  memcpy(to, cached + SECTOR * sector, cut);
  for (size_t i = 0; way == 3 && i < SECTOR; i++) to[i] = (unsigned char)random();
}

static int is_dirty_block(size_t sector) {
  size_t first = sector / BLOCK * BLOCK;
  return first + BLOCK <= sectors && memchr(dirty + first, 1, BLOCK) != NULL;
}

static void fill_left(int filling) {
  for (size_t s = next_used(0); s < sectors; s = next_used(s + 1)) {
    int is_torn = model == BLOCKS && filling >= 2 && is_dirty_block(s);
    memcpy(left + SECTOR * s, disk + SECTOR * s, SECTOR);
    if (dirty[s] || is_torn) fill_sector(filling < 2 ? filling : (int)(random() % 4), s);
  }
}

/* Writes to the file left.img what it does not hold already. */
static void write_left(void) {
  for (size_t s = next_used(0); s < sectors; s = next_used(s + 1))
    if (memcmp(left_file + SECTOR * s, left + SECTOR * s, SECTOR) != 0) memcpy(left_file + SECTOR * s, left + SECTOR * s, SECTOR);
}

static int is_held(kefs_image *image, const unsigned char *files) {
  void *first, *second;
  must(kefs_map(image, 0, NULL, &first, NULL), "map"), must(kefs_map(image, 1, NULL, &second, NULL), "map");
  return memcmp(first, files, FIRST_PAGES * PAGE) == 0 && memcmp(second, files + FIRST_PAGES * PAGE, (PAGES - FIRST_PAGES) * PAGE) == 0;
}

/* After which start the files are, from the first one that they may be after on, or -1. */
static int start_held(kefs_image *image) {
  for (int n = waited; n <= starts; n++)
    if (is_held(image, states[n])) return n;
  return -1;
}

static int is_whole(int is_over) {
  kefs_image *image;
  if (kefs_open(&image, "left.img", KEFS_TRACK_CALLER) != KEFS_OK) return 0;
  int holds = is_living ? start_held(image) >= 0 : is_held(image, after) || (!is_over && is_held(image, before));
  must(kefs_close(image), "left.img");
  return holds;
}

static void cut_power(int is_over) {
  int fd = watched;
  watched = -1;
  for (int filling = 0; filling < FILLINGS; filling++, cuts++) {
    fill_left(filling);
    write_left();
    bad += !is_whole(is_over);
  }
  watched = fd;
}

/* The library's calls */

static int fails(enum kind kind) {
  if (is_cutting && (kind != ANY || seen++ % each == 0)) cut_power(0);
  if (lets_in && random() % 3 == 0) start_some();
  if (counted != ANY && counted != kind) return 0;
  if (++calls != failing) return 0;
  lets_in = 0; /* the recovery that may follow keeps the image's lock */
  errno = failing_number;
  return 1;
}

static void note_write(const struct iovec *part, off_t at) {
  size_t first = (size_t)at / SECTOR, count = part->iov_len / SECTOR;
  if (first + count > sectors || memchr(used + first, 0, count) != NULL) fprintf(stderr, "cuts: a write at sector %zu\n", first), exit(1);
  memcpy(cached + at, part->iov_base, part->iov_len);
  memset(dirty + first, 1, count);
}

ssize_t pwritev(int fd, const struct iovec *parts, int count, off_t at) {
  ssize_t made = 0;
  if (fd == watched && fails(at == SECTOR * image_sectors()->gate ? GATE_WRITE : ANY)) return -1;
  for (const struct iovec *part = parts; part < parts + count; at += (off_t)part++->iov_len) {
    if (fd == watched) note_write(part, at);
    if (syscall(SYS_pwrite64, fd, part->iov_base, part->iov_len, at) != (ssize_t)part->iov_len) die("pwrite");
    made += (ssize_t)part->iov_len;
  }
  return made;
}

ssize_t pwrite(int fd, const void *from, size_t length, off_t at) { return pwritev(fd, &(struct iovec){(void *)(uintptr_t)from, length}, 1, at); }

int fdatasync(int fd) {
  if (fd != watched) return 0; /* what is left of an image has only to be read */
  int is_failing = fails(SYNC);
  for (size_t s = next_used(0); s < sectors; s = next_used(s + 1))
    if (dirty[s] && (!is_failing || random() % 4 < reaching)) memcpy(disk + SECTOR * s, cached + SECTOR * s, SECTOR);
  memset(dirty, 0, sizeof dirty);
  return is_failing ? errno = failing_number, -1 : 0;
}

int fsync(int fd) { return fdatasync(fd); }

/* What is dropped is read from the disk again. */
int posix_fadvise(int fd, off_t at, off_t length, int advice) {
  if (fd != watched || advice != POSIX_FADV_DONTNEED || at != 0 || length != 0 || model == KEEPS) return 0;
  for (size_t s = next_used(0); s < sectors; s = next_used(s + 1)) {
    if (dirty[s] || memcmp(cached + SECTOR * s, disk + SECTOR * s, SECTOR) == 0) continue;
    memcpy(cached + SECTOR * s, disk + SECTOR * s, SECTOR);
    if (syscall(SYS_pwrite64, fd, disk + SECTOR * s, SECTOR, SECTOR * s) != SECTOR) die("pwrite");
  }
  return 0;
}

/* An opening of the image, or of a file that is to become one, is watched from here on. */
static int is_making, has_no_unnamed;

int open(const char *path, int flags, ...) {
  va_list more;
  va_start(more, flags);
  mode_t mode = (flags & (O_CREAT | O_TMPFILE)) != 0 ? va_arg(more, mode_t) : 0;
  va_end(more);
  int is_unnamed = (flags & O_TMPFILE) == O_TMPFILE;
  if (is_unnamed && has_no_unnamed) return errno = EOPNOTSUPP, -1;
  int fd = (int)syscall(SYS_openat, AT_FDCWD, path, flags, mode);
  if (is_making ? is_unnamed || (flags & O_CREAT) != 0 : strcmp(path, PATH) == 0) watched = fd;
  return fd;
}

/* Commits */

static kefs_image *image;
static unsigned char *files[2];

static unsigned char *page_at(int k) { return k < FIRST_PAGES ? files[0] + k * PAGE : files[1] + (k - FIRST_PAGES) * PAGE; }

static int try_opening(void) {
  void *at[2];
  int result = kefs_open(&image, PATH, 0);
  if (result != KEFS_OK) return result;
  must(kefs_map(image, 0, NULL, &at[0], NULL), "map"), must(kefs_map(image, 1, NULL, &at[1], NULL), "map");
  files[0] = at[0], files[1] = at[1];
  return KEFS_OK;
}

static int most_stored = PAGES;

static void store_some(void) {
  memcpy(before, after, sizeof before);
  for (int n = 1 + (int)(random() % most_stored); n > 0; n--) {
    unsigned char *at = page_at((int)(random() % PAGES));
    for (int i = 0; i < PAGE; i += 1 + (int)(random() % 64)) at[i] = (unsigned char)random();
  }
  for (int k = 0; k < PAGES; k++) memcpy(after + k * PAGE, page_at(k), PAGE);
}

static void commit_some(int with_cuts) {
  store_some();
  is_cutting = with_cuts;
  must(kefs_commit(image, NULL, 0, NULL), "commit");
  is_cutting = 0;
  if (with_cuts) cut_power(1);
}

static void close_image(void) {
  must(kefs_close(image), "close");
  watched = -1;
}

/* A new image. That of layout 4 has the smallest pool. */
static void make_new(void) {
  struct kefs_file specs[] = {{FIRST_PAGES * PAGE, 0, NULL}, {(PAGES - FIRST_PAGES) * PAGE, 0, NULL}};
  struct kefs_options options = {.size = sizeof options, .permissions = 0600, .files = specs, .count = 2, .pool = 1};
  unlink(PATH);
  if (image_layout() != 4) must(format_image(PATH, 0600, specs, 2), PATH);
  else must(kefs_open_with(&image, PATH, KEFS_CREATE, &options), PATH), must(kefs_close(image), PATH);
}

/* Begins on a device that holds a new image, all of it synced. */
static void begin(void) {
  make_new();
  watched = -1;
  int from = (int)syscall(SYS_openat, AT_FDCWD, PATH, O_RDONLY);
  if (pread(from, disk, bytes, 0) != (ssize_t)bytes) die(PATH);
  close(from);
  memcpy(cached, disk, sizeof cached);
  memset(dirty, 0, sizeof dirty), memset(before, 0, sizeof before), memset(after, 0, sizeof after);
  failing = 0;
  must(try_opening(), PATH);
}

/* Full pools */

enum { FULL = 984 }; /* of 1,008 slots */

static void put_bytes(size_t sector, const void *from, size_t length) {
  memcpy(disk + SECTOR * sector, from, length), memcpy(cached + SECTOR * sector, from, length);
  int fd = (int)syscall(SYS_openat, AT_FDCWD, PATH, O_WRONLY);
  if (syscall(SYS_pwrite64, fd, from, length, SECTOR * sector) != (long)length) die(PATH);
  close(fd);
}

/* Has the map that the gate names give nearly all slots to homes, each to the first of its own, and to others that are not looked at. */
static void fill_pool(void) {
  static uint32_t map[1024];
  int is_open = memcmp(cached + SECTOR * image_sectors()->gate, "GATEOPEN", 8) == 0;
  memset(map, 0, sizeof map);
  map[0] = 1;
  for (uint32_t slot = 0; slot < FULL; slot++) map[16 + slot] = 1 + DIRECTORY_PAGES + slot % PAGES;
  put_bytes(map_of_pool((size_t)is_open), map, sizeof map);
  for (size_t k = 0; k < PAGES; k++) put_bytes(map_of_pool(0) + BLOCK * (1 + k), after + k * PAGE, PAGE);
}

static long tidied;

/* Nothing of the files is another one before, within and after it. */
static void tidy_some(void) {
  is_cutting = 1;
  must(kefs_tidy(image), "tidy");
  is_cutting = 0, tidied++;
  cut_power(1);
}

/* A commit to it copies the pages home that it does not take, and a tidy all. */
static void try_full_pools(int commits) {
  struct kefs_stat stat = {.size = sizeof stat};
  each = 61, most_stored = 4;
  use(0, sectors);
  for (int i = 0; i < commits / 10 + 1; i++) {
    close_image();
    fill_pool();
    must(try_opening(), PATH);
    commit_some(1);
    must(kefs_stat(image, &stat), "stat");
    EXPECT(stat.written_bytes > (uint64_t)FULL / 2 * PAGE);
    close_image();
    fill_pool();
    must(try_opening(), PATH);
    memcpy(before, after, sizeof before);
    tidy_some();
    commit_some(1);
  }
  each = 1, most_stored = PAGES;
}

/* Failing calls */

/* Makes call `n` of a kind fail in a commit that has the homes of another to write: KEFS_OK where it makes fewer of them. */
static int fail_commit(long n, enum kind kind) {
  commit_some(0);
  store_some();
  calls = 0, failing = n, counted = kind;
  int result = kefs_commit(image, NULL, 0, NULL);
  counted = ANY;
  if (calls < n) failing = 0;
  return result;
}

/* The files that stand are those before or after; from here on they alone are right. */
static void settle_on(int is_after) {
  if (!is_after) memcpy(after, before, sizeof after);
  else memcpy(before, after, sizeof before);
  cut_power(1);
}

/* Opens the image, whose call `m` fails where it is not 0, until it opens. */
static void open_with_failure(long m) {
  calls = 0, failing = m, is_cutting = 1;
  for (int result = try_opening(); result != KEFS_OK; result = try_opening()) {
    EXPECT(result == KEFS_DEVICE && kefs_errmsg(NULL)[0] != 0);
    failing = 0;
  }
  failing = is_cutting = 0;
  int is_after = is_held(image, after);
  EXPECT(is_after || is_held(image, before));
  settle_on(is_after);
}

static int are_equal(const unsigned char *wanted) {
  int equal = 1;
  for (int k = 0; k < PAGES; k++) equal &= memcmp(page_at(k), wanted + k * PAGE, PAGE) == 0;
  return equal;
}

/* Recovers it in place in the same way. What was stored is there, and is to be committed yet where the files are as before. */
static void recover_with_failure(long m) {
  static unsigned char stored[PAGES * PAGE];
  int stands = 9;
  size_t pages;
  memcpy(stored, after, sizeof stored);
  EXPECT(kefs_commit(image, NULL, 0, NULL) == KEFS_HALTED && kefs_rollback(image, NULL, 0) == KEFS_HALTED && kefs_errmsg(image)[0] != 0);
  calls = 0, failing = m, is_cutting = 1;
  for (int result = kefs_recover(image, &stands); result != KEFS_OK; result = kefs_recover(image, &stands)) {
    EXPECT(result == KEFS_DEVICE && stands == 9);
    failing = 0;
  }
  failing = is_cutting = 0;
  EXPECT((stands == KEFS_BEFORE || stands == KEFS_AFTER) && are_equal(stored));
  must(kefs_count_dirty(image, NULL, 0, &pages), "written");
  EXPECT((pages == 0) == (stands == KEFS_AFTER));
  settle_on(stands == KEFS_AFTER);
  must(kefs_commit(image, NULL, 0, NULL), "commit");
  memcpy(after, stored, sizeof after);
  cut_power(1);
}

/* Call `n` of a kind of a commit fails, and call `m` of what follows: 0 where a commit has no such call. */
static int try_failure(long n, long m, enum kind kind, int in_place) {
  reaching = (int)(random() % 3) * 2;
  int result = fail_commit(n, kind);
  if (failing == 0) return must(result, "commit"), 0;
  failing = 0, failures++;
  EXPECT(result == KEFS_DEVICE);
  if (in_place) recover_with_failure(m);
  else close_image(), open_with_failure(m);
  commit_some(1);
  return 1;
}

/* Call `n` of a tidy fails: 0 where it has no such call. */
static int try_failing_tidy(long n, int number) {
  int stands = 9;
  commit_some(0);
  memcpy(before, after, sizeof before);
  reaching = (int)(random() % 3) * 2;
  calls = 0, failing = n, failing_number = number, is_cutting = 1;
  int result = kefs_tidy(image), is_tried = calls >= n;
  failing = 0, failing_number = EIO;
  EXPECT(result == (!is_tried ? KEFS_OK : number == EIO ? KEFS_DEVICE : number));
  if (result == KEFS_DEVICE) must(kefs_recover(image, &stands), "recover");
  EXPECT(result != KEFS_DEVICE || stands == KEFS_BEFORE);
  is_cutting = 0;
  cut_power(1);
  commit_some(1);
  failures += is_tried;
  return is_tried;
}

/* A device without room is recovered from at once: the commit is refused, or stands. */
static int try_full_device(long n) {
  static unsigned char stored[PAGES * PAGE];
  failing_number = ENOSPC, reaching = (int)(random() % 3) * 2;
  int result = fail_commit(n, ANY), is_tried = failing != 0;
  failing = 0, failing_number = EIO;
  if (!is_tried) return must(result, "commit"), 0;
  failures++;
  EXPECT(result == ENOSPC || result == KEFS_OK);
  memcpy(stored, after, sizeof stored);
  EXPECT(are_equal(stored));
  settle_on(result == KEFS_OK);
  must(kefs_commit(image, NULL, 0, NULL), "commit");
  memcpy(after, stored, sizeof after);
  cut_power(1);
  return 1;
}

/* With under 40 commits no call of an opening or recovery fails. Some commits make fewer calls than others, so those that every commit makes are tried
   by their kind too. */
static void try_failures(int commits) {
  for (long m = 0; m < (commits < 40 ? 1 : 8); m++)
    for (int tried = 0; tried < 2 * KINDS; tried++)
      for (long n = 1; try_failure(n, m, (enum kind)(tried / 2), tried % 2);) n++;
  for (long n = 1; model == DROPS && try_full_device(n);) n++;
  for (int i = 0; i < 6 && image_layout() == 4; i++)
    for (long n = 1; try_failing_tidy(n, i % 2 == 0 ? EIO : ENOSPC);) n++;
}

/* Starts */

static uint64_t tickets[STARTS + 1];
static long lives, joined;

static void start_pages(int first, int end) {
  struct kefs_range range = {page_at(first), (size_t)(end - first) * PAGE};
  memcpy(states[starts + 1], states[starts], sizeof *states);
  starts++;
  for (int k = first; k < end; k++) memcpy(states[starts] + k * PAGE, page_at(k), PAGE);
  must(kefs_commit_start(image, &range, 1, NULL, &tickets[starts]), "start");
}

/* Stores, and starts pages of file 0 or of file 1. */
static void start_some(void) {
  int kept = watched;
  if (starts == STARTS) return;
  watched = -1;
  for (int n = 1 + (int)(random() % 4); n > 0; n--) page_at((int)(random() % PAGES))[random() % PAGE] = (unsigned char)random();
  int first = (int)(random() % PAGES), most = first < FIRST_PAGES ? FIRST_PAGES : PAGES;
  start_pages(first, first + 1 + (int)(random() % (most - first)));
  watched = kept;
}

/* Waits for a start: KEFS_OK or the result. */
static int wait_some(int n) {
  lets_in = is_cutting = 1;
  int before_it = starts, result = kefs_commit_wait(image, tickets[n]);
  lets_in = is_cutting = 0;
  joined += starts - before_it;
  if (result == KEFS_OK && waited < n) waited = n;
  cut_power(0);
  return result;
}

static void begin_life(void) {
  for (int k = 0; k < PAGES; k++) memcpy(states[0] + k * PAGE, page_at(k), PAGE);
  starts = waited = 0, is_living = 1;
  tickets[0] = 0;
}

/* All that was started is waited for, and nothing else of the files is stored to. */
static void end_life(void) {
  for (int k = 0; k < PAGES; k++) memcpy(page_at(k), states[starts] + k * PAGE, PAGE);
  must(kefs_commit(image, NULL, 0, NULL), "commit");
  waited = starts;
  cut_power(0);
  memcpy(after, states[starts], sizeof after), memcpy(before, after, sizeof before);
  is_living = 0, lives++;
}

static void commit_in_life(void) {
  memcpy(states[starts + 1], states[starts], sizeof *states);
  starts++;
  for (int k = 0; k < PAGES; k++) memcpy(states[starts] + k * PAGE, page_at(k), PAGE);
  is_cutting = 1;
  must(kefs_commit(image, NULL, 0, NULL), "commit");
  is_cutting = 0, waited = starts;
  cut_power(0);
}

/* Starts and waits in turn, a commit between them now and then; of the starts some are waited for twice, and others never. */
static void live(void) {
  begin_life();
  while (starts < STARTS - 1) {
    start_some();
    if (random() % 2 == 0) must(wait_some(waited + (int)(random() % (starts - waited + 1))), "wait");
    if (random() % 8 == 0 && starts < STARTS) commit_in_life();
    if (random() % 8 == 0) tidy_some();
  }
  if (random() % 2 == 0) must(wait_some(starts), "wait");
  end_life();
}

/* Call `n` of a wait fails: 0 where it has no such call. What went with it is durable or is not, and then goes with the next one. */
static int live_with_failure(long n, int number) {
  int stands = 9, result;
  begin_life();
  for (int i = 0; i < 3; i++) start_some();
  calls = 0, failing = n, failing_number = number, reaching = (int)(random() % 3) * 2;
  int last = starts;
  result = wait_some(starts);
  int is_tried = calls >= n, is_after = 0;
  failing = 0, failing_number = EIO;
  EXPECT(result == KEFS_OK || (is_tried && result == (number == EIO ? KEFS_DEVICE : number)));
  if (result == KEFS_DEVICE) {
    EXPECT(kefs_commit_wait(image, tickets[starts]) == KEFS_HALTED && kefs_commit_start(image, NULL, 0, NULL, &tickets[0]) == KEFS_HALTED);
    is_cutting = 1;
    must(kefs_recover(image, &stands), "recover");
    is_cutting = 0, is_after = stands == KEFS_AFTER;
    waited = is_after ? last : 0;
    cut_power(0);
    EXPECT(!is_after || kefs_commit_wait(image, tickets[last]) == KEFS_OK);
  }
  start_some();
  must(wait_some(starts), "wait");
  end_life();
  failures += is_tried;
  return is_tried;
}

static void try_starts(int commits) {
  is_cutting = 0;
  for (int i = 0; i < commits / 4 + 1; i++) live();
  for (int i = 0; i < 4; i++)
    for (long n = 1; live_with_failure(n, i % 2 == 0 ? EIO : ENOSPC);) n++;
  printf("cuts: layout %d, %ld lives of starts, of which %ld came while others ran, %ld tidied pools, %ld power cuts by then: %ld bad\n", image_layout(), lives, joined, tidied, cuts, bad);
  EXPECT(joined > lives);
}

/* Making an image */

static unsigned char content[PAGES * PAGE];
static long names;

/* What has no name is gone after a cut, and what has one has to be whole on the disk. */
static int is_ready(void) {
  memcpy(left, disk, bytes), memcpy(after, content, sizeof after);
  int fd = watched;
  write_left();
  is_making = 0, watched = -1;
  int holds = memchr(dirty, 1, sizeof dirty) == NULL && is_whole(1);
  is_making = 1, watched = fd;
  return holds;
}

int linkat(int from_folder, const char *from, int to_folder, const char *to, int flags) {
  if (is_making) EXPECT(is_ready() && access(PATH, F_OK) != 0), names++;
  if (is_making && fails(ANY)) return -1;
  return (int)syscall(SYS_linkat, from_folder, from, to_folder, to, flags);
}

int link(const char *from, const char *to) { return linkat(AT_FDCWD, from, AT_FDCWD, to, 0); }

int fallocate(int fd, int mode, off_t at, off_t length) {
  if (fd == watched && fails(ANY)) return -1;
  return (int)syscall(SYS_fallocate, fd, mode, at, length);
}

/* Makes an image, and has call `n` fail where it is not 0: whether there was such a call. */
static int make_image(long n, int number) {
  struct kefs_file specs[] = {{FIRST_PAGES * PAGE, 0, content}, {(PAGES - FIRST_PAGES) * PAGE, KEFS_FILE_SPARSE, content + FIRST_PAGES * PAGE}};
  unlink(PATH);
  memset(disk, 0, sizeof disk), memset(cached, 0, sizeof cached), memset(dirty, 0, sizeof dirty);
  is_making = 1, calls = 0, failing = n, failing_number = number;
  int result = kefs_format(PATH, 0600, specs, 2), is_tried = calls >= n;
  is_making = 0, failing = 0, failing_number = EIO, watched = -1;
  EXPECT(result == (n == 0 || !is_tried ? KEFS_OK : number == EIO ? KEFS_DEVICE : number));
  EXPECT((access(PATH, F_OK) == 0) == (result == KEFS_OK));
  char found[99] = "";
  FILE *others = popen("ls | grep -c new-", "r");
  EXPECT(others != NULL && fgets(found, sizeof found, others) != NULL && atoi(found) == 0);
  pclose(others);
  return n != 0 && is_tried;
}

static void try_making(void) {
  for (size_t i = 0; i < sizeof content; i++) content[i] = (unsigned char)random();
  for (has_no_unnamed = 0; has_no_unnamed < 2; has_no_unnamed++) {
    make_image(0, EIO);
    for (long n = 1; make_image(n, n % 3 == 0 ? ENOSPC : n % 3 == 1 ? EIO : EDQUOT); n++) failures++;
  }
  has_no_unnamed = 0;
  EXPECT(names >= 4);
  printf("cuts: making an image: named %ld times, each time whole and synced, %ld failing calls: %ld bad\n", names, failures, bad);
}

/* A file of zeros for images of that layout. */
static void open_left(int layout) {
  if (left_file != NULL) munmap(left_file, bytes);
  use_image(layout);
  int fd = (int)syscall(SYS_openat, AT_FDCWD, "left.img", O_RDWR | O_CREAT | O_TRUNC, 0600);
  if (fd < 0 || ftruncate(fd, (off_t)bytes) != 0) die("left.img");
  left_file = mmap(NULL, bytes, PROT_READ | PROT_WRITE, MAP_SHARED, fd, 0);
  if (left_file == MAP_FAILED) die("left.img");
  close(fd);
}

static int tell(int commits) {
  static const char *const words[] = {"", ", where the system keeps what it cached", ", where a block of 4,096 bytes is torn"};
  int is_control = model == KEEPS || (model == BLOCKS && image_layout() == 2);
  printf("cuts: layout %d, %ld power cuts in %d commits, openings and recoveries, %ld failing calls: %ld bad%s%s\n", image_layout(), cuts, commits, failures,
         bad, words[model], is_control ? ": a control, some have to be" : "");
  return is_control ? bad == 0 : bad > 0 || failures < 10;
}

int main(int argc, char **argv) {
  if (argc < 3 || chdir(argv[1]) != 0) return 2;
  model = argc < 4 ? DROPS : strcmp(argv[3], "kept") == 0 ? KEEPS : BLOCKS;
  open_left(4);
  if (model == DROPS && image_layout() == 4) try_making();
  if (bad > 0) return 1;
  failures = 0, map_blocks = 1;
  open_left(image_layout());
  begin();
  for (int i = 0; i < atoi(argv[2]); i++) commit_some(1);
  if (model != BLOCKS || image_layout() != 2) try_failures(atoi(argv[2]));
  if (model == DROPS || (model == BLOCKS && image_layout() != 2)) try_starts(atoi(argv[2]));
  if (model != KEEPS && image_layout() == 4) try_full_pools(atoi(argv[2]));
  return tell(atoi(argv[2]));
}
