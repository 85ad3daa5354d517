/* cuts_lengths FOLDER LIVES [without N|zeros]: power cuts and failing calls in lives of files that grow and shrink. In a life four files, mapped and not, are
   stored to, get other lengths, are rolled back, committed whole or by ranges, started and waited for, and the image is tidied, recovered in place
   and opened anew; its host file gets longer on the way. Before each device call, and within long writes, power is cut (device.h). Each image that is
   left is opened, and its files have to be, lengths included, those after some prefix of the commits that holds each one that was acknowledged. Of
   some that are left a file grows again: it has to be zeros there, and the others as they were. And what the handle shows in memory is compared with
   what it should be after each step.

   Besides, files of which most is zeros grow over homes that others had, with bytes in them, in host files that may have holes and in others.

   without N: a control: sync N of each commit is left out, the first, of all that it takes, or the second, of the gate. Some files have to be other
   ones then. without zeros: the calls are left out that make holes.

   The images are of layout 4, with the smallest pool. */
#define _GNU_SOURCE
#include "device.h"
#include "kefs.h"

enum { PAGE = KEFS_PAGE, FILES = 4, MOST_PAGES = 2100, MOST = MOST_PAGES * PAGE, LIVELY_PAGES = 200, STEPS = 90, MOST_RANGES = 3 };
static const char *const PATH = "lengths.img";

/* Files: bytes past a length are zeros. */
struct files { uint32_t lengths[FILES]; unsigned char bytes[FILES][MOST]; };
static struct files now, may[3]; /* in memory; and as they may be after a cut: from the last acknowledged commit on */
static int may_count = 1;

static kefs_image *image;
static unsigned flags;
static unsigned char *mapped[FILES]; /* NULL: it is not mapped, or has no page and no addresses are kept for any */
static size_t kept[FILES];           /* pages for which it keeps addresses */
static long cuts, bad, commits, growths, cut_off, lengthened, failures, recoveries, regrown, rolled_back, refused, is_control;

static void must(int result, const char *what) {
  if (result != KEFS_OK) fprintf(stderr, "cuts_lengths: %s: %s: %s: %s\n", what, kefs_name(result), kefs_strerror(result), kefs_errmsg(image)), exit(1);
}

static void expect(int holds, const char *what, int line) {
  if (!holds) fprintf(stderr, "cuts_lengths.c:%d: not so: %s (after %ld commits)\n", line, what, commits);
  bad += !holds;
}
#define EXPECT(condition) expect((condition) != 0, #condition, __LINE__)

static int one_of(int n) { return (int)(random() % n); }
static size_t pages_of(uint32_t length) { return ((size_t)length + PAGE - 1) / PAGE; }

/* Files */

static void set_length(struct files *of, int f, uint32_t length) {
  if (length < of->lengths[f]) memset(of->bytes[f] + length, 0, of->lengths[f] - length);
  of->lengths[f] = length;
}

static void copy_file(struct files *to, const struct files *from, int f) {
  set_length(to, f, from->lengths[f]);
  memcpy(to->bytes[f], from->bytes[f], from->lengths[f]);
}

static void copy_files(struct files *to, const struct files *from) {
  for (int f = 0; f < FILES; f++) copy_file(to, from, f);
}

/* Copies a page as far as the file that it comes to has bytes of it. */
static void copy_page(struct files *to, const struct files *from, int f, size_t k) {
  size_t at = k * PAGE, left_bytes = to->lengths[f] > at ? to->lengths[f] - at : 0;
  memcpy(to->bytes[f] + at, from->bytes[f] + at, left_bytes < PAGE ? left_bytes : PAGE);
}

static int is_file(kefs_image *of, int f, const struct files *wanted) {
  size_t length;
  void *at;
  return kefs_map(of, (unsigned)f, NULL, &at, &length) == KEFS_OK && length == wanted->lengths[f] && (length == 0 || memcmp(at, wanted->bytes[f], length) == 0);
}

static int are_files(kefs_image *of, const struct files *wanted) {
  for (int f = 0; f < FILES; f++)
    if (!is_file(of, f, wanted)) return 0;
  return 1;
}

/* Which of the files that may be are there, or -1. */
static int which(kefs_image *of) {
  for (int i = 0; i < may_count; i++)
    if (are_files(of, &may[i])) return i;
  return -1;
}

/* Cuts */

/* A file grows in what is left, and another one has a store. All is as it was but for these. */
static int grows_again(kefs_image *of, int stands) {
  int f = one_of(FILES), other = (f + 1) % FILES;
  uint32_t before = may[stands].lengths[f], length = before + (uint32_t)one_of(90 * PAGE);
  void *at, *bytes;
  kefs_unmap(of, (unsigned)f); /* an empty file is not mapped */
  must(kefs_map_growing(of, (unsigned)f, NULL, length, &at, NULL), "map");
  must(kefs_resize(of, (unsigned)f, length), "resize"), must(kefs_map(of, (unsigned)other, NULL, &bytes, NULL), "map");
  if (may[stands].lengths[other] > 0) *(unsigned char *)bytes ^= 1, must(kefs_mark_dirty(of, bytes, 1), "mark");
  must(kefs_commit(of, NULL, 0, NULL), "commit"), must(kefs_close(of), LEFT);
  must(kefs_open(&of, LEFT, KEFS_RDONLY), LEFT);
  may[stands].bytes[other][0] ^= (unsigned char)(may[stands].lengths[other] > 0);
  set_length(&may[stands], f, length);
  int holds = are_files(of, &may[stands]);
  set_length(&may[stands], f, before);
  may[stands].bytes[other][0] ^= (unsigned char)(may[stands].lengths[other] > 0);
  must(kefs_close(of), LEFT);
  regrown++;
  return holds;
}

static int is_whole(void) {
  static const unsigned ways[] = {KEFS_TRACK_CALLER, KEFS_RDONLY, KEFS_TRACK_CALLER | KEFS_LAZY};
  kefs_image *of;
  unsigned way = ways[one_of(3)];
  if (kefs_open(&of, LEFT, way) != KEFS_OK) return 0;
  int stands = which(of);
  if (stands >= 0 && way != KEFS_RDONLY && one_of(24) == 0 && may[stands].lengths[0] < LIVELY_PAGES * PAGE) return grows_again(of, stands);
  must(kefs_close(of), LEFT);
  return stands >= 0;
}

static void cut_power(void) {
  int fd = watched, was_cutting = is_cutting;
  long kept_failing = failing, kept_calls = calls;
  watched = -1, is_cutting = 0;
  for (int filling = 0; filling < FILLINGS; filling++, cuts++) {
    leave(filling);
    bad += !is_whole();
    restore();
  }
  watched = fd, is_cutting = was_cutting, failing = kept_failing, calls = kept_calls;
}

/* What may be is this alone from here on. */
static void settle_on(int i) {
  if (i > 0) copy_files(&may[0], &may[i]);
  may_count = 1;
  cut_power();
}

/* Images */

static void forget_mappings(void) { memset(mapped, 0, sizeof mapped), memset(kept, 0, sizeof kept); }

static const struct kefs_options *options(void) {
  static const uint32_t first[FILES] = {5 * PAGE + 100, 0, 3 * PAGE, 1};
  static struct kefs_file specs[FILES];
  static struct kefs_options it = {.size = sizeof it, .permissions = 0600, .files = specs, .count = FILES, .pool = 1};
  for (int f = 0; f < FILES; f++) specs[f] = (struct kefs_file){first[f], KEFS_FILE_GROWS, NULL};
  return &it;
}

static unsigned some_tracker(void) {
  static const unsigned ways[] = {0, KEFS_TRACK_SIGNAL, KEFS_TRACK_CALLER, KEFS_LAZY, KEFS_TRACK_CALLER | KEFS_LAZY};
  return ways[one_of(5)];
}

static int try_opening(void) {
  flags = some_tracker();
  return one_of(2) == 0 ? kefs_open(&image, PATH, flags) : kefs_open_with(&image, PATH, flags | KEFS_CREATE, options());
}

static void begin(void) {
  static const int without[] = {0, 0, FALLOC_FL_PUNCH_HOLE, FALLOC_FL_PUNCH_HOLE | FALLOC_FL_ZERO_RANGE};
  unlink(PATH);
  modes_without = leaves_bytes ? 0 : without[one_of(4)];
  flags = KEFS_TRACK_CALLER;
  must(kefs_open_with(&image, PATH, flags | KEFS_CREATE, options()), PATH), must(kefs_close(image), PATH);
  for (int f = 0; f < FILES; f++) set_length(&may[0], f, 0), set_length(&may[0], f, options()->files[f].length);
  copy_files(&now, &may[0]);
  forget_mappings();
  begin_device(PATH);
  must(try_opening(), PATH);
}

static void close_image(void) {
  must(kefs_close(image), "close");
  watched = -1;
}

/* Opens the image with cuts; call `m` fails where it is not 0. */
static void open_again(long m) {
  calls = 0, failing = m, is_cutting = 1;
  for (int result = try_opening(); result != KEFS_OK; result = try_opening()) {
    EXPECT(result == (failing_number == EIO ? KEFS_DEVICE : failing_number));
    failing = 0, failing_number = EIO;
  }
  failing = is_cutting = 0;
  forget_mappings();
  int stands = which(image);
  EXPECT(stands >= 0);
  if (stands < 0) exit(1);
  settle_on(stands);
  copy_files(&now, &may[0]);
  for (unsigned f = 0; f < FILES; f++) kefs_unmap(image, f);
}

/* Memory */

static void unmap_some(int f) {
  if (mapped[f] == NULL) return;
  must(kefs_unmap(image, (unsigned)f), "unmap");
  copy_file(&now, &may[0], f);
  mapped[f] = NULL, kept[f] = 0;
}

static void check_memory(void) {
  for (int f = 0; f < FILES; f++) {
    size_t length;
    must(kefs_length(image, (unsigned)f, &length), "length");
    EXPECT(length == now.lengths[f]);
    EXPECT(mapped[f] == NULL || memcmp(mapped[f], now.bytes[f], now.lengths[f]) == 0);
  }
}

/* Stores of a few bytes, or of whole pages. */
static void store_in(int f, size_t first, size_t end) {
  unsigned char value = (unsigned char)random();
  if (end > now.lengths[f]) end = now.lengths[f];
  if (first >= end) return;
  for (size_t i = first; i < end; i++) now.bytes[f][i] ^= (unsigned char)(value + i);
  memcpy(mapped[f] + first, now.bytes[f] + first, end - first);
  if ((flags & KEFS_TRACK_CALLER) != 0) must(kefs_mark_dirty(image, mapped[f] + first, end - first), "mark");
}

static void store_some(int f) {
  if (mapped[f] == NULL || now.lengths[f] == 0) return;
  size_t at = (size_t)random() % now.lengths[f], page = at / PAGE * PAGE;
  if (one_of(2) == 0) store_in(f, at, at + 1 + (size_t)one_of(100));
  else store_in(f, page, page + PAGE * (size_t)(1 + one_of(6)));
  if (one_of(8) > 0 || now.lengths[f] % PAGE == 0) return;
  unsigned char *end = mapped[f] + now.lengths[f]; /* a store past the end is dropped */
  *end = (unsigned char)random();
  if ((flags & KEFS_TRACK_CALLER) != 0) must(kefs_mark_dirty(image, end, 1), "mark");
}

/* Lengths */

static uint32_t some_length(uint32_t length) {
  size_t to = 0;
  switch (one_of(9)) {
    case 0: to = (size_t)one_of(2) * (size_t)one_of(PAGE); break;
    case 1: to = length + (size_t)one_of(PAGE); break;
    case 2: to = length - (size_t)random() % (length + 1ul); break;
    case 3: to = PAGE * (size_t)one_of(20); break;
    case 4: to = length + PAGE * (size_t)one_of(90); break;
    case 5: to = 2 * (size_t)length; break;
    case 6: to = length / PAGE * PAGE; break;
    case 7: to = length - (size_t)random() % (length % PAGE + 1ul); break;
    default: to = (size_t)one_of(30 * PAGE);
  }
  return (uint32_t)(to < LIVELY_PAGES * PAGE ? to : to % (LIVELY_PAGES * PAGE));
}

static void resize_to(int f, uint32_t length) {
  off_t host = length_now();
  is_cutting = 1;
  int result = kefs_resize(image, (unsigned)f, length), fits = mapped[f] == NULL || pages_of(length) <= kept[f];
  is_cutting = 0;
  lengthened += length_now() > host;
  refused += result != KEFS_OK;
  EXPECT(fits ? result == KEFS_OK || result == EFBIG : result == ENOMEM);
  if (result == KEFS_OK) set_length(&now, f, length);
}

/* A host file that can't be longer: nothing was done, or there were homes enough. */
static void fail_resize(int f) {
  static const int numbers[] = {ENOSPC, EDQUOT, EFBIG, EIO};
  int number = numbers[one_of(4)];
  uint32_t length = some_length(now.lengths[f]);
  if (mapped[f] != NULL && pages_of(length) > kept[f]) return;
  calls = 0, failing = 1, failing_number = number;
  int result = kefs_resize(image, (unsigned)f, length);
  failing = 0, failing_number = EIO;
  EXPECT(result == KEFS_OK || result == EFBIG || (calls > 0 && result == (number == EIO ? KEFS_DEVICE : number)));
  failures += calls > 0;
  if (result == KEFS_OK) set_length(&now, f, length);
}

/* A file that was cut, and is not durable so, is mapped too. */
static void map_some(int f) {
  void *at;
  size_t length, most = pages_of(now.lengths[f]) + (size_t)one_of(LIVELY_PAGES);
  int is_growing = one_of(3) > 0;
  if (mapped[f] != NULL) return;
  must(is_growing ? kefs_map_growing(image, (unsigned)f, NULL, most * PAGE, &at, &length) : kefs_map(image, (unsigned)f, NULL, &at, &length), "map");
  EXPECT(length == now.lengths[f]);
  mapped[f] = at, kept[f] = is_growing ? most : pages_of((uint32_t)length);
  EXPECT((at == NULL) == (kept[f] == 0));
  if (at == NULL || kept[f] >= pages_of(may[0].lengths[f])) return;
  kept[f] = pages_of(may[0].lengths[f]); /* for a roll back */
  EXPECT(mmap(mapped[f] + (kept[f] - 1) * PAGE, PAGE, PROT_NONE, MAP_PRIVATE | MAP_ANONYMOUS | MAP_FIXED_NOREPLACE, -1, 0) == MAP_FAILED);
}

/* Ranges */

static struct kefs_range ranges[MOST_RANGES];
static int range_count; /* -1: all that is mapped */

static void choose_ranges(void) {
  range_count = one_of(3) == 0 ? 1 + one_of(MOST_RANGES) : -1;
  for (int i = 0; i < range_count; i++) {
    int f = one_of(FILES);
    size_t first = kept[f] == 0 ? 0 : (size_t)random() % kept[f];
    ranges[i] = (struct kefs_range){mapped[f] + first * PAGE, mapped[f] == NULL ? 0 : 1 + (size_t)random() % ((kept[f] - first) * PAGE)};
  }
}

static const struct kefs_range *list(void) { return range_count < 0 ? NULL : ranges; }
static size_t list_count(void) { return range_count < 0 ? 0 : (size_t)range_count; }

/* Whether some range has a byte of these pages of a mapped file. */
static int has(int f, size_t first, size_t end) {
  uintptr_t from = (uintptr_t)mapped[f] + first * PAGE, to = (uintptr_t)mapped[f] + end * PAGE;
  for (int i = 0; i < range_count; i++)
    if ((uintptr_t)ranges[i].at < to && (uintptr_t)ranges[i].at + ranges[i].length > from && ranges[i].length > 0) return 1;
  return range_count < 0;
}

/* The file after a commit of the ranges, in the place of what is durable. */
static void take_file(struct files *to, int f) {
  size_t durable = pages_of(to->lengths[f]), pages = pages_of(now.lengths[f]);
  if (mapped[f] == NULL && range_count < 0) copy_file(to, &now, f);
  if (mapped[f] == NULL || !has(f, 0, kept[f])) return;
  growths += pages > durable, cut_off += pages < durable;
  set_length(to, f, now.lengths[f]);
  for (size_t k = 0; k < pages; k++)
    if (k >= durable || has(f, k, k + 1)) copy_page(to, &now, f, k);
}

static void take_files(struct files *to, const struct files *from) {
  copy_files(to, from);
  for (int f = 0; f < FILES; f++) take_file(to, f);
}

static void roll_file_back(int f) {
  uint32_t length = now.lengths[f], durable = may[0].lengths[f];
  if (mapped[f] == NULL && range_count < 0) copy_file(&now, &may[0], f);
  if (mapped[f] == NULL || !has(f, 0, kept[f])) return;
  set_length(&now, f, durable);
  if (length < durable) memcpy(now.bytes[f] + length, may[0].bytes[f] + length, durable - length);
  for (size_t k = 0; k < pages_of(durable); k++)
    if (has(f, k, k + 1)) copy_page(&now, &may[0], f, k);
}

static void roll_back_some(void) {
  choose_ranges();
  must(kefs_rollback(image, list(), list_count()), "rollback");
  for (int f = 0; f < FILES; f++) roll_file_back(f);
  rolled_back++;
}

static void resize_some(int f) {
  uint32_t before = now.lengths[f];
  resize_to(f, some_length(before));
  if (one_of(3) == 0) resize_to(f, some_length(now.lengths[f]));
  if (mapped[f] != NULL && now.lengths[f] > before && one_of(3) > 0) store_in(f, before, now.lengths[f]);
}

/* Commits */

static void begin_commit(void) {
  choose_ranges();
  take_files(&may[1], &may[0]);
  may_count = 2, syncs = 0, commits++;
}

static void check_clean(void) {
  size_t pages = 1;
  must(kefs_count_dirty(image, list(), list_count(), &pages), "count");
  EXPECT(pages == 0);
}

static void commit_some(void) {
  off_t host = length_now();
  size_t pages, taken;
  begin_commit();
  must(kefs_count_dirty(image, list(), list_count(), &pages), "count");
  is_cutting = 1;
  must(kefs_commit(image, list(), list_count(), &taken), "commit");
  is_cutting = 0, lengthened += length_now() > host;
  EXPECT(taken == pages);
  settle_on(1);
  check_clean();
}

/* Without cuts. */
static void commit_all(void) {
  range_count = -1;
  take_files(&may[1], &may[0]), commits++;
  must(kefs_commit(image, NULL, 0, NULL), "commit");
  copy_files(&may[0], &may[1]), may_count = 1;
}

/* A start of lengths is durable when it returns; of others one wait is. What is started of a file is all that was stored to in it. */
static void start_some(void) {
  uint64_t ticket;
  begin_commit();
  is_cutting = 1;
  must(kefs_commit_start(image, list(), list_count(), NULL, &ticket), "start");
  is_cutting = 0;
  copy_files(&may[2], &may[1]);
  if (one_of(3) > 0) cut_power();
  int f = one_of(FILES);
  if (one_of(2) == 0) store_some(f), resize_some(f), choose_ranges(), take_files(&may[2], &may[1]), may_count = 3;
  int is_started = one_of(2);
  is_cutting = 1;
  if (may_count == 3) must(is_started ? kefs_commit_start(image, list(), list_count(), NULL, &ticket) : kefs_commit(image, list(), list_count(), NULL), "next");
  must(kefs_commit_wait(image, ticket), "wait");
  is_cutting = 0;
  settle_on(may_count - 1);
}

static void tidy_some(void) {
  is_cutting = 1;
  must(kefs_tidy(image), "tidy");
  is_cutting = 0;
  cut_power();
}

/* What a commit that failed had is durable, or is to be committed yet. */
static void recover_some(void) {
  int stands = 9;
  calls = 0, failing = one_of(3) == 0 ? 1 + one_of(4) : 0, is_cutting = 1, recoveries++;
  for (int result = kefs_recover(image, &stands); result != KEFS_OK; result = kefs_recover(image, &stands)) EXPECT(result == KEFS_DEVICE), failing = 0;
  failing = is_cutting = 0;
  EXPECT(stands == KEFS_BEFORE || stands == KEFS_AFTER);
  settle_on(stands == KEFS_AFTER);
  check_memory();
  if (stands == KEFS_AFTER) return check_clean();
  take_files(&may[1], &may[0]), may_count = 2;
  must(kefs_commit(image, list(), list_count(), NULL), "commit");
  settle_on(1);
}

/* Some call of a commit fails. */
static void fail_commit(void) {
  begin_commit();
  calls = 0, failing = 1 + one_of(10), failing_number = one_of(3) == 0 ? ENOSPC : EIO, reaching = one_of(5);
  int result = kefs_commit(image, list(), list_count(), NULL), number = failing_number, is_tried = calls >= failing;
  failing = 0, failing_number = EIO, failures += is_tried;
  EXPECT(result == KEFS_OK || (is_tried && result == (number == EIO ? KEFS_DEVICE : number)));
  if (result == KEFS_OK) settle_on(1), check_clean();
  else if (result == ENOSPC) settle_on(0);
  else if (one_of(3) > 0) recover_some();
  else close_image(), open_again(one_of(2) == 0 ? 1 + one_of(6) : 0);
}

/* Commits of many pages fill the pool, until one of them brings pages home that were cut off since, or have other homes. */
static void wear(void) {
  for (int round = 1 + one_of(8); round > 0; round--) {
    for (int f = 0; f < FILES; f++)
      for (size_t k = 0; mapped[f] != NULL && k < pages_of(now.lengths[f]); k += 1 + (size_t)one_of(2)) store_in(f, k * PAGE, k * PAGE + 1);
    begin_commit();
    is_cutting = round == 1;
    must(kefs_commit(image, list(), list_count(), NULL), "commit");
    is_cutting = 0;
    copy_files(&may[0], &may[1]), may_count = 1;
  }
  cut_power();
}

static void reopen(void) {
  close_image();
  copy_files(&now, &may[0]);
  open_again(0);
}

static void step(void) {
  int f = one_of(FILES);
  switch (one_of(32)) {
    case 0 ... 6: store_some(f); break;
    case 7 ... 12: resize_some(f), one_of(5) == 0 ? roll_back_some() : (void)0; break;
    case 13: if (mapped[f] == NULL) resize_to(f, now.lengths[f] / 2); /* fall through */
    case 14 ... 17: map_some(f); break;
    case 18: unmap_some(f); break;
    case 19: roll_back_some(); break;
    case 21 ... 27: commit_some(); break;
    case 28: start_some(); break;
    case 20: tidy_some(); break;
    case 29: if (!is_control) fail_commit(); break;
    case 30: one_of(2) == 0 ? wear() : reopen(); break;
    default: fail_resize(f);
  }
  check_memory();
}

static void live(void) {
  begin();
  for (int i = 0; i < STEPS && (is_control || bad == 0); i++) step();
  close_image();
}

/* Many pages at once: power is cut within the writes. */
static void grow_much(int files) {
  begin();
  for (int f = 0; f < FILES; f++) unmap_some(f);
  for (int f = 0; f < files; f++) {
    void *at;
    must(kefs_map_growing(image, (unsigned)f, NULL, MOST, &at, NULL), "map");
    mapped[f] = at, kept[f] = MOST_PAGES;
    resize_to(f, (uint32_t)(2000 / files * PAGE - f)), store_in(f, 0, MOST);
  }
  piece = 96 * PAGE;
  commit_some();
  piece = SIZE_MAX;
  close_image();
}

/* Stores to some rows of pages of what a file has got. */
static void store_sparsely(int f, size_t from, size_t pages) {
  for (int row = one_of(5); row >= 0; row--) {
    size_t first = from + (size_t)one_of((int)(pages - from)), count = one_of(3) == 0 ? 60 : (size_t)(1 + one_of(4));
    store_in(f, first * PAGE, (first + count) * PAGE);
  }
}

static void grow_sparsely(int f, size_t pages) {
  size_t from = pages_of(now.lengths[f]);
  resize_to(f, (uint32_t)(pages * PAGE) - (uint32_t)one_of(PAGE));
  if (mapped[f] != NULL && one_of(4) > 0) store_sparsely(f, from, pages);
}

/* Full of bytes, of which some stand in slots, and then short again. */
static void leave_homes(int f, size_t pages) {
  resize_to(f, (uint32_t)(pages * PAGE)), store_in(f, 0, MOST), commit_all();
  if (one_of(2) == 0) store_in(f, 5 * PAGE, 90 * PAGE), commit_all();
  resize_to(f, (uint32_t)one_of(9 * PAGE)), commit_all();
}

static void map_two(void) {
  void *at;
  for (int f = 0; f < FILES; f++) unmap_some(f);
  for (int f = 0; f < 2; f++) must(kefs_map_growing(image, (unsigned)f, NULL, MOST, &at, NULL), "map"), mapped[f] = at, kept[f] = MOST_PAGES;
}

/* Over 128 new pages come with each of these commits, of which few are more than zeros. */
static void live_sparsely(void) {
  begin();
  map_two();
  leave_homes(0, 300 + (size_t)one_of(400));
  for (int round = 0; round < 3 && (is_control || bad == 0); round++) {
    int f = one_of(FILES), other = (f + 1) % FILES;
    grow_sparsely(f, pages_of(now.lengths[f]) + 129 + (size_t)one_of(250));
    if (one_of(2) == 0) grow_sparsely(other, pages_of(now.lengths[other]) + 1 + (size_t)one_of(100));
    if (one_of(3) == 0 && !is_control) fail_commit();
    if (mapped[0] == NULL) map_two();
    commit_some(), check_memory();
    for (int each = 0; each < 2; each++) store_sparsely(each, 0, pages_of(now.lengths[each]) + 1);
    commit_some(), one_of(2) == 0 ? tidy_some() : (void)0;
  }
  close_image();
}

static int tell(long lives) {
  printf("cuts_lengths: %ld power cuts in %ld lives, %ld commits, in which files grew %ld times and were cut %ld times, %ld longer host files, ", cuts, lives,
         commits, growths, cut_off, lengthened);
  printf("%ld calls of zeros, of %ld sectors that had other bytes, ", holes, zeroed);
  printf("%ld roll backs, %ld failing calls, %ld recoveries, %ld that grew again after a cut, %ld lengths refused: %ld bad%s\n", rolled_back, failures,
         recoveries, regrown, refused, bad, is_control ? ": a control, some have to be" : "");
  return is_control ? bad == 0 : bad > 0;
}

int main(int argc, char **argv) {
  if (argc < 3 || chdir(argv[1]) != 0) return 2;
  is_control = argc > 4, leaves_bytes = is_control && strcmp(argv[4], "zeros") == 0, left_out = is_control ? atoi(argv[4]) : 0;
  for (int i = 0; i < atoi(argv[2]); i++) srandom((unsigned)i + 1), live();
  for (int i = 0; i < atoi(argv[2]); i++) srandom((unsigned)i + 1), live_sparsely();
  for (int files = 1; files < FILES && !is_control; files += 2) grow_much(files);
  return tell(atoi(argv[2]));
}
