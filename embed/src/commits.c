/* Commits, roll backs, and what callers say of their stores. */
#include "internal.h"
#include <errno.h>
#include <string.h>

/* The pages of the mapped files that belong to some ranges, or all pages where `ranges` is NULL: one range of one file after the
   other, in the order of addresses, and of all pages in that of files. Pages that are new, since a file got longer, are none of them (sizes.c). */
struct spans { struct kefs_image *image; const struct kefs_range *ranges; size_t count, range, next; };

/* Those of the first pages of a mapped file that have a byte of a range: none where `first` is `end`. */
static struct span span_within(struct mapping *mapping, size_t pages, const struct kefs_range *range) {
  uintptr_t start = (uintptr_t)mapping->at, end = start + pages * PAGE;
  uintptr_t from = (uintptr_t)range->at, to = range->length > UINTPTR_MAX - from ? UINTPTR_MAX : from + range->length;
  if (from < start) from = start;
  if (to > end) to = end;
  if (from >= to) return (struct span){mapping, 0, 0};
  return (struct span){mapping, (from - start) / PAGE, (to - start + PAGE - 1) / PAGE};
}

int has_byte_of(struct mapping *mapping, const struct kefs_range *ranges, size_t count) {
  for (size_t i = 0; i < count && mapping->at != NULL; i++) {
    struct span span = span_within(mapping, mapping->kept, &ranges[i]);
    if (span.first < span.end) return 1;
  }
  return 0;
}

static struct span span_of(struct mapping *mapping, const struct kefs_range *range) {
  size_t durable = durable_pages(mapping->image, file_number(mapping));
  return span_within(mapping, mapping->pages < durable ? mapping->pages : durable, range);
}

/* Of a range the files from the first on that may have a byte of it. */
static void begin_range(struct spans *it) {
  if (it->range < it->count && it->ranges != NULL) it->next = first_mapped(it->image, (uintptr_t)it->ranges[it->range].at);
}

static struct spans spans_of(struct kefs_image *image, const struct kefs_range *ranges, size_t count) {
  struct spans it = {image, ranges, count, 0, 0};
  return begin_range(&it), it;
}

/* The next mapped file that may have a page of them, or NULL. */
static struct mapping *next_mapping(struct spans *it) {
  struct kefs_image *image = it->image;
  for (; it->ranges != NULL && it->range < it->count; it->range++, begin_range(it)) {
    const struct kefs_range *range = &it->ranges[it->range];
    struct mapping *mapping = it->next < image->mapped_count ? &image->mappings[image->in_order[it->next++]] : NULL;
    if (mapping != NULL && ((uintptr_t)mapping->at <= (uintptr_t)range->at || (uintptr_t)mapping->at - (uintptr_t)range->at < range->length)) return mapping;
  }
  unsigned f = it->ranges == NULL ? next_number(&image->mapped, (unsigned)it->next) : KEFS_FILES;
  it->next = f + 1;
  return f < KEFS_FILES ? &image->mappings[f] : NULL;
}

static int next_span(struct spans *it, struct span *span) {
  static const struct kefs_range everything = {NULL, SIZE_MAX};
  for (struct mapping *mapping = next_mapping(it); mapping != NULL; mapping = next_mapping(it)) {
    if (mapping->file.read_only) continue;
    *span = span_of(mapping, it->ranges == NULL ? &everything : &it->ranges[it->range]);
    if (span->first < span->end) return 1;
  }
  return 0;
}

/* The first page from `k` on whose mark is not 0, or `end`. Eight marks are looked at together. */
static size_t next_mark(const struct mapping *mapping, size_t k, size_t end) {
  typedef uint64_t __attribute__((may_alias)) eight_marks;
  while (k < end) {
    if (k % 8 == 0 && __atomic_load_n((const eight_marks *)(mapping->marks + k), __ATOMIC_SEQ_CST) == 0) k += 8;
    else if (__atomic_load_n(&mapping->marks[k], __ATOMIC_SEQ_CST) != 0) return k;
    else k++;
  }
  return end;
}

/* The end of the area that page `k` is in, or `end` where that comes first. */
static size_t area_end(size_t k, size_t end) {
  size_t next = (k / AREA + 1) * AREA;
  return next < end ? next : end;
}

static int is_clean(const struct mapping *mapping, size_t k) { return __atomic_load_n(&mapping->areas[k / AREA], __ATOMIC_SEQ_CST) == 0; }

size_t next_marked(const struct mapping *mapping, size_t k, size_t end) {
  while (k < end) {
    size_t stop = area_end(k, end), found = is_clean(mapping, k) ? stop : next_mark(mapping, k, stop);
    if (found < stop) return found;
    k = stop;
  }
  return end;
}

/* Takes a page that is dirty, where it was not taken before. */
static int take_page(struct mapping *mapping, size_t k) {
  unsigned char wanted = DIRTY;
  return __atomic_compare_exchange_n(&mapping->marks[k], &wanted, TAKEN, 0, __ATOMIC_SEQ_CST, __ATOMIC_SEQ_CST);
}

/* What was stored to since it was taken has DIRTY too, and keeps it. */
static void let_go(struct mapping *mapping, size_t k, int done) {
  if (!done) mark_dirty(mapping, k);
  drop_mark(&mapping->marks[k], TAKEN);
}

/* A page that went along for the sake of its file's length was not taken. */
void let_all_go(struct kefs_image *image, int done) {
  struct taken *taken = &image->taken;
  for (size_t i = 0; i < taken->count; i++) {
    struct mapping *mapping = &image->mappings[taken->pages[i].file];
    if (is_taken(mapping, taken->pages[i].page)) let_go(mapping, taken->pages[i].page, done);
  }
  taken->count = 0;
}

/* Of either kind of pages there are none where the commit is of the other. */
void end_commit(struct kefs_image *image, int done) {
  size_t pages = image->planned->count + image->resizing.added;
  if (done && (pages > 0 || image->resizing.count > 0)) image->stat.commits++, image->stat.committed_pages += pages, note_homes(image);
  let_all_go(image, done);
  end_running(image, done);
  end_sizes(image, done);
}

/* How many pages a commit may take: pages of the directory that it changes go with them. */
static size_t most_taken(const struct kefs_image *image) { return image->places.room - image->resizing.directory; }

int put_taken(struct kefs_image *image, unsigned f, size_t k) {
  struct taken *taken = &image->taken;
  if (taken->count == most_taken(image)) return 0;
  taken->pages[taken->count++] = (struct famsync_page){(uint16_t)f, (uint32_t)k};
  return 1;
}

/* Puts a page that is taken into the commit: whether it found place there. */
static int put_page(struct mapping *mapping, size_t k) { return put_taken(mapping->image, file_number(mapping), k); }

int are_too_many(struct kefs_image *image) { return fail(image, KEFS_TOO_MANY, "over %zu pages are dirty", most_taken(image)); }

/* Puts the dirty pages of an area, or a part of one, into the commit. Where one stays dirty, since a range before has taken it or as one too many, the area
   stays so. */
static int take_area(struct mapping *mapping, size_t first, size_t end) {
  for (size_t k = next_mark(mapping, first, end); k < end; k = next_mark(mapping, k + 1, end)) {
    if (!take_page(mapping, k)) {
      set_area(mapping, k, 1);
      continue;
    }
    if (!put_page(mapping, k)) {
      let_go(mapping, k, 0);
      return are_too_many(mapping->image);
    }
  }
  return KEFS_OK;
}

/* Puts the dirty pages of a span into the commit. */
static int take_span(const struct span *span) {
  struct mapping *mapping = span->mapping;
  int result = KEFS_OK;
  for (size_t k = span->first, end; k < span->end && result == KEFS_OK; k = end) {
    end = area_end(k, span->end);
    if (is_clean(mapping, k)) continue;
    if (k % AREA == 0 && end == area_end(k, mapping->pages)) set_area(mapping, k, 0);
    result = take_area(mapping, k, end);
  }
  return result;
}

/* Each page is noted, taken and sealed in this order; see open_pages for the reason. */
static int take(struct kefs_image *image, const struct kefs_range *ranges, size_t count) {
  struct spans it = spans_of(image, ranges, count);
  struct span span;
  while (next_span(&it, &span)) {
    size_t before = image->taken.count;
    int number = note_dirty(&span), result = number == KEFS_OK ? take_span(&span) : fail(image, number, "looking for dirty pages");
    if (result != KEFS_OK) return result;
    number = image->taken.count > before ? seal(&span) : KEFS_OK;
    if (number != KEFS_OK) return fail(image, number, "closing dirty pages");
  }
  return KEFS_OK;
}

/* Pages that were stored to and are as they are durable, as where a program has played its own roll back, need not be in a commit. They are looked for where it has
   too many pages, and where the stores to them are noted: a page that its caller has named stays so. */

static int may_forget(const struct kefs_image *image, const struct kefs_range *ranges, size_t count) {
  int notes = image->tracker == TRACKER_SCAN || image->tracker == TRACKER_SIGNAL;
  return notes && (ranges == NULL || count == 1); /* no page belongs to two ranges */
}

static int is_as_durable(const struct mapping *mapping, size_t k) {
  unsigned char durable[PAGE];
  copy_durable(mapping->image, file_number(mapping), k, durable);
  return memcmp(mapping->at + k * PAGE, durable, PAGE) == 0;
}

/* Takes all dirty pages of the span, closes them, and only then compares each: a store from then on is noted. Those that differ are put into the commit, as far as
   they find place there: whether all did. */
static int take_changed(const struct span *span) {
  struct mapping *mapping = span->mapping;
  size_t next = span->first;
  for (size_t k = next_marked(mapping, next, span->end); k < span->end; k = next_marked(mapping, k + 1, span->end)) take_page(mapping, k);
  if (seal(span) != KEFS_OK) return 0;
  for (size_t k = next_marked(mapping, next, span->end); k < span->end; k = next_marked(mapping, k + 1, span->end)) {
    if (!is_taken(mapping, k)) continue;
    if (is_as_durable(mapping, k)) {
      let_go(mapping, k, 1);
      continue;
    }
    if (!put_page(mapping, k)) return 0;
  }
  return 1;
}

/* What is dirty stays so, and open to system calls. */
static void give_back(const struct span *span) {
  for (size_t k = next_marked(span->mapping, span->first, span->end); k < span->end; k = next_marked(span->mapping, k + 1, span->end)) {
    if (is_taken(span->mapping, k)) let_go(span->mapping, k, 0);
    open_pages(&(struct span){span->mapping, k, k + 1});
  }
}

static int take_all_changed(struct kefs_image *image, const struct kefs_range *ranges, size_t count) {
  struct spans it = spans_of(image, ranges, count);
  struct span span;
  int all = 1;
  let_all_go(image, 0);
  while (all && next_span(&it, &span)) all = note_dirty(&span) == KEFS_OK && take_changed(&span);
  if (all) return KEFS_OK;
  image->taken.count = 0;
  for (it = spans_of(image, ranges, count); next_span(&it, &span);) give_back(&span);
  return are_too_many(image);
}

static int result_of(uint32_t answer) {
  switch (answer) {
    case FAMSYNC_OK: return KEFS_OK;
    case FAMSYNC_BAD_JOURNAL: return KEFS_BAD_JOURNAL;
    case FAMSYNC_NO_ROOM: return KEFS_TOO_MANY;
    case FAMSYNC_NO_MEMORY: return ENOMEM;
    default: return KEFS_NOT_IMAGE; /* another program has written over the layout: no other refusal is left */
  }
}

/* Pages in rising order are planned faster. They are so, but where ranges came in another one: then there are some runs of them, which are merged. */

/* Where the run of rising pages ends that begins with page `i`. */
static size_t run_from(const struct famsync_page *pages, size_t count, size_t i) {
  for (i++; i < count && order_of(&pages[i - 1]) <= order_of(&pages[i]);) i++;
  return i < count ? i : count;
}

static int are_in_order(const struct taken *taken) { return run_from(taken->pages, taken->count, 0) == taken->count; }

/* Puts the pages up to `middle`, and those from there up to `end`, into one order. */
static void merge(const struct famsync_page *from, size_t first, size_t middle, size_t end, struct famsync_page *to) {
  for (size_t i = first, j = middle; i < middle || j < end;) {
    int takes_first = j == end || (i < middle && order_of(&from[i]) <= order_of(&from[j]));
    *to++ = takes_first ? from[i++] : from[j++];
  }
}

/* Each two runs that follow each other, as one: how many there were. */
static size_t merge_runs(const struct famsync_page *from, size_t count, struct famsync_page *to) {
  size_t runs = 0;
  for (size_t first = 0, middle, end; first < count; first = end, runs++) {
    middle = run_from(from, count, first);
    end = middle < count ? run_from(from, count, middle) : middle;
    merge(from, first, middle, end, to + first);
  }
  return runs;
}

/* The room in which the image's places are sorted serves: a place takes as much as a page. */
static void put_in_order(struct kefs_image *image) {
  struct taken *taken = &image->taken;
  struct famsync_page *other = (void *)image->places.spare;
  while (merge_runs(taken->pages, taken->count, other) > 1) memcpy(taken->pages, other, taken->count * sizeof *other);
  memcpy(taken->pages, other, taken->count * sizeof *other);
}
_Static_assert(sizeof(struct place) == sizeof(struct famsync_page), "the room of places serves for pages");

static void find_bytes(struct kefs_image *image) {
  struct taken *taken = &image->taken;
  for (size_t i = 0; i < taken->count; i++) {
    const struct mapping *mapping = &image->mappings[taken->pages[i].file];
    size_t k = taken->pages[i].page;
    taken->bytes[i] = (struct famsync_bytes){is_taken(mapping, k) ? mapping->at + k * PAGE : edge_bytes(image, taken->pages[i].file, k)};
  }
}

int take_pages(struct kefs_image *image, const struct kefs_range *ranges, size_t count, int may_compare) {
  int result = take(image, ranges, count);
  if (result == KEFS_OK) result = take_edges(image);
  if (result == KEFS_TOO_MANY && may_compare && may_forget(image, ranges, count)) {
    result = take_all_changed(image, ranges, count);
    if (result == KEFS_OK) result = take_edges(image);
  }
  if (result != KEFS_OK) return result;
  if (!are_in_order(&image->taken)) put_in_order(image);
  find_bytes(image);
  return KEFS_OK;
}

static int plan_taken(struct kefs_image *image, struct famsync_handle *handle) {
  struct plan *scratch = &image->scratch, *plan = &image->plan;
  const struct taken *taken = image->planned;
  begin_heap(&image->heap);
  uint32_t answer = famsync_commit(handle, image->bytes, image->sectors, scratch->calls, scratch->room, scratch->rows, scratch->room, &plan->used,
                                   plan->calls, plan->room, plan->rows, plan->room, taken->pages, taken->count, taken->bytes, taken->count);
  end_heap();
  return answer == FAMSYNC_OK ? KEFS_OK : fail(image, result_of(answer), "no plan for %zu pages (%u)", taken->count, (unsigned)answer);
}

/* The slots of pages that a plan copies home are given to others by the plan that comes next. */
static int read_dropped(struct kefs_image *image) {
  if (!has_dropped(image)) return KEFS_OK;
  int number = fill_slotted(image);
  return number == KEFS_OK ? KEFS_OK : fail(image, number == EIO ? KEFS_DEVICE : number, "reading pages that were not touched");
}

/* Makes the calls of a plan. Room is taken before readers are kept out, so that a plan that is refused for want of it leaves all as it was. Its handle becomes the
   image's with its first call: a plan that is given up before it never was. Readers are let in again when the last sync is over, and not where a call has failed
   (end_change). */
int make_plan_calls(struct kefs_image *image, const struct famsync_handle *handle) {
  int result = read_dropped(image);
  if (result == KEFS_OK) result = take_rooms(image);
  if (result != KEFS_OK) return result;
  let_in(image);
  result = begin_change(image);
  keep_out(image);
  if (result == KEFS_OK) image->handle = *handle, result = carry_out(image);
  end_change(image);
  return result;
}

int commit_taken(struct kefs_image *image, struct taken *taken) {
  struct famsync_handle handle = image->handle;
  image->planned = taken;
  int result = taken->count == 0 ? KEFS_OK : plan_taken(image, &handle);
  return result == KEFS_OK && taken->count > 0 ? make_plan_calls(image, &handle) : result;
}

int tidy(struct kefs_image *image) {
  struct famsync_handle handle = image->handle;
  image->planned = &image->none;
  if (image->layout.blocks == 0 || free_places(image) == image->places.room) return KEFS_OK;
  int result = plan_tidy(image, &handle);
  return result == KEFS_OK ? make_plan_calls(image, &handle) : result;
}

int make_room_for(struct kefs_image *image, size_t pages) { return has_free_places(image, pages) ? KEFS_OK : tidy(image); }

/* Where the device has no room, as a file system may find out late, the image is recovered at once and goes on, with the pages still
   dirty. Should that fail too, it stays halted. */
int go_on(struct kefs_image *image, int result) {
  image->outcome = IN_DOUBT;
  if (result == KEFS_DEVICE) return result;
  char kept[MESSAGE];
  strcpy(kept, kefs_errmsg(image));
  if (recover_in_place(image) != KEFS_OK) return KEFS_DEVICE;
  fail(image, result, "%s", kept);
  return image->outcome == IS_AFTER ? KEFS_OK : result;
}

/* A page of a commit that failed stays taken, until kefs_recover says what became of it. */
int commit(struct kefs_image *image, const struct kefs_range *ranges, size_t count, size_t *taken) {
  ignore_reads(1);
  int result = take_sizes(image, ranges, count);
  if (result == KEFS_OK) result = take_pages(image, ranges, count, 1);
  size_t kept = image->taken.count, pages = kept + image->resizing.added;
  if (result == KEFS_OK) result = make_room_for(image, kept + image->resizing.directory);
  if (result == KEFS_OK) result = image->resizing.count > 0 ? commit_sizes(image) : commit_taken(image, &image->taken);
  ignore_reads(0);
  if (image->halted) result = go_on(image, result);
  if (image->halted) return result;
  if (result == KEFS_OK && taken != NULL) *taken = pages;
  end_commit(image, result == KEFS_OK);
  return result;
}

int check_ranges(struct kefs_image *image, const struct kefs_range *ranges, size_t count) {
  return ranges == NULL && count > 0 ? fail(image, EINVAL, "no ranges") : KEFS_OK;
}

int kefs_commit(kefs_image *image, const struct kefs_range *ranges, size_t count, size_t *taken) {
  int result = enter(image);
  if (result != KEFS_OK) return result;
  if (image->read_only) return leave(image, fail(image, KEFS_READ_ONLY, "kefs_commit"));
  result = check_ranges(image, ranges, count);
  if (result == KEFS_OK) result = commit_started(image); /* what was started before comes first */
  if (result == KEFS_OK) result = commit(image, ranges, count, taken);
  return leave(image, result);
}

/* The pages of bytes that lie in one mapped file of this image. */
static int whole_span(const struct kefs_image *image, const void *at, size_t length, struct span *span) {
  if (image == NULL) return KEFS_BAD_ARGUMENT;
  if (is_forked(image)) return KEFS_FORKED;
  struct mapping *mapping = mapping_at(at);
  if (mapping == NULL || mapping->image != image) return KEFS_BAD_RANGE;
  size_t offset = (size_t)((const unsigned char *)at - mapping->at), bytes = pages_now(mapping) * PAGE;
  if (offset >= bytes || length > bytes - offset) return KEFS_BAD_RANGE;
  size_t end = length == 0 ? 0 : (offset + length + PAGE - 1) / PAGE;
  *span = (struct span){mapping, length == 0 ? 0 : offset / PAGE, end};
  return KEFS_OK;
}

int kefs_msync(kefs_image *image, const void *at, size_t length) {
  struct span span;
  struct kefs_range range = {at, length};
  if (at == NULL) return kefs_commit(image, NULL, 0, NULL);
  int result = whole_span(image, at, length, &span);
  if (result == KEFS_FORKED || result == KEFS_BAD_ARGUMENT) return result;
  if (result == KEFS_OK) return kefs_commit(image, &range, 1, NULL);
  int entered = enter(image);
  return entered == KEFS_OK ? leave(image, fail(image, result, "%zu bytes at %p", length, at)) : entered;
}

/* A page that is counted is taken, so that no other range counts it too, and then let go. */
static size_t count_span(const struct span *span) {
  size_t pages = 0;
  for (size_t k = next_marked(span->mapping, span->first, span->end); k < span->end; k = next_marked(span->mapping, k + 1, span->end))
    pages += (size_t)take_page(span->mapping, k);
  return pages;
}

static void uncount_span(const struct span *span) {
  for (size_t k = next_marked(span->mapping, span->first, span->end); k < span->end; k = next_marked(span->mapping, k + 1, span->end))
    let_go(span->mapping, k, 0);
}

static int count_dirty(struct kefs_image *image, const struct kefs_range *ranges, size_t count, size_t *pages) {
  struct spans it = spans_of(image, ranges, count);
  struct span span;
  int number = KEFS_OK;
  size_t found = 0;
  while (number == KEFS_OK && next_span(&it, &span)) {
    number = note_dirty(&span);
    if (number == KEFS_OK) found += count_span(&span);
  }
  if (number == KEFS_OK) found += count_sized(image, ranges, count);
  for (it = spans_of(image, ranges, count); next_span(&it, &span);) uncount_span(&span);
  if (number != KEFS_OK) return fail(image, number, "looking for dirty pages");
  *pages = found;
  return KEFS_OK;
}

int kefs_count_dirty(kefs_image *image, const struct kefs_range *ranges, size_t count, size_t *pages) {
  int result = enter_beside(image);
  if (result == KEFS_OK && image->halted) result = leave(image, KEFS_HALTED);
  if (result != KEFS_OK) return result;
  result = pages == NULL ? fail(image, KEFS_BAD_ARGUMENT, "no place for the count") : check_ranges(image, ranges, count);
  if (result == KEFS_OK) result = count_dirty(image, ranges, count, pages);
  return leave(image, result);
}

/* A page that was started may have bytes past its file's end. */
void copy_committed(struct mapping *mapping, size_t k, unsigned char *to) {
  struct kefs_image *image = mapping->image;
  const unsigned char *started = started_bytes(image, mapping, k);
  if (started == NULL) return copy_durable(image, file_number(mapping), k, to);
  size_t left = image->files[file_number(mapping)].length - k * PAGE, inside = left < PAGE ? left : PAGE;
  memcpy(to, started, inside);
  memset(to + inside, 0, PAGE - inside);
}

/* The marks are dropped when the stores of the roll back itself are forgotten. */
static int roll_back_span(const struct span *span) {
  struct mapping *mapping = span->mapping;
  int number = note_dirty(span);
  if (number != KEFS_OK) return number;
  for (size_t k = next_marked(mapping, span->first, span->end); k < span->end; k = next_marked(mapping, k + 1, span->end))
    copy_committed(mapping, k, mapping->at + k * PAGE);
  number = forget_stores(span);
  for (size_t k = next_marked(mapping, span->first, span->end); k < span->end; k = next_marked(mapping, k + 1, span->end))
    drop_mark(&mapping->marks[k], DIRTY);
  return number;
}

int kefs_rollback(kefs_image *image, const struct kefs_range *ranges, size_t count) {
  int result = enter(image);
  if (result != KEFS_OK) return result;
  result = check_ranges(image, ranges, count);
  struct spans it = spans_of(image, ranges, count);
  struct span span;
  while (result == KEFS_OK && next_span(&it, &span)) {
    int number = roll_back_span(&span);
    if (number != KEFS_OK) result = fail(image, number, "forgetting stores");
  }
  if (result != KEFS_OK) return leave(image, result);
  int number = roll_back_sizes(image, ranges, count);
  return leave(image, number == KEFS_OK ? KEFS_OK : fail(image, number == EIO ? KEFS_DEVICE : number, "taking a length back"));
}

int kefs_touch(kefs_image *image, const void *at, size_t length) {
  struct span span;
  int result = whole_span(image, at, length, &span);
  if (result != KEFS_OK) return result;
  int number = fill_missing(&span);
  return number == EIO ? KEFS_DEVICE : number;
}

int kefs_mark_dirty(kefs_image *image, const void *at, size_t length) {
  struct span span;
  int result = whole_span(image, at, length, &span);
  if (result == KEFS_OK && (image->read_only || span.mapping->file.read_only)) result = KEFS_READ_ONLY;
  if (result != KEFS_OK || span.first == span.end) return result;
  int number = fill_missing(&span);
  if (number == KEFS_OK) number = open_pages(&span);
  return number == EIO ? KEFS_DEVICE : number;
}
