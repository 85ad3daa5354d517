/* Snapshots: what a reader has of an image as after one commit, and how it brings a newer one. readers.c says how all of it goes. */
#define _GNU_SOURCE
#include "reading.h"
#include <errno.h>
#include <fcntl.h>
#include <stdlib.h>
#include <string.h>
#include <sys/mman.h>
#include <unistd.h>

int begin_snapshot(struct kefs_image *image, long limit) {
  struct snapshot *snapshot = calloc(1, sizeof *snapshot);
  if (snapshot == NULL) return fail(image, ENOMEM, "a snapshot");
  *snapshot = (struct snapshot){.limit = limit, .memory = -1};
  image->snapshot = snapshot;
  return KEFS_OK;
}

static void drop_ends(const struct kefs_image *image, struct places *ends) {
  drop_memory(ends->list, image->entries * sizeof *ends->list), drop_memory(ends->spare, image->entries * sizeof *ends->spare);
  *ends = (struct places){0};
}

static void drop_copy(struct kefs_image *image) {
  struct snapshot *snapshot = image->snapshot;
  drop_memory(snapshot->at, snapshot->length);
  if (snapshot->memory >= 0) close(snapshot->memory);
  drop_places(&snapshot->places);
  drop_ends(image, &snapshot->ends);
  *snapshot = (struct snapshot){.limit = snapshot->limit, .memory = -1};
  image->bytes = NULL;
}

void end_snapshot(struct kefs_image *image) {
  if (image->snapshot == NULL) return;
  drop_copy(image);
  free(image->snapshot);
  image->snapshot = NULL;
}

/* Of an image of so many sectors. */
static size_t length_of_copy(const struct snapshot *snapshot, size_t sectors) { return (snapshot->before + SECTOR * sectors + PAGE - 1) / PAGE * PAGE; }

/* Memory for the copy: of zeros, as holes of the file are. */
static int new_copy(struct kefs_image *image) {
  struct snapshot *snapshot = image->snapshot;
  snapshot->before = (PAGE - (size_t)home_offset(&image->layout, 0) % PAGE) % PAGE;
  snapshot->length = length_of_copy(snapshot, image->sectors);
  snapshot->memory = new_memory_file();
  int number = snapshot->memory < 0 ? errno : set_length(snapshot->memory, (off_t)snapshot->length);
  if (number != KEFS_OK) return fail(image, number, "memory for a snapshot of %zu bytes", snapshot->length);
  void *at = mmap(NULL, snapshot->length, PROT_READ | PROT_WRITE, MAP_SHARED | MAP_NORESERVE, snapshot->memory, 0);
  if (at == MAP_FAILED) return fail(image, ENOMEM, "memory for a snapshot");
  snapshot->at = at;
  image->bytes = snapshot->at + snapshot->before;
  return KEFS_OK;
}

int file_of_bytes(const struct kefs_image *image, off_t *before) {
  *before = image->snapshot == NULL ? 0 : (off_t)image->snapshot->before;
  return image->snapshot == NULL ? image->fd : image->snapshot->memory;
}

/* Mapped files */

static const struct file NO_FILE;
static const uint32_t NO_HOME = UINT32_MAX;

/* So many pages of a file are shown by a mapping of it. */
static size_t shown_pages(const struct mapping *mapping, const struct file *file) {
  size_t pages = file->present ? (size_t)pages_of(file->length) : 0;
  return pages < mapping->kept ? pages : mapping->kept;
}

/* From page `k` of a mapping on: how many have homes of a file one after the other, or have none. */
static size_t run_of_homes(const struct mapping *mapping, const struct file *file, size_t k, uint32_t *home) {
  size_t pages = shown_pages(mapping, file);
  if (k >= pages) return *home = NO_HOME, mapping->kept - k;
  size_t run = homes_from(file, k, home);
  return run < pages - k ? run : pages - k;
}

static int map_homes(const struct span *span, uint32_t home) {
  const struct kefs_image *image = span->mapping->image;
  unsigned char *at = span->mapping->at + span->first * PAGE;
  size_t bytes = (span->end - span->first) * PAGE;
  off_t offset = (off_t)image->snapshot->before + home_offset(&image->layout, home);
  if (mmap(at, bytes, PROT_READ, MAP_SHARED | MAP_FIXED, image->snapshot->memory, offset) == MAP_FAILED) return errno;
  return madvise(at, bytes, MADV_DONTFORK) == 0 ? KEFS_OK : errno;
}

/* Has a mapping show the pages of one file where it showed those of another, as far as addresses are kept for them: those that have other homes, or have none
   any more. */
static int change_mapping(struct mapping *mapping, const struct file *from, const struct file *to) {
  int number = KEFS_OK;
  for (size_t k = 0, run; k < mapping->kept && number == KEFS_OK; k += run) {
    uint32_t before, home;
    size_t others = run_of_homes(mapping, from, k, &before);
    run = run_of_homes(mapping, to, k, &home);
    if (others < run) run = others;
    struct span span = {mapping, k, k + run};
    if (home != before) number = home == NO_HOME ? take_memory(&span) : map_homes(&span, home);
  }
  return number;
}

int map_snapshot(struct mapping *mapping) { return change_mapping(mapping, &NO_FILE, &mapping->file); }

static void note_file(struct mapping *mapping, const struct file *file) {
  mapping->file = *file;
  __atomic_store_n(&mapping->pages, shown_pages(mapping, file), __ATOMIC_SEQ_CST);
}

/* Brings all mapped files to the lengths that files have now, which had others before; or, where that fails, leaves them as they were. */
static int change_mappings(struct kefs_image *image) {
  const struct numbers *mapped = &image->mapped;
  int number = KEFS_OK;
  unsigned end = first_number(mapped);
  for (; end < KEFS_FILES && number == KEFS_OK; end = next_number(mapped, end + 1))
    number = change_mapping(&image->mappings[end], &image->mappings[end].file, &image->files[end]);
  for (unsigned f = first_number(mapped); f < end; f = next_number(mapped, f + 1))
    if (number == KEFS_OK) note_file(&image->mappings[f], &image->files[f]);
    else change_mapping(&image->mappings[f], &image->files[f], &image->mappings[f].file);
  return number == KEFS_OK ? KEFS_OK : fail(image, number, "other lengths of mapped files: %s", kefs_strerror(number));
}

/* Longer images */

static size_t bits_of(size_t length) { return length / PAGE / 8 + 1; }

/* What is longer of the copy stays so, also where a refresh fails: nobody sees it. */
static int lengthen_copy(struct snapshot *snapshot, size_t length) {
  if (length <= snapshot->length) return KEFS_OK;
  int number = set_length(snapshot->memory, (off_t)length);
  if (number != KEFS_OK) return number;
  void *at = mremap(snapshot->at, snapshot->length, length, MREMAP_MAYMOVE);
  if (at == MAP_FAILED) return ENOMEM;
  snapshot->at = at, snapshot->length = length;
  return KEFS_OK;
}

static int lengthen_view(struct reading *reading, size_t length) {
  struct snapshot *snapshot = reading->image->snapshot;
  if (reading->altered == NULL) return reading->view = snapshot->at, reading->length = snapshot->length, KEFS_OK;
  if (length <= reading->length) return KEFS_OK;
  void *altered = mremap(reading->altered, bits_of(reading->length), bits_of(length), MREMAP_MAYMOVE);
  if (altered == MAP_FAILED) return ENOMEM;
  reading->altered = altered;
  void *view = mremap(reading->view, reading->length, length, MREMAP_MAYMOVE);
  if (view != MAP_FAILED) return reading->view = view, reading->length = length, KEFS_OK;
  mremap(altered, bits_of(length), bits_of(reading->length), 0);
  return ENOMEM;
}

/* The host file gets longer where files do. */
static int follow_length(struct reading *reading, size_t sectors) {
  struct kefs_image *image = reading->image;
  struct snapshot *snapshot = image->snapshot;
  size_t length = length_of_copy(snapshot, sectors);
  int number = lengthen_copy(snapshot, length);
  if (number == KEFS_OK) number = lengthen_view(reading, length);
  if (number != KEFS_OK) return fail(image, number, "memory for a snapshot of %zu bytes", length);
  image->bytes = reading->view + snapshot->before;
  image->sectors = sectors;
  return KEFS_OK;
}

/* Making */

static int check_file(struct reading *reading) {
  struct kefs_image *image = reading->image;
  if (fstat(image->fd, &reading->facts) != 0) return fail(image, errno, "fstat");
  if (reading->facts.st_nlink == 0) return fail(image, ESTALE, "the image was replaced or removed");
  size_t sectors = (size_t)reading->facts.st_size / SECTOR;
  if (sectors < image->sectors) return fail(image, KEFS_NOT_IMAGE, "the image was cut");
  return sectors == image->sectors ? KEFS_OK : follow_length(reading, sectors);
}

/* Where no writer has told that the file is synced: as `settle`. */
static int settle_alone(struct reading *reading) {
  struct kefs_image *image = reading->image;
  if (fsync(image->fd) != 0) return fail(image, device_result(errno), "fsync: %s", strerror(errno));
  posix_fadvise(image->fd, 0, 0, POSIX_FADV_DONTNEED);
  return KEFS_OK;
}

/* What was read in turns before counts beside the same writer where it told what it has changed since, and without one where the file has not changed. Else all is
   read anew. */
static int go_on_or_restart(struct reading *reading) {
  int result = check_file(reading), was_alone = reading->is_alone;
  reading->is_alone = reading->state == 0;
  if (result != KEFS_OK) return result;
  off_t told = reading->state != 0 && reading->before != 0 ? count_told(reading) : -1;
  if ((told >= 0 && told <= MOST_TOLD) || (reading->is_alone && was_alone)) return KEFS_OK;
  result = begin_anew(reading), reading->before = 0;
  return result == KEFS_OK && reading->is_alone ? settle_alone(reading) : result;
}

/* Turns until all is read. */
static int read_used(struct reading *reading) {
  int result = begin_turn(reading);
  while (result == KEFS_OK) {
    result = go_on_or_restart(reading);
    if (result == KEFS_OK) result = use_turn(reading);
    int is_over = result != KEFS_OK || is_read(reading), holds = end_turn(reading, is_over);
    reading->before = holds ? reading->state : 0;
    reading->is_alone &= holds;
    if (holds && is_over) return result;
    result = begin_turn(reading);
  }
  return result;
}

/* Ends. Past a file's end its last page is zeros, whatever the image holds there. */

static int new_ends(struct kefs_image *image, struct places *ends) {
  *ends = (struct places){.list = new_memory(image->entries * sizeof *ends->list), .spare = new_memory(image->entries * sizeof *ends->spare)};
  return ends->list != NULL && ends->spare != NULL ? KEFS_OK : fail(image, ENOMEM, "memory for the ends of files");
}

static void list_ends(const struct kefs_image *image, struct places *ends) {
  for (unsigned f = first_number(&image->present); f < KEFS_FILES; f = next_number(&image->present, f + 1)) {
    const struct file *file = &image->files[f];
    uint32_t inside = (uint32_t)(file->length % PAGE);
    if (inside > 0) ends->list[ends->count++] = (struct place){home_of_page(file, file->length / PAGE), inside};
  }
  sort_places(ends);
}

static size_t page_of_home(const struct reading *reading, uint32_t home) { return page_of(reading, (size_t)home_offset(&reading->image->layout, home)); }

static void put_end(struct reading *reading, const struct place *end) {
  static const unsigned char zeros[PAGE];
  size_t k = page_of_home(reading, end->home);
  if (next_used(reading, k, k + 1) > k) return;
  put(reading, (size_t)home_offset(&reading->image->layout, end->home) + end->sector, zeros, PAGE - end->sector);
}

/* Where files are others than in the snapshot: those whose ends are others, or were read. */
static int put_new_ends(struct reading *reading) {
  struct kefs_image *image = reading->image;
  struct places *was = &image->snapshot->ends, now;
  size_t i = 0;
  if (new_ends(image, &now) != KEFS_OK) return drop_ends(image, &now), ENOMEM;
  list_ends(image, &now);
  for (const struct place *end = now.list; end < now.list + now.count; end++) {
    int is_other = has_other_place(was, &i, end);
    if (is_other || reading->altered == NULL || bit_of(reading->altered, page_of_home(reading, end->home))) put_end(reading, end);
  }
  drop_ends(image, was);
  *was = now;
  return KEFS_OK;
}

/* Else those that were read. */
static void put_ends(struct reading *reading) {
  const struct places *ends = &reading->image->snapshot->ends;
  size_t homes = page_of_home(reading, 0), pages = reading->length / PAGE;
  for (size_t k = next_altered(reading, homes, pages); k < pages; k = next_altered(reading, k + 1, pages)) {
    size_t i = first_place(ends, (uint32_t)(k - homes));
    if (i < ends->count && ends->list[i].home == k - homes) put_end(reading, &ends->list[i]);
  }
}

static int read_view(struct reading *reading) {
  int result = read_used(reading);
  if (result != KEFS_OK) return result;
  if (reading->has_new_files || reading->altered == NULL) return put_new_ends(reading);
  return put_ends(reading), KEFS_OK;
}

/* What the snapshot is as of from here on. */
static void note_reading(struct reading *reading) {
  struct snapshot *snapshot = reading->image->snapshot;
  snapshot->state = reading->state;
  snapshot->time = reading->facts.st_ctim;
  snapshot->is_calm = reading->began.tv_sec - reading->facts.st_ctim.tv_sec > CALM / 1000;
  struct places places = snapshot->places;
  snapshot->places = reading->now, reading->now = places;
}

/* Room for a pool's places, as they are and as they were in the snapshot, which is none where it is not made yet. */
static int begin_reading(struct reading *reading) {
  struct snapshot *snapshot = reading->image->snapshot;
  const struct layout *layout = &reading->image->layout;
  if (layout->blocks == 0) return KEFS_OK;
  int result = new_places(layout, &reading->now) == KEFS_OK && new_places(layout, &reading->was) == KEFS_OK ? KEFS_OK : ENOMEM;
  if (result == KEFS_OK) reading->map = new_memory((size_t)PAGE * layout->blocks);
  if (result != KEFS_OK || reading->map == NULL) return fail(reading->image, ENOMEM, "memory for a reading");
  reading->now.count = snapshot->places.count;
  if (snapshot->places.count > 0) memcpy(reading->now.list, snapshot->places.list, snapshot->places.count * sizeof *reading->now.list);
  return KEFS_OK;
}

static void end_reading(struct reading *reading) {
  drop_places(&reading->now), drop_places(&reading->was);
  drop_memory(reading->map, (size_t)PAGE * reading->image->layout.blocks);
}

/* The kind of an image never changes, so that it is read before any turn: room for the copy is made by it. */
static int check_kind(struct kefs_image *image) {
  int result = read_kind(image);
  if (result == KEFS_OK) result = refuse_layout_3(image);
  if (result != KEFS_OK || image->sectors >= least_sectors(&image->layout)) return result;
  return fail(image, KEFS_NOT_IMAGE, "%s: it has %zu sectors, under %zu", image->path, image->sectors, least_sectors(&image->layout));
}

int read_snapshot(struct kefs_image *image) {
  struct stat there;
  drop_copy(image);
  if (fstat(image->fd, &there) != 0) return fail(image, errno, "fstat");
  image->sectors = (size_t)there.st_size / SECTOR;
  int result = check_kind(image);
  if (result == KEFS_OK) result = make_rooms(image);
  if (result == KEFS_OK) result = new_copy(image);
  struct reading reading = {.image = image, .view = image->snapshot->at, .length = image->snapshot->length, .wait = wait_of(image->snapshot->limit)};
  if (result == KEFS_OK) result = begin_reading(&reading);
  if (result == KEFS_OK) result = read_view(&reading);
  if (result == KEFS_OK) note_reading(&reading);
  end_reading(&reading);
  return result;
}

/* Refreshing */

/* Brings the pages that differ over: whether a home page does. */
static int show(struct reading *reading) {
  struct kefs_image *image = reading->image;
  const struct snapshot *snapshot = image->snapshot;
  size_t pages = reading->length / PAGE, homes = page_of_home(reading, 0);
  int changed = 0;
  for (size_t k = next_altered(reading, 0, pages); k < pages; k = next_altered(reading, k + 1, pages)) {
    if (memcmp(snapshot->at + k * PAGE, reading->view + k * PAGE, PAGE) == 0) continue;
    memcpy(snapshot->at + k * PAGE, reading->view + k * PAGE, PAGE);
    changed |= k >= homes;
    if (k >= homes && image->late != NULL) set_bit(image->late, k - homes);
  }
  return changed;
}

/* Names are read anew where file 0 or its bytes may be others. */
static void forget_names(const struct reading *reading) {
  struct kefs_image *image = reading->image;
  const struct file *file = &image->files[0];
  int is_altered = reading->has_new_files;
  for (unsigned i = 0; i < file->extent_count && image->names != NULL && !is_altered; i++) {
    size_t first = page_of_home(reading, file->extents[i].first), end = first + file->extents[i].count;
    is_altered = file->extents[i].count > 0 && next_altered(reading, first, end) < end;
  }
  if (is_altered) end_names(image);
}

/* Whether the file surely is as it was for the snapshot: it has not changed since, or the writer has not committed. */
static int is_same(const struct kefs_image *image) {
  const struct snapshot *snapshot = image->snapshot;
  struct stat now;
  if (fstat(image->fd, &now) != 0 || now.st_nlink == 0) return 0;
  return (snapshot->is_calm && is_same_time(&now.st_ctim, &snapshot->time)) || (snapshot->state != 0 && state_now(image) == snapshot->state);
}

/* What an image says of its files is as before where a refresh fails. */
struct said { size_t sectors; struct kefs_stat stat; };

/* The copy still has the directory of before. */
static void say_again(struct reading *reading, const struct said *said) {
  struct kefs_image *image = reading->image;
  image->sectors = said->sectors, image->stat = said->stat;
  if (!reading->has_new_files) return;
  read_directory(image);
  image->snapshot->ends.count = 0;
  list_ends(image, &image->snapshot->ends);
}

/* For the time of the reading the image's bytes and files are those of the view. The mapped files show what they showed, in other places where pages have
   come, until the pages that differ are brought over. */
static int refresh_by(struct reading *reading, int *changed) {
  struct kefs_image *image = reading->image;
  struct said before = {image->sectors, image->stat};
  image->bytes = reading->view + image->snapshot->before;
  int result = read_view(reading);
  if (result == KEFS_OK && reading->has_new_files) result = change_mappings(image);
  if (result == KEFS_OK) note_reading(reading), *changed = show(reading), forget_names(reading);
  image->bytes = image->snapshot->at + image->snapshot->before;
  if (result != KEFS_OK) say_again(reading, &before);
  forget_places(image);
  return result;
}

static int refresh(struct kefs_image *image, int *changed) {
  struct snapshot *snapshot = image->snapshot;
  *changed = 0;
  if (is_same(image)) return KEFS_OK;
  void *view = mmap(NULL, snapshot->length, PROT_READ | PROT_WRITE, MAP_PRIVATE | MAP_NORESERVE, snapshot->memory, 0);
  struct reading reading = {.image = image, .view = view == MAP_FAILED ? NULL : view, .length = snapshot->length,
                            .altered = new_memory(bits_of(snapshot->length)), .part = new_memory(PART), .wait = wait_of(snapshot->limit),
                            .file = KEFS_FILES, .before = snapshot->state, .has_files = 1, .is_looked_at = 1};
  int has_memory = reading.view != NULL && reading.altered != NULL && reading.part != NULL;
  int result = has_memory ? begin_reading(&reading) : fail(image, ENOMEM, "memory for a refresh");
  if (result == KEFS_OK) result = refresh_by(&reading, changed);
  end_reading(&reading);
  drop_memory(reading.view, reading.length);
  drop_memory(reading.altered, bits_of(reading.length));
  drop_memory(reading.part, PART);
  return result;
}

int kefs_refresh(kefs_image *image, int *changed) {
  int differs, result = enter(image);
  if (result != KEFS_OK) return result;
  if (image->snapshot == NULL) return leave(image, fail(image, EINVAL, "the image was not opened with KEFS_SNAPSHOT"));
  result = refresh(image, &differs);
  if (result == KEFS_OK && changed != NULL) *changed = differs;
  return leave(image, result);
}
