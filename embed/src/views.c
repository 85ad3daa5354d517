/* What a reader reads of an image in its turns, into memory of its own. */
#define _GNU_SOURCE
#include "reading.h"
#include <errno.h>
#include <string.h>
#include <unistd.h>

/* Bytes */

size_t page_of(const struct reading *reading, size_t offset) { return (reading->image->snapshot->before + offset) / PAGE; }

/* Bytes of the view from an offset of the image on. */
static unsigned char *view_at(const struct reading *reading, size_t offset) { return reading->view + reading->image->snapshot->before + offset; }

/* Bytes have come into these pages of the copy itself. */
static void note_used(struct reading *reading, size_t first, size_t end) {
  if (reading->altered != NULL || end <= reading->clear || reading->used <= first) return;
  reading->used = first > reading->clear ? first : reading->clear;
}

/* Puts bytes into the view, within one page of its memory. A page that was not altered is that of the copy, and is compared there: to touch
   one of a new view costs a fault. */
void put(struct reading *reading, size_t offset, const unsigned char *from, size_t length) {
  const struct snapshot *snapshot = reading->image->snapshot;
  size_t k = page_of(reading, offset);
  int is_altered = reading->altered == NULL || bit_of(reading->altered, k);
  const unsigned char *there = is_altered ? view_at(reading, offset) : snapshot->at + snapshot->before + offset;
  if (memcmp(there, from, length) == 0) return;
  memcpy(view_at(reading, offset), from, length);
  note_used(reading, k, k + 1);
  if (!is_altered) set_bit(reading->altered, k);
}

static int read_at(struct reading *reading, unsigned char *to, size_t from, size_t length) {
  int number = read_all(reading->image->fd, to, length, (off_t)from);
  if (number == KEFS_OK) return KEFS_OK;
  return fail(reading->image, KEFS_DEVICE, "pread of %zu bytes at sector %zu: %s", length, from / SECTOR, kefs_strerror(number));
}

/* Bytes of the file into the view. */
static int read_bytes(struct reading *reading, size_t from, size_t end) {
  int result = KEFS_OK;
  for (size_t at = from, part; at < end && result == KEFS_OK; at += part) {
    part = end - at < PART ? end - at : PART;
    result = read_at(reading, reading->altered == NULL ? view_at(reading, at) : reading->part, at, part);
    note_used(reading, page_of(reading, at), page_of(reading, at + part - 1) + 1);
    if (reading->altered == NULL) continue;
    for (size_t done = 0, more; done < part && result == KEFS_OK; done += more) {
      more = PAGE - (reading->image->snapshot->before + at + done) % PAGE;
      if (more > part - done) more = part - done;
      put(reading, at + done, reading->part + done, more);
    }
  }
  return result;
}

/* Where the next bytes from `from` on begin that are no hole, or `end`. Where they begin and end is kept, since some systems search long for it. */
static off_t find_data(struct reading *reading, off_t from, off_t end) {
  if (from < reading->begin || reading->hole <= from) reading->begin = from, reading->data = next_data(reading->image->fd, from, MOST_BYTES, &reading->hole);
  return reading->data >= end ? end : reading->data < from ? from : reading->data;
}

/* Eight bytes of the bits are looked at together. */
size_t next_altered(const struct reading *reading, size_t k, size_t end) {
  typedef uint64_t __attribute__((may_alias)) many_bits;
  while (k < end && !bit_of(reading->altered, k)) k += k % 64 == 0 && *(const many_bits *)(reading->altered + k / 8) == 0 ? 64 : 1;
  return k < end ? k : end;
}

/* Of the copy's memory the first page from `k` on that has bytes. Where it is is kept, since some systems search long for it. */
static size_t find_used(struct reading *reading, size_t k) {
  if (reading->clear <= k && k < reading->used) return reading->used;
  off_t data = lseek(reading->image->snapshot->memory, (off_t)(k * PAGE), SEEK_DATA);
  reading->clear = k, reading->used = data >= 0 ? (size_t)data / PAGE : errno == ENXIO ? SIZE_MAX : k;
  return reading->used;
}

size_t next_used(struct reading *reading, size_t k, size_t end) {
  size_t used = k < end ? find_used(reading, k) : end;
  return reading->altered == NULL ? used : next_altered(reading, k, used < end ? used : end);
}

/* A hole of the file is zeros, also where bytes were: tools make holes of zeros that were written, and so change no byte. */
static void put_hole(struct reading *reading, size_t from, size_t end) {
  static const unsigned char zeros[PAGE];
  size_t before = reading->image->snapshot->before, last = page_of(reading, end + PAGE - 1);
  for (size_t k = next_used(reading, page_of(reading, from), last); k < last; k = next_used(reading, k + 1, last)) {
    size_t first = k * PAGE < before + from ? from : k * PAGE - before, stop = (k + 1) * PAGE - before;
    put(reading, first, zeros, (stop < end ? stop : end) - first);
  }
}

/* The bytes of home pages. */
static int read_homes(struct reading *reading, off_t from, off_t end) {
  int result = KEFS_OK;
  while (result == KEFS_OK && from < end) {
    off_t data = find_data(reading, from, end), to = reading->hole < end ? reading->hole : end;
    put_hole(reading, (size_t)from, (size_t)data);
    if (data < end) result = read_bytes(reading, (size_t)data, (size_t)to);
    from = data < end ? to : end;
  }
  return result;
}

/* The layout of an image never changes, nor, of layout 2, its directory: with others the file was made anew in place. */
static int check_layout(struct reading *reading) {
  struct kefs_image *image = reading->image;
  struct layout layout = layout_of(image);
  return is_same_layout(&layout, &image->layout) ? KEFS_OK : fail(image, KEFS_NOT_IMAGE, "another layout than before");
}

static int check_directory(struct reading *reading) {
  struct kefs_image *image = reading->image;
  const struct snapshot *snapshot = image->snapshot;
  size_t offset = (size_t)SECTOR * image->layout.directory;
  if (reading->altered == NULL) {
    image->stat.pages = home_pages(image);
    return read_directory(image), KEFS_OK;
  }
  if (memcmp(image->bytes + offset, snapshot->at + snapshot->before + offset, SECTOR) == 0) return KEFS_OK;
  return fail(image, KEFS_NOT_IMAGE, "another directory than before");
}

/* All up to the gate: mark, kind, directory, gate. */
static int read_head(struct reading *reading) {
  int result = read_bytes(reading, 0, (size_t)SECTOR * (reading->image->layout.gate + 1));
  if (result == KEFS_OK) result = check_layout(reading);
  return result == KEFS_OK ? check_directory(reading) : result;
}

/* The map of the journal that the gate names, and of its body the pages that the map names. */
static int read_journal(struct reading *reading) {
  const struct kefs_image *image = reading->image;
  size_t from = (size_t)SECTOR * named_map(image), body = from + (size_t)SECTOR * MAP_SECTORS;
  if (from == 0) return KEFS_OK;
  int result = read_bytes(reading, from, body);
  if (result != KEFS_OK) return result;
  size_t pages = count_of_map(image);
  return pages > JOURNAL_PAGES ? KEFS_OK : read_bytes(reading, body, body + PAGE * pages);
}

/* A pool */

/* Reads a page from where it stands into its home. */
static int read_place(struct reading *reading, const struct place *place) {
  unsigned char page[PAGE];
  int result = read_at(reading, page, SECTOR * (size_t)place->sector, PAGE);
  if (result == KEFS_OK) put(reading, (size_t)home_offset(&reading->image->layout, place->home), page, PAGE);
  return result;
}

/* Of homes from an offset of the image on: where the first begins that stands in a slot, or `end`. */
static off_t next_slotted(const struct reading *reading, off_t from, off_t end, const struct place **place) {
  const struct layout *layout = &reading->image->layout;
  const struct places *now = &reading->now;
  if (now->count == 0) return end;
  size_t i = first_place(now, (uint32_t)((from - home_offset(layout, 0) + PAGE - 1) / PAGE));
  *place = &now->list[i];
  return i < now->count && home_offset(layout, now->list[i].home) < end ? home_offset(layout, now->list[i].home) : end;
}

/* The blocks of a map that count, into the room for it. */
static int read_map(struct reading *reading, uint32_t first) {
  size_t length = (size_t)PAGE * reading->image->layout.blocks, last = length - PAGE;
  int result = read_at(reading, reading->map + last, (size_t)SECTOR * first + last, PAGE);
  size_t count = result == KEFS_OK ? number_at(reading->map + last) : 0;
  for (size_t at = count < length / PAGE ? length - PAGE * count : 0, more; at < last && result == KEFS_OK; at += more) {
    more = last - at < PART ? last - at : PART;
    result = read_at(reading, reading->map + at, (size_t)SECTOR * first + at, more);
  }
  return result;
}

/* Where pages stand now. The view's gate stays as that of an image whose pool is empty. */
static int read_pool(struct reading *reading) {
  const struct kefs_image *image = reading->image;
  const struct layout *layout = &image->layout;
  unsigned char gate[SECTOR];
  struct places was = reading->was;
  int result = read_at(reading, gate, (size_t)SECTOR * layout->gate, SECTOR);
  uint32_t first = layout->maps[result == KEFS_OK && is_open_gate(gate)];
  if (result == KEFS_OK) result = read_map(reading, first);
  if (result != KEFS_OK) return result;
  reading->was = reading->now, reading->now = was;
  list_places(layout, home_pages(image), reading->map, first, &reading->now);
  sort_places(&reading->now);
  return KEFS_OK;
}

/* Puts a page of the directory into its home. */
static int read_directory_page(struct reading *reading, uint32_t home) {
  unsigned char page[PAGE];
  const struct layout *layout = &reading->image->layout;
  const struct place *place;
  off_t at = home_offset(layout, home);
  size_t sector = next_slotted(reading, at, at + PAGE, &place) == at ? place->sector : home_sector(layout, home);
  int result = read_at(reading, page, SECTOR * sector, PAGE);
  if (result != KEFS_OK || memcmp(page, view_at(reading, (size_t)at), PAGE) == 0) return result;
  reading->has_files = 0;
  return put(reading, (size_t)at, page, PAGE), KEFS_OK;
}

int has_other_place(const struct places *was, size_t *i, const struct place *now) {
  while (*i < was->count && was->list[*i].home < now->home) ++*i;
  return *i == was->count || was->list[*i].home != now->home || was->list[*i].sector != now->sector;
}

static int read_directory_pages(struct reading *reading, off_t first, off_t end) {
  int result = KEFS_OK;
  if (end > (off_t)reading->image->layout.directory_pages) end = reading->image->layout.directory_pages;
  for (off_t home = first; home < end && result == KEFS_OK; home++) result = read_directory_page(reading, (uint32_t)home);
  return result;
}

/* Those that a commit has named. */
static int read_listed_directory(struct reading *reading, off_t list) {
  off_t count, end = list + reading->image->layout.directory_pages;
  int result = KEFS_OK;
  for (off_t at = next_run(reading, list, list, &count); count > 0 && at < end && result == KEFS_OK; at = next_run(reading, list, at + count, &count))
    result = read_directory_pages(reading, at - list, at - list + count);
  return result;
}

/* Those that the last commit has changed stand in other slots, and earlier ones have named theirs. */
static int read_changed_directory(struct reading *reading) {
  const struct places *now = &reading->now;
  int result = KEFS_OK;
  size_t was = 0;
  for (off_t state = reading->before + 1; state < reading->state && result == KEFS_OK; state++) result = read_listed_directory(reading, list_of(state));
  for (size_t i = 0; i < now->count && now->list[i].home < reading->image->layout.directory_pages && result == KEFS_OK; i++)
    if (has_other_place(&reading->was, &was, &now->list[i])) result = read_directory_page(reading, now->list[i].home);
  return result;
}

/* Whether the view has the directory as it was before commits that tell what they have changed of it. */
static int is_directory_told(const struct reading *reading) {
  if (!reading->has_files || reading->before == 0) return 0;
  return reading->state - reading->before <= 1 || tells_directory(reading->image);
}

/* The files of a turn may be others than those of the turn before, and the image longer. What is read goes by them only where they lie in it. */
static int read_pool_directory(struct reading *reading) {
  struct kefs_image *image = reading->image;
  image->stat.pages = home_pages(image);
  int result = is_directory_told(reading) ? read_changed_directory(reading) : read_directory_pages(reading, 0, image->layout.directory_pages);
  if (result != KEFS_OK || reading->has_files) return result;
  struct finding finding = check_image(image);
  if (finding.result != KEFS_OK) return fail(image, finding.result, "%s", finding.words);
  read_directory(image);
  reading->has_files = reading->has_new_files = 1, reading->is_looked_at = 0;
  return KEFS_OK;
}

/* Mark and kind, and all that says where pages stand. */
static int read_pool_head(struct reading *reading) {
  int result = read_bytes(reading, 0, (size_t)SECTOR * (KIND_SECTOR + 1));
  if (result == KEFS_OK) result = check_layout(reading);
  if (result == KEFS_OK) result = read_pool(reading);
  return result == KEFS_OK ? read_pool_directory(reading) : result;
}

int begin_anew(struct reading *reading) {
  if (reading->restarts++ > RESTARTS && milliseconds() >= reading->wait.end) return is_busy_reading(reading->image);
  return reading->file = 0, reading->done = 0, KEFS_OK;
}

/* Reads what the last commit has changed: where that is too much for a turn, all is read anew, from this turn on. */
static int read_changed(struct reading *reading) {
  const struct places *now = &reading->now;
  size_t changed = 0, was = 0;
  for (size_t i = 0; i < now->count; i++) changed += (size_t)has_other_place(&reading->was, &was, &now->list[i]);
  if (changed > MOST_CHANGED) return begin_anew(reading);
  int result = KEFS_OK;
  was = 0;
  for (size_t i = 0; i < now->count && result == KEFS_OK; i++)
    if (has_other_place(&reading->was, &was, &now->list[i])) result = read_place(reading, &now->list[i]);
  return result;
}

/* Home pages */

/* A range of home pages, from where they stand in the file. What stands in a journal is read after it, and what stands in a slot instead. */
static int read_range(struct reading *reading, off_t from, off_t end) {
  int result = KEFS_OK;
  while (from < end && result == KEFS_OK) {
    const struct place *place;
    off_t slotted = next_slotted(reading, from, end, &place);
    result = slotted == from ? read_place(reading, place) : read_homes(reading, from, slotted);
    from = slotted == from ? from + PAGE : slotted;
  }
  return result;
}

static int read_list(struct reading *reading, off_t list) {
  const struct kefs_image *image = reading->image;
  int result = KEFS_OK;
  off_t count;
  for (off_t at = next_run(reading, list, list, &count); count > 0 && result == KEFS_OK; at = next_run(reading, list, at + count, &count)) {
    off_t home = at - list;
    if ((uint64_t)(home + count) > image->stat.pages) return fail(image, KEFS_NOT_IMAGE, "a list of homes that are none");
    result = read_range(reading, home_offset(&image->layout, (uint32_t)home), home_offset(&image->layout, (uint32_t)(home + count)));
  }
  return result;
}

/* Reads the homes that commits have told of: of the last one those of new pages alone, since its journal or its slots tell the others. */
static int read_told(struct reading *reading) {
  int result = KEFS_OK;
  for (off_t state = reading->before + 1; state <= reading->state && result == KEFS_OK; state++) {
    if (state < reading->state) result = read_list(reading, list_of(state));
    if (result == KEFS_OK) result = read_list(reading, new_list_of(state));
  }
  return result;
}

static off_t home_bytes(const struct file *file) { return file->present ? (off_t)(PAGE * pages_of(file->length)) : 0; }

int is_read(struct reading *reading) {
  const struct kefs_image *image = reading->image;
  while (reading->file < KEFS_FILES && reading->done >= home_bytes(&image->files[reading->file]))
    reading->file = next_number(&image->present, reading->file + 1), reading->done = 0;
  return reading->file == KEFS_FILES;
}

/* Of homes up to `end` the holes up to the next bytes, and at most so many bytes: how many of these go to *left. Of a pool no page is read in parts: it may have a
   slot in the next turn. */
static int read_bytes_of_homes(struct reading *reading, off_t from, off_t end, off_t *left) {
  off_t data = find_data(reading, from, end), to = reading->hole < end ? reading->hole : end;
  off_t within = reading->image->layout.blocks == 0 ? 1 : PAGE;
  data -= data % within;
  if (to > data + *left) to = data + *left;
  to += (within - to % within) % within;
  put_hole(reading, (size_t)from, (size_t)data);
  if (data == end) return reading->done += end - from, KEFS_OK;
  *left -= to - data, reading->done += to - from;
  return read_bytes(reading, (size_t)data, (size_t)to);
}

/* Of one file's homes that follow each other. */
static int read_next(struct reading *reading, off_t *left) {
  const struct file *file = &reading->image->files[reading->file];
  const struct place *place;
  uint32_t home = 0;
  off_t homes = (off_t)homes_from(file, (size_t)(reading->done / PAGE), &home), most = (off_t)pages_of(file->length) - reading->done / PAGE;
  off_t begin = home_offset(&reading->image->layout, home), from = begin + reading->done % PAGE, end = begin + PAGE * (homes < most ? homes : most);
  off_t slotted = next_slotted(reading, from, end, &place);
  if (slotted > from) return read_bytes_of_homes(reading, from, slotted, left);
  *left -= PAGE, reading->done += PAGE;
  return read_place(reading, place);
}

/* A chunk of home pages: holes are no part of it. */
static int read_some(struct reading *reading) {
  int result = KEFS_OK;
  for (off_t left = CHUNK; left > 0 && result == KEFS_OK && !is_read(reading);) result = read_next(reading, &left);
  return result;
}

/* Makes the calls of a plan of the view. */
static void make_calls(struct reading *reading) {
  const struct plan *plan = &reading->image->plan;
  for (size_t i = 0; i < plan->used; i++) {
    const struct famsync_call *call = &plan->calls[i];
    size_t to = (size_t)(SECTOR * call->sector), sectors = call->kind == FAMSYNC_COPY ? PAGE / SECTOR : call->kind == FAMSYNC_WRITE ? 1 : 0;
    const unsigned char *from = call->kind == FAMSYNC_COPY ? view_at(reading, (size_t)(SECTOR * call->from)) : plan->rows[i];
    for (size_t s = 0; s < sectors; s++) put(reading, to + SECTOR * s, from + SECTOR * s, SECTOR);
  }
  famsync_done(&reading->image->handle);
}

static int carry_journal_out(struct reading *reading) {
  int result = read_journal(reading);
  if (result == KEFS_OK) result = recover(reading->image);
  if (result == KEFS_OK) make_calls(reading);
  return result;
}

/* The journal is carried out beside a writer in each turn, since its next commit writes over another one, and else in the last. */
static int use_journal_turn(struct reading *reading, int is_told) {
  int result = read_head(reading);
  if (result == KEFS_OK && is_told) result = read_told(reading);
  if (result == KEFS_OK) result = read_some(reading);
  return result == KEFS_OK && (reading->state != 0 || is_read(reading)) ? carry_journal_out(reading) : result;
}

/* The proved part looks at what was read at the opening, and at each directory after it. Of the view, whose pool is empty, it plans nothing but to write an
   empty map anew. */
static int look_at(struct reading *reading) {
  int result = recover(reading->image);
  if (result != KEFS_OK) return result;
  make_calls(reading);
  reading->is_looked_at = 1;
  return KEFS_OK;
}

static int use_pool_turn(struct reading *reading, int is_told) {
  int result = read_pool_head(reading);
  if (result == KEFS_OK && is_told) result = read_told(reading);
  if (result == KEFS_OK && is_told) result = read_changed(reading);
  if (result == KEFS_OK) result = read_some(reading);
  return result == KEFS_OK && is_read(reading) && !reading->is_looked_at ? look_at(reading) : result;
}

int use_turn(struct reading *reading) {
  int is_told = reading->state != 0 && reading->before != 0 && reading->state != reading->before;
  clock_gettime(CLOCK_REALTIME, &reading->began);
  reading->begin = reading->data;
  return reading->image->layout.blocks == 0 ? use_journal_turn(reading, is_told) : use_pool_turn(reading, is_told);
}
