/* What files are to be: lengths that kefs_resize gives, and the commits that make them durable.

   A file that is mapped has its length at once: pages that are cut off are gone from the memory, and those that come are zeros, and dirty. Of one that is not
   mapped it is noted how many of its durable bytes are left: behind these it is zeros. A mapping that is made later brings both about, and from then on its
   pages tell.

   A commit that takes a length takes all pages of the file that are *new*: those behind the last one that is durable. They go to free homes, and may be any
   number. Where they are few all of them are listed, and take slots of the pool as others do. Where they are many those are listed that are more than zeros, and
   the rest become zeros by calls of the plan that are of many homes each: of a file that is not mapped none is listed, and of one that is those are looked at
   that were touched. Of the other pages it takes the dirty ones of its ranges, and those of the file's *edge*: the last durable page, where this is not full and the file gets longer; and of a file that is not mapped all that became zeros. What the edge has
   more than the ranges goes as it is durable, or is zeros, and is not marked as taken. */
#include "internal.h"
#include <errno.h>
#include <string.h>

static const unsigned char zeros[PAGE];

static int is_zero(const unsigned char *bytes, size_t length) { return memcmp(bytes, zeros, length) == 0; }

/* Lengths */

static int is_changed(const struct kefs_image *image, unsigned f) { return has_number(&image->changed, f); }

uint64_t length_of(const struct kefs_image *image, unsigned f) { return is_changed(image, f) ? image->sizes[f].length : image->files[f].length; }
uint64_t left_of(const struct kefs_image *image, unsigned f) { return is_changed(image, f) ? image->sizes[f].left : image->files[f].length; }

void forget_size(struct kefs_image *image, unsigned f) {
  if (!is_changed(image, f)) return;
  image->lacks -= image->sizes[f].lacks, image->wants -= image->sizes[f].wants;
  drop_number(&image->changed, f);
}

void put_size(struct kefs_image *image, unsigned f, const struct size *size) {
  struct size put = *size;
  find_lacks(image, f, &put);
  forget_size(image, f);
  image->sizes[f] = put;
  image->lacks += put.lacks, image->wants += put.wants;
  add_number(&image->changed, f);
}

static void set_size(struct kefs_image *image, unsigned f, uint64_t length, uint64_t left) {
  struct size size = is_changed(image, f) ? image->sizes[f] : (struct size){0};
  uint64_t durable = image->files[f].length;
  size.length = length, size.left = left;
  if (size.is_new || length != durable || left != durable) put_size(image, f, &size);
  else forget_size(image, f);
}

void settle_size(struct kefs_image *image, unsigned f) { set_size(image, f, length_of(image, f), image->files[f].length); }

/* How many new pages a file has. */
static size_t added_pages(const struct kefs_image *image, unsigned f) {
  size_t durable = durable_pages(image, f), pages = (size_t)pages_of(length_of(image, f));
  return pages > durable ? pages - durable : 0;
}

/* The pages of a file's edge. */
static struct span edge_of(struct kefs_image *image, unsigned f) {
  size_t durable = durable_pages(image, f), pages = (size_t)pages_of(length_of(image, f)), left = left_of(image, f);
  if (length_of(image, f) <= left) return (struct span){&image->mappings[f], 0, 0};
  return (struct span){&image->mappings[f], left / PAGE, pages < durable ? pages : durable};
}

/* Memory */

/* Where a mapping has other bytes than zeros behind so many, up to the end of the page, *tail is where, and they may be stored to; else it is NULL. */
static int open_tail(struct mapping *mapping, uint64_t length, unsigned char **tail) {
  size_t k = length / PAGE, inside = length % PAGE;
  struct span page = {mapping, k, k + 1};
  int number = inside == 0 ? KEFS_OK : fill_missing(&page);
  *tail = NULL;
  if (inside == 0 || number != KEFS_OK || is_zero(mapping->at + length, PAGE - inside)) return number;
  *tail = mapping->at + length;
  return open_pages(&page);
}

/* Brings a mapping from one length to another. What may fail comes before what can't be taken back. */
static int fit(struct mapping *mapping, uint64_t before, uint64_t length) {
  uint64_t least = before < length ? before : length;
  size_t pages = (size_t)pages_of(length);
  unsigned char *tail;
  int number = open_tail(mapping, least, &tail);
  if (number == KEFS_OK && pages > mapping->pages) number = lengthen_mapping(mapping, pages);
  if (number == KEFS_OK && pages < mapping->pages) number = shorten_mapping(mapping, pages);
  if (number == KEFS_OK && tail != NULL) memset(tail, 0, PAGE - least % PAGE);
  return number;
}

int fit_new_mapping(struct mapping *mapping) {
  struct kefs_image *image = mapping->image;
  unsigned f = file_number(mapping);
  return is_changed(image, f) ? fit(mapping, left_of(image, f), length_of(image, f)) : KEFS_OK;
}

/* Resizing */

static int check_resize(struct kefs_image *image, unsigned file, size_t length) {
  if (image->read_only) return fail(image, KEFS_READ_ONLY, "kefs_resize");
  int result = file_of(image, file);
  if (result != KEFS_OK) return result;
  if (is_names_file(image, file)) return fail(image, EINVAL, "file %u is the names of others", file);
  if (image->files[file].read_only) return fail(image, KEFS_READ_ONLY, "file %u", file);
  if (image->layout.blocks == 0) return fail(image, EOPNOTSUPP, "lengths of an image of layout %u", (unsigned)image->layout.number);
  if (length > LONGEST_FILE) return fail(image, EFBIG, "%zu bytes", length);
  const struct mapping *mapping = &image->mappings[file];
  if (mapping->at == NULL || pages_of(length) <= mapping->kept) return KEFS_OK;
  return fail(image, ENOMEM, "%zu bytes of file %u, whose mapping keeps addresses for %zu pages", length, file, mapping->kept);
}

/* Of a mapped file what is left is all that is durable. */
static int resize(struct kefs_image *image, unsigned f, uint64_t length) {
  struct mapping *mapping = &image->mappings[f];
  int was_changed = is_changed(image, f);
  struct size kept = image->sizes[f];
  uint64_t before = length_of(image, f), left = left_of(image, f);
  if (length == before) return KEFS_OK;
  set_size(image, f, length, mapping->at == NULL && length < left ? length : left);
  int result = length > before ? make_homes(image, f) : KEFS_OK, number = KEFS_OK;
  if (result == KEFS_OK && mapping->at != NULL) number = fit(mapping, before, length);
  if (number != KEFS_OK) result = fail(image, number == EIO ? KEFS_DEVICE : number, "memory of file %u: %s", f, kefs_strerror(number));
  if (result != KEFS_OK && was_changed) put_size(image, f, &kept);
  if (result != KEFS_OK && !was_changed) forget_size(image, f);
  return result;
}

int kefs_resize(kefs_image *image, unsigned file, size_t length) {
  int result = enter(image);
  if (result != KEFS_OK) return result;
  result = check_resize(image, file, length);
  ignore_reads(1);
  if (result == KEFS_OK) result = resize(image, file, length);
  ignore_reads(0);
  return leave(image, result);
}

/* Commits */

/* What a call of these ranges is of: the files whose lengths it takes, or that come or go, and whether it takes names. */
struct meant { struct numbers files; int names; };

static void find_meant(struct kefs_image *image, const struct kefs_range *ranges, size_t count, struct meant *meant) {
  *meant = (struct meant){.names = means_files(image, ranges, count)};
  for (unsigned f = first_number(&image->changed); f < KEFS_FILES; f = next_number(&image->changed, f + 1)) {
    int takes = comes_or_goes(image, f) ? meant->names : ranges == NULL || has_byte_of(&image->mappings[f], ranges, count);
    if (takes) add_number(&meant->files, f);
  }
}

int has_sizes(struct kefs_image *image, const struct kefs_range *ranges, size_t count) {
  struct meant meant;
  find_meant(image, ranges, count, &meant);
  return meant.files.some != 0 || (meant.names && next_changed_name_page(image, 0) < KEFS_FILES);
}

static void add_size(struct kefs_image *image, unsigned f) {
  struct resizing *resizing = &image->resizing;
  int is_next_page = resizing->count == 0 || resizing->sizes[resizing->count - 1].file / PAGE_ENTRIES != f / PAGE_ENTRIES;
  resizing->sizes[resizing->count++] = (struct famsync_size){f, (uint32_t)is_there(image, f), length_of(image, f)};
  resizing->added += added_pages(image, f);
  resizing->directory += (size_t)is_next_page;
}

/* To map room anew would take longer than all else that a commit of a page does. So it stays for the next commits, and gets larger in steps; but room for more
   new pages than MOST_KEPT goes with its commit. For so many the plans have 8 MiB of addresses, and memory only where one of them was as long. */
enum { LEAST_ROOM = 64, MOST_KEPT = 1024 };

static size_t room_for(size_t pages) {
  size_t room = LEAST_ROOM;
  while (room < pages && room < MOST_KEPT) room *= 2;
  return room < pages ? pages : room;
}

static size_t lent_length(const struct kefs_image *image, size_t room) { return (room + image->places.room) * sizeof(struct famsync_bytes); }

static void drop_lists(struct kefs_image *image) {
  struct resizing *resizing = &image->resizing;
  drop_memory(resizing->fresh, resizing->room * sizeof *resizing->fresh);
  drop_memory(resizing->lent.bytes, lent_length(image, resizing->room));
  resizing->fresh = NULL, resizing->lent.bytes = NULL, resizing->room = 0;
}

static void drop_edges(struct kefs_image *image) {
  struct resizing *resizing = &image->resizing;
  drop_memory(resizing->edges, resizing->edge_room * PAGE);
  resizing->edges = NULL, resizing->edge_room = 0;
}

/* A file's edge has one page at most that is neither zeros nor memory. */
static int make_edges(struct kefs_image *image) {
  struct resizing *resizing = &image->resizing;
  size_t room = room_for(resizing->count);
  resizing->edge_count = 0;
  if (room <= resizing->edge_room) return KEFS_OK;
  drop_edges(image);
  resizing->edges = new_memory(room * PAGE);
  if (resizing->edges == NULL) return ENOMEM;
  resizing->edge_room = room;
  return KEFS_OK;
}

/* Few new pages all go into slots, in a commit of two syncs as any other (the proved part has this number too). A list that leaves some out takes a sync more. */
enum { MOST_IN_SLOTS = 128 };
static int lists_all(const struct resizing *resizing) { return resizing->added <= MOST_IN_SLOTS; }

/* Which of many pages are listed is not known before: there are addresses for all that are mapped, and memory for those that are listed. */
static size_t most_listed(const struct kefs_image *image) {
  const struct resizing *resizing = &image->resizing;
  size_t pages = 0;
  for (size_t i = 0; i < resizing->count; i++)
    if (lists_all(resizing) || image->mappings[resizing->sizes[i].file].at != NULL) pages += added_pages(image, resizing->sizes[i].file);
  return pages;
}

static int make_lists(struct kefs_image *image) {
  struct resizing *resizing = &image->resizing;
  size_t room = room_for(most_listed(image));
  resizing->listed = 0;
  if (room <= resizing->room) return KEFS_OK;
  drop_lists(image);
  resizing->room = room;
  resizing->fresh = new_memory(room * sizeof *resizing->fresh);
  resizing->lent.bytes = new_memory(lent_length(image, room));
  if (resizing->fresh != NULL && resizing->lent.bytes != NULL) return KEFS_OK;
  return drop_lists(image), ENOMEM;
}

/* How many calls make new pages zeros at the most: one for each part that a file lies in then. */
static size_t most_zeros(const struct kefs_image *image) {
  const struct resizing *resizing = &image->resizing;
  size_t calls = 0;
  for (size_t i = 0; i < resizing->count && resizing->listed < resizing->added; i++) calls += image->files[resizing->sizes[i].file].extent_count + 1;
  return calls;
}

static int make_plan_room(struct kefs_image *image) {
  struct resizing *resizing = &image->resizing;
  size_t room = room_for(resizing->listed + (most_zeros(image) + ROWS_OF_PAGE - 1) / ROWS_OF_PAGE);
  if (room <= resizing->planned_room) return KEFS_OK;
  int number = set_plan_rooms(image, room);
  if (number == KEFS_OK) resizing->planned_room = room;
  return number;
}

static void trim_room(struct kefs_image *image) {
  struct resizing *resizing = &image->resizing;
  if (resizing->room > MOST_KEPT) drop_lists(image);
  if (resizing->edge_room > LEAST_ROOM) drop_edges(image);
  if (resizing->planned_room > MOST_KEPT && set_plan_rooms(image, 0) == KEFS_OK) resizing->planned_room = 0;
}

void drop_sizes(struct kefs_image *image) {
  drop_lists(image);
  drop_edges(image);
}

/* Those of a mapped file. */
static struct span new_pages(struct kefs_image *image, unsigned f) {
  struct mapping *mapping = &image->mappings[f];
  return (struct span){mapping, mapping->pages - (mapping->at == NULL ? 0 : added_pages(image, f)), mapping->pages};
}

static void list_page(struct kefs_image *image, unsigned f, size_t k, const unsigned char *bytes) {
  struct resizing *resizing = &image->resizing;
  resizing->lent.bytes[resizing->listed].at = bytes;
  resizing->fresh[resizing->listed++] = (struct famsync_page){(uint16_t)f, (uint32_t)k};
}

/* Those of these pages that are more than zeros. */
static void list_stored(struct mapping *mapping, size_t first, size_t end) {
  for (size_t k = first; k < end; k++)
    if (!is_zero(mapping->at + k * PAGE, PAGE)) list_page(mapping->image, file_number(mapping), k, mapping->at + k * PAGE);
}

static void list_all(struct mapping *mapping, size_t first, size_t end) {
  for (size_t k = first; k < end; k++) list_page(mapping->image, file_number(mapping), k, mapping->at + k * PAGE);
}

/* What a mark says that is set from here on is for the next commit. */
static void list_marked(const struct span *span) {
  for (size_t k = next_marked(span->mapping, span->first, span->end); k < span->end; k = next_marked(span->mapping, k + 1, span->end)) {
    drop_mark(&span->mapping->marks[k], DIRTY);
    list_stored(span->mapping, k, k + 1);
  }
}

/* As any page that is taken, noted, taken and sealed in this order: what is stored from then on to a page, listed or not, is noted. They stay new until the commit
   is done, so no mark has to say that they are taken. Where no tracker notes stores to them all that were touched are looked at. */
static int take_new_pages(struct kefs_image *image, unsigned f) {
  struct span span = new_pages(image, f);
  if (span.first == span.end) return KEFS_OK;
  int number = note_dirty(&span), are_noted = image->tracker == TRACKER_SCAN, takes_all = lists_all(&image->resizing);
  if (number != KEFS_OK) return number;
  if (are_noted && !takes_all) return list_marked(&span), KEFS_OK;
  clear_marks(&span);
  number = seal(&span);
  if (number == KEFS_OK && takes_all) list_all(span.mapping, span.first, span.end);
  return number != KEFS_OK || takes_all ? number : find_touched(&span, list_stored);
}

static int take_new_pages_of(struct kefs_image *image, unsigned f) {
  if (image->mappings[f].at != NULL) return take_new_pages(image, f);
  size_t first = durable_pages(image, f), end = first + (lists_all(&image->resizing) ? added_pages(image, f) : 0);
  for (size_t k = first; k < end; k++) list_page(image, f, k, zeros);
  return KEFS_OK;
}

/* Where there is room in plans, and none for the rest, the end of the commit gives that of the plans back. */
static int list_new_pages(struct kefs_image *image) {
  const struct resizing *resizing = &image->resizing;
  int number = make_edges(image);
  if (number == KEFS_OK) number = make_lists(image);
  for (size_t i = 0; i < resizing->count && number == KEFS_OK; i++) number = take_new_pages_of(image, resizing->sizes[i].file);
  return number == KEFS_OK ? make_plan_room(image) : number;
}

int take_sizes(struct kefs_image *image, const struct kefs_range *ranges, size_t count) {
  struct resizing *resizing = &image->resizing;
  struct meant meant;
  find_meant(image, ranges, count, &meant);
  resizing->has_names = meant.names;
  for (unsigned f = first_number(&meant.files); f < KEFS_FILES; f = next_number(&meant.files, f + 1)) add_size(image, f);
  int number = resizing->count > 0 ? list_new_pages(image) : KEFS_OK;
  return number == KEFS_OK ? KEFS_OK : fail(image, number, "taking new pages");
}

/* Pages of the names go with it as those of an edge do. */
static int put_names(struct kefs_image *image) {
  if (!image->resizing.has_names) return KEFS_OK;
  for (size_t k = next_changed_name_page(image, 0); k < KEFS_FILES; k = next_changed_name_page(image, k + 1))
    if (!put_taken(image, 0, k)) return are_too_many(image);
  return KEFS_OK;
}

static int take_edge(struct kefs_image *image, unsigned f) {
  struct span edge = edge_of(image, f);
  for (size_t k = edge.first; k < edge.end; k++)
    if (!is_taken(edge.mapping, k) && !put_taken(image, f, k)) return are_too_many(image);
  return KEFS_OK;
}

int take_edges(struct kefs_image *image) {
  const struct resizing *resizing = &image->resizing;
  int result = put_names(image);
  for (size_t i = 0; i < resizing->count && result == KEFS_OK; i++) result = take_edge(image, resizing->sizes[i].file);
  return result;
}

/* It is asked for each page once. */
const unsigned char *edge_bytes(struct kefs_image *image, unsigned f, size_t k) {
  struct resizing *resizing = &image->resizing;
  if (is_names_file(image, f)) return names_page(image, k);
  size_t left = left_of(image, f);
  if (k * PAGE >= left) return zeros;
  unsigned char *edge = resizing->edges + PAGE * resizing->edge_count++;
  copy_durable(image, f, k, edge);
  if (left - k * PAGE < PAGE) memset(edge + (left - k * PAGE), 0, PAGE - (left - k * PAGE));
  return edge;
}

/* What is taken comes behind what is listed. */
static void list_lent(struct kefs_image *image) {
  struct resizing *resizing = &image->resizing;
  resizing->lent.pages = image->taken.pages;
  resizing->lent.count = image->taken.count;
  memcpy(resizing->lent.bytes + resizing->listed, image->taken.bytes, image->taken.count * sizeof *image->taken.bytes);
}

static int result_of(uint32_t answer) {
  switch (answer) {
    case FAMSYNC_OK: return KEFS_OK;
    case FAMSYNC_BAD_JOURNAL: return KEFS_BAD_JOURNAL;
    case FAMSYNC_NO_ROOM: return KEFS_TOO_MANY;
    case FAMSYNC_NO_MEMORY: return ENOMEM;
    case FAMSYNC_NO_HOMES: return EFBIG;
    default: return KEFS_NOT_IMAGE; /* another program has written over the layout: no other refusal is left */
  }
}

static uint32_t plan_sizes(struct kefs_image *image, struct famsync_handle *handle) {
  struct plan *scratch = &image->scratch, *plan = &image->plan;
  const struct resizing *resizing = &image->resizing;
  const struct taken *lent = &resizing->lent;
  begin_heap(&image->heap);
  uint32_t answer = famsync_resize(handle, image->bytes, image->sectors, scratch->calls, scratch->room, scratch->rows, scratch->room, &plan->used,
                                   plan->calls, plan->room, plan->rows, plan->room, resizing->sizes, resizing->count, resizing->fresh, resizing->listed,
                                   lent->pages, lent->count, lent->bytes, resizing->listed + lent->count);
  end_heap();
  return answer;
}

/* Where the host file could not get longer kefs_resize was content with fewer homes than the plan tries to give. */
int commit_sizes(struct kefs_image *image) {
  struct famsync_handle handle = image->handle;
  list_lent(image);
  image->planned = &image->resizing.lent;
  uint32_t answer = plan_sizes(image, &handle);
  if (answer == FAMSYNC_NO_HOMES) {
    int result = lengthen_image(image);
    if (result != KEFS_OK) return result;
    handle = image->handle;
    answer = plan_sizes(image, &handle);
  }
  if (answer == FAMSYNC_OK) return make_plan_calls(image, &handle);
  return fail(image, result_of(answer), "no plan for %zu lengths, %zu new pages and %zu others (%u)", image->resizing.count, image->resizing.added,
              image->resizing.lent.count, (unsigned)answer);
}

int next_new_homes(struct new_homes *it, struct extent *homes) {
  struct kefs_image *image = it->image;
  for (; it->size < image->resizing.count; it->size++, it->page = 0) {
    unsigned f = image->resizing.sizes[it->size].file;
    struct file file;
    const char *why;
    size_t before = durable_pages(image, f), first = it->page > before ? it->page : before;
    int is_entry = read_entry(image, f, &file, &why) == KEFS_OK;
    size_t run = is_entry && first < pages_of(file.length) ? homes_from(&file, first, &homes->first) : 0;
    if (run == 0) continue;
    size_t left = (size_t)pages_of(file.length) - first;
    homes->count = (uint32_t)(run < left ? run : left);
    it->page = first + homes->count;
    return 1;
  }
  return 0;
}

/* Those that were listed are dirty still. And as before system calls may store to all that are new. */
static void give_back_new_pages(struct kefs_image *image) {
  const struct resizing *resizing = &image->resizing;
  for (size_t i = 0; i < resizing->listed; i++)
    if (image->mappings[resizing->fresh[i].file].at != NULL) mark_dirty(&image->mappings[resizing->fresh[i].file], resizing->fresh[i].page);
  for (size_t i = 0; i < resizing->count; i++) {
    struct span span = new_pages(image, resizing->sizes[i].file);
    if (span.first < span.end) unseal(&span);
  }
}

/* Homes are listed anew after a commit of more files than these: that takes less than so many changes of a long list (growing.c). */
enum { MOST_FOLLOWED = 64 };

void end_sizes(struct kefs_image *image, int done) {
  struct resizing *resizing = &image->resizing;
  if (done && resizing->has_names) settle_names(image);
  resizing->has_names = 0;
  if (resizing->count == 0) return;
  if (done && resizing->count > MOST_FOLLOWED) image->homes.is_listed = 0;
  if (done) read_entries(image, resizing->sizes, resizing->count);
  if (!done) give_back_new_pages(image);
  for (size_t i = 0; i < resizing->count && done; i++) forget_size(image, resizing->sizes[i].file);
  resizing->count = resizing->added = resizing->listed = resizing->directory = resizing->lent.count = 0;
  trim_room(image);
}

/* Counts and roll backs */

static size_t count_edge(struct kefs_image *image, unsigned f) {
  struct span edge = edge_of(image, f);
  size_t pages = 0;
  for (size_t k = edge.first; k < edge.end; k++) pages += (size_t)!is_taken(edge.mapping, k);
  return pages;
}

size_t count_sized(struct kefs_image *image, const struct kefs_range *ranges, size_t count) {
  struct meant meant;
  find_meant(image, ranges, count, &meant);
  size_t pages = meant.names ? count_changed_name_pages(image) : 0;
  for (unsigned f = first_number(&meant.files); f < KEFS_FILES; f = next_number(&meant.files, f + 1))
    pages += added_pages(image, f) + count_edge(image, f);
  return pages;
}

/* The bytes of a page that were cut off from its end. */
static int restore_tail(struct mapping *mapping, uint64_t length) {
  unsigned char page[PAGE];
  size_t k = length / PAGE, inside = length % PAGE;
  struct span span = {mapping, k, k + 1};
  if (inside == 0) return KEFS_OK;
  copy_committed(mapping, k, page);
  int number = fill_missing(&span);
  if (number != KEFS_OK || memcmp(mapping->at + length, page + inside, PAGE - inside) == 0) return number;
  number = open_pages(&span);
  if (number == KEFS_OK) memcpy(mapping->at + length, page + inside, PAGE - inside);
  return number;
}

static int roll_back_size(struct kefs_image *image, unsigned f) {
  struct mapping *mapping = &image->mappings[f];
  uint64_t durable = image->files[f].length, length = length_of(image, f);
  int number = KEFS_OK;
  if (mapping->at != NULL && length > durable) number = fit(mapping, length, durable);
  if (mapping->at != NULL && length < durable) number = restore_tail(mapping, length);
  if (mapping->at != NULL && number == KEFS_OK && durable_pages(image, f) > mapping->pages) number = restore_mapping(mapping, durable_pages(image, f));
  if (number == KEFS_OK) forget_size(image, f);
  return number;
}

/* Where it fails, the names that are left are of files that are there. */
int roll_back_sizes(struct kefs_image *image, const struct kefs_range *ranges, size_t count) {
  struct meant meant;
  int number = KEFS_OK;
  find_meant(image, ranges, count, &meant);
  for (unsigned f = first_number(&meant.files); f < KEFS_FILES && number == KEFS_OK; f = next_number(&meant.files, f + 1))
    number = roll_back_size(image, f);
  if (meant.names) roll_back_names(image);
  return number;
}
