/* The memory of mapped files, and the addresses that are kept behind it.

   Where a file may get pages, and where it had some that were cut off, an empty file is mapped. So nothing else gets these addresses, and a touch is a
   SIGBUS, as past the last page of any mapped file. Memory is put over it as the file grows. An image lists its mappings in the order of their addresses. */
#define _GNU_SOURCE
#include "internal.h"
#include <errno.h>
#include <string.h>
#include <sys/mman.h>

static unsigned char *page_at(const struct mapping *mapping, size_t k) { return mapping->at + k * PAGE; }
static size_t bytes_of(const struct span *span) { return (span->end - span->first) * PAGE; }

/* Addresses */

static int open_nothing(struct kefs_image *image) {
  if (image->nothing < 0) image->nothing = new_memory_file();
  return image->nothing < 0 ? errno : KEFS_OK;
}

/* A child does not inherit mapped memory, nor what is behind it. */
static int map_nothing(const struct kefs_image *image, void *wanted, size_t bytes, int place, void **at) {
  *at = mmap(wanted, bytes, PROT_READ | PROT_WRITE, MAP_SHARED | MAP_NORESERVE | place, image->nothing, 0);
  if (*at == MAP_FAILED) return errno;
  return madvise(*at, bytes, MADV_DONTFORK) == 0 ? KEFS_OK : errno;
}

int keep_addresses(struct mapping *mapping, void *wanted) {
  void *at;
  int number = open_nothing(mapping->image);
  if (number != KEFS_OK) return number;
  number = map_nothing(mapping->image, wanted, mapping->kept * PAGE, wanted == NULL ? 0 : MAP_FIXED_NOREPLACE, &at);
  if (at == MAP_FAILED) return number;
  mapping->at = at;
  return wanted != NULL && at != wanted ? EEXIST : number; /* kernels before 4.17 */
}

int take_memory(const struct span *span) {
  void *at;
  return map_nothing(span->mapping->image, page_at(span->mapping, span->first), bytes_of(span), MAP_FIXED, &at);
}

/* After mlockall(MCL_FUTURE) the system fills what is mapped with zeros at once, and a page that is there counts as read. So it is
   mapped closed, and unlocked before it is opened. A child does not inherit the memory: its pages would be neither tracked
   nor, where they are read late, read there. */
int put_memory(const struct span *span) {
  size_t bytes = bytes_of(span);
  unsigned char *at = page_at(span->mapping, span->first);
  if (bytes == 0) return KEFS_OK;
  if (mmap(at, bytes, PROT_NONE, MAP_PRIVATE | MAP_ANONYMOUS | MAP_NORESERVE | MAP_FIXED, -1, 0) == MAP_FAILED) return errno;
  if (span->mapping->image->lazy && munlock(at, bytes) != 0) return errno;
  if (mprotect(at, bytes, PROT_READ | PROT_WRITE) != 0) return errno;
  return madvise(at, bytes, MADV_DONTFORK) == 0 ? KEFS_OK : errno;
}

/* Order */

size_t first_mapped(const struct kefs_image *image, uintptr_t address) {
  size_t low = 0, high = image->mapped_count;
  while (low < high) {
    size_t middle = low + (high - low) / 2;
    const struct mapping *mapping = &image->mappings[image->in_order[middle]];
    if ((uintptr_t)mapping->at + mapping->kept * PAGE <= address) low = middle + 1;
    else high = middle;
  }
  return low;
}

void note_order(struct mapping *mapping) {
  struct kefs_image *image = mapping->image;
  size_t i = first_mapped(image, (uintptr_t)mapping->at);
  memmove(image->in_order + i + 1, image->in_order + i, (image->mapped_count - i) * sizeof *image->in_order);
  image->in_order[i] = (uint16_t)file_number(mapping);
  image->mapped_count++;
  add_number(&image->mapped, file_number(mapping));
}

void forget_order(struct mapping *mapping) {
  struct kefs_image *image = mapping->image;
  if (!has_number(&image->mapped, file_number(mapping))) return;
  size_t i = first_mapped(image, (uintptr_t)mapping->at);
  image->mapped_count--;
  memmove(image->in_order + i, image->in_order + i + 1, (image->mapped_count - i) * sizeof *image->in_order);
  drop_number(&image->mapped, file_number(mapping));
}

/* Pages */

static void set_pages(struct mapping *mapping, size_t pages) { __atomic_store_n(&mapping->pages, pages, __ATOMIC_SEQ_CST); }
static void set_late(struct mapping *mapping, size_t late) { __atomic_store_n(&mapping->late, late, __ATOMIC_SEQ_CST); }

/* What is read of a page from then on is read after its mark is set: a store that kefs_mark_dirty names meanwhile is seen, or the mark that it sets stays. */
static void set_marks(const struct span *span, unsigned char mark) {
  struct mapping *mapping = span->mapping;
  for (size_t k = span->first; k < span->end; k++) {
    __atomic_exchange_n(&mapping->marks[k], mark, __ATOMIC_SEQ_CST);
    if (mark != 0) set_area(mapping, k, 1);
  }
}

/* They are looked for: most of many new pages have none. */
void clear_marks(const struct span *span) {
  for (size_t k = next_marked(span->mapping, span->first, span->end); k < span->end; k = next_marked(span->mapping, k + 1, span->end))
    __atomic_exchange_n(&span->mapping->marks[k], 0, __ATOMIC_SEQ_CST);
}

/* Memory that could not be had whole goes again. */
static int end_putting(const struct span *span, int number) {
  if (number != KEFS_OK) take_memory(span);
  else set_pages(span->mapping, span->end);
  return number;
}

/* Of pages that the file has durably, and that were cut off, it is a change that they are zeros. */
int lengthen_mapping(struct mapping *mapping, size_t pages) {
  struct span more = {mapping, mapping->pages, pages}, known = more;
  size_t durable = durable_pages(mapping->image, file_number(mapping));
  int number = put_memory(&more);
  if (number == KEFS_OK) number = watch_new(&more);
  if (known.end > durable) known.end = durable;
  if (number == KEFS_OK) set_marks(&known, DIRTY);
  return end_putting(&more, number);
}

/* The stores of this call itself come before any are noted. What is zeros takes no memory. */
int restore_mapping(struct mapping *mapping, size_t pages) {
  static const unsigned char zeros[PAGE];
  unsigned char page[PAGE];
  struct span more = {mapping, mapping->pages, pages};
  int number = put_memory(&more);
  for (size_t k = more.first; k < more.end && number == KEFS_OK; k++) {
    copy_committed(mapping, k, page);
    if (memcmp(page, zeros, PAGE) != 0) memcpy(page_at(mapping, k), page, PAGE);
  }
  if (number == KEFS_OK) number = watch_new(&more);
  if (number == KEFS_OK) number = seal(&more);
  return end_putting(&more, number);
}

/* A page that is cut off is late no more: if it comes again it is memory from the first. */
int shorten_mapping(struct mapping *mapping, size_t pages) {
  struct span less = {mapping, pages, mapping->pages};
  size_t late = mapping->late;
  set_pages(mapping, pages);
  if (late > pages) set_late(mapping, pages);
  int number = take_memory(&less);
  if (number != KEFS_OK) return set_pages(mapping, less.end), set_late(mapping, late), number;
  clear_marks(&less);
  if (pages <= mapping->bare) mapping->bare = SIZE_MAX;
  return KEFS_OK;
}
