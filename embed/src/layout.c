/* What docs/FORMATS.md says of an image: its layout, its directory, its gate, its home pages. */
#include "internal.h"
#include <errno.h>
#include <string.h>

/* Layout 2 has one journal, layout 3, of which pages are read alone, two in turn, and layout 4 a pool. */
static const struct layout LAYOUT_2 = {2, "FAMSYNC2", 1, 2, {0, 3}, 8195, 0, 0}, LAYOUT_3 = {3, "FAMSYNC3", 9, 16, {24, 8216}, 16408, 0, 0};

enum { BLOCK_SLOTS = 504, MOST_BLOCKS = 2048, BLOCK_SECTORS = 8, POOL_GATE = 8, POOL_FRONT = 16, ENTRY = 256 };

/* Of a block of a map: its sectors, and those of the slots that it names in one body. */
static const uint32_t STRIDE = BLOCK_SECTORS * (1 + BLOCK_SLOTS);

struct layout pool_layout(uint32_t blocks, uint32_t directory_pages) {
  return (struct layout){4, "FAMSYNC4", 0, POOL_GATE, {POOL_FRONT, POOL_FRONT + STRIDE * blocks}, POOL_FRONT + 2 * STRIDE * blocks, blocks, directory_pages};
}

/* Whether bytes up to a sector's end are these eight again and again. */
static int is_all_from(const unsigned char *sector, size_t first, const char *eight) {
  for (size_t i = first; i < SECTOR; i += 8)
    if (memcmp(sector + i, eight, 8) != 0) return 0;
  return 1;
}

static int is_all(const unsigned char *sector, const char *eight) { return is_all_from(sector, 0, eight); }

static int is_pool_kind(const unsigned char *kind) {
  uint32_t blocks = number_at(kind + 8), directory = number_at(kind + 12);
  if (memcmp(kind, "FAMSYNC4", 8) != 0 || !is_all_from(kind, 16, "FAMSYNC4")) return 0;
  return 1 <= blocks && blocks <= MOST_BLOCKS && 1 <= directory && directory <= MOST_DIRECTORY;
}

struct layout layout_of(const struct kefs_image *image) {
  if (image->sectors <= KIND_SECTOR) return LAYOUT_2;
  const unsigned char *kind = sector_at(image, KIND_SECTOR);
  if (is_pool_kind(kind)) return pool_layout(number_at(kind + 8), number_at(kind + 12));
  return is_all(kind, LAYOUT_3.mark) ? LAYOUT_3 : LAYOUT_2;
}

int is_same_layout(const struct layout *one, const struct layout *other) {
  return one->number == other->number && one->blocks == other->blocks && one->directory_pages == other->directory_pages;
}

size_t places_of(const struct layout *layout) { return layout->blocks == 0 ? JOURNAL_PAGES : 2 * (size_t)BLOCK_SLOTS * layout->blocks; }

uint64_t home_pages(const struct kefs_image *image) {
  if (image->sectors < image->layout.homes) return 0;
  uint64_t pages = (image->sectors - image->layout.homes) / (PAGE / SECTOR);
  return pages < MOST_HOMES ? pages : MOST_HOMES;
}

int has_mark(const struct kefs_image *image, const char *mark) { return is_all(sector_at(image, 0), mark); }

/* Directory */

static const uint32_t PRESENT_BIT = 1u << 31, READ_ONLY_BIT = 1u << 30, HOME_BITS = (1u << 30) - 1;

static int is_zero(const unsigned char *bytes, size_t length) { return bytes[0] == 0 && memcmp(bytes, bytes + 1, length - 1) == 0; }

static const char NOT_ZERO[] = "entry %lu of the directory is of no file, and not zero";

/* Eight bytes, of layouts 2 and 3. */
static int decode_older(const unsigned char *entry, struct file *to, const char **why) {
  uint32_t word = number_at(entry);
  *to = (struct file){(word & PRESENT_BIT) != 0, (word & READ_ONLY_BIT) != 0, number_at(entry + 4), 1, {{word & HOME_BITS, 0}}};
  to->extents[0].count = (uint32_t)pages_of(to->length);
  if (to->present || is_zero(entry, 8)) return KEFS_OK;
  return *why = NOT_ZERO, KEFS_NOT_IMAGE;
}

static int decode(const unsigned char *entry, struct file *to, const char **why) {
  uint32_t flags = number_at(entry);
  *to = (struct file){flags != 0, flags == 3, number_at(entry + 8) | (uint64_t)number_at(entry + 12) << 32, number_at(entry + 4), {{0}}};
  if (flags == 0 && !is_zero(entry, ENTRY)) return *why = NOT_ZERO, KEFS_NOT_IMAGE;
  if (flags > 3 || flags == 2) return *why = "entry %lu of the directory has flags that no file has", KEFS_NOT_IMAGE;
  if (to->extent_count > EXTENTS) return *why = "entry %lu of the directory has over 30 extents", KEFS_NOT_IMAGE;
  if (to->length > LONGEST_FILE) return *why = "file %lu has over 2^42 bytes", KEFS_NOT_IMAGE;
  for (unsigned i = 0; i < to->extent_count; i++) to->extents[i] = (struct extent){number_at(entry + 16 + 8 * i), number_at(entry + 20 + 8 * i)};
  return KEFS_OK;
}

unsigned entries_of(const struct layout *layout) { return layout->blocks == 0 ? OLDER_FILES : PAGE_ENTRIES * layout->directory_pages; }

/* What stands for a home page, from its first sector on. */
static void copy_standing(struct kefs_image *image, size_t sector, unsigned char *to) {
  if (may_lack_room(image, sector) && read_all(image->fd, to, PAGE, (off_t)(SECTOR * sector)) == KEFS_OK) return;
  memcpy(to, sector_at(image, sector), PAGE);
}

/* The directory of layout 4 is pages like any others: what stands for them counts. */
int read_entry(struct kefs_image *image, unsigned f, struct file *to, const char **why) {
  unsigned char page[PAGE];
  if (image->layout.blocks == 0) return decode_older(sector_at(image, image->layout.directory) + 8 * f, to, why);
  copy_durable_page(image, f / PAGE_ENTRIES, page);
  return decode(page + ENTRY * (f % PAGE_ENTRIES), to, why);
}

static void set_file(struct kefs_image *image, unsigned f, const struct file *file) {
  image->files[f] = *file;
  put_number_in(&image->present, f, file->present);
}

/* Of layout 2 all entries lie in one sector. */
static void read_older_entries(struct kefs_image *image) {
  const unsigned char *entries = sector_at(image, image->layout.directory);
  struct file file;
  const char *why;
  for (unsigned f = 0; f < OLDER_FILES; f++) decode_older(entries + 8 * f, &file, &why), set_file(image, f, &file);
}

/* The entries of a page of the directory, of which the first is that of file `f`. What has no file and had none is left as it is. */
static void read_page_entries(struct kefs_image *image, unsigned f, size_t sector) {
  unsigned char page[PAGE];
  const char *why;
  copy_standing(image, sector, page);
  for (unsigned i = 0; i < PAGE_ENTRIES; i++) {
    struct file file;
    decode(page + ENTRY * i, &file, &why);
    if (file.present || has_number(&image->present, f + i)) set_file(image, f + i, &file);
  }
}

static void read_pool_entries(struct kefs_image *image) {
  size_t sectors[MOST_DIRECTORY];
  uint32_t pages = image->layout.directory_pages;
  first_sectors(image, pages, sectors);
  for (uint32_t i = 0; i < pages; i++) read_page_entries(image, PAGE_ENTRIES * i, sectors[i]);
}

void read_directory(struct kefs_image *image) {
  if (image->layout.blocks == 0) read_older_entries(image);
  else read_pool_entries(image);
  image->homes.is_listed = 0;
}

/* Each page is read once, since sizes rise by file. */
void read_entries(struct kefs_image *image, const struct famsync_size *sizes, size_t count) {
  size_t sectors[MOST_DIRECTORY];
  unsigned char page[PAGE];
  uint32_t read = MOST_DIRECTORY;
  first_sectors(image, image->layout.directory_pages, sectors);
  for (size_t i = 0; i < count; i++) {
    unsigned f = sizes[i].file;
    struct file file;
    const char *why;
    if (f / PAGE_ENTRIES != read) read = f / PAGE_ENTRIES, copy_standing(image, sectors[read], page);
    decode(page + ENTRY * (f % PAGE_ENTRIES), &file, &why);
    change_homes(image, &image->files[f], &file);
    set_file(image, f, &file);
  }
}

/* Tables of what is known of each file, one behind the other in one piece of memory. */

static size_t bytes_of_tables(size_t count) {
  return count * (sizeof(struct mapping) + sizeof(struct file) + sizeof(struct size) + sizeof(struct famsync_size) + sizeof(uint16_t));
}

int make_tables(struct kefs_image *image) {
  size_t count = image->entries = entries_of(&image->layout);
  image->mappings = new_memory(bytes_of_tables(count));
  if (image->mappings == NULL) return ENOMEM;
  image->files = (void *)(image->mappings + count);
  image->sizes = (void *)(image->files + count);
  image->resizing.sizes = (void *)(image->sizes + count);
  image->in_order = (void *)(image->resizing.sizes + count);
  return KEFS_OK;
}

void drop_tables(struct kefs_image *image) {
  drop_memory(image->mappings, bytes_of_tables(image->entries));
  image->mappings = NULL, image->files = NULL, image->sizes = NULL, image->resizing.sizes = NULL, image->in_order = NULL;
  image->present = image->changed = image->mapped = (struct numbers){0};
}

/* Homes of pages */

size_t homes_from(const struct file *file, size_t k, uint32_t *home) {
  for (const struct extent *it = file->extents; it < file->extents + file->extent_count; k -= it++->count)
    if (k < it->count) return *home = it->first + (uint32_t)k, it->count - k;
  return 0;
}

uint32_t home_of_page(const struct file *file, size_t k) {
  uint32_t home = 0;
  homes_from(file, k, &home);
  return home;
}

/* Gate and map */

/* A gate of other bytes is not open: a torn write of it has opened nothing. */
int is_open_gate(const unsigned char *sector) { return is_all(sector, "GATEOPEN"); }

int has_open_gate(const struct kefs_image *image) { return is_open_gate(sector_at(image, image->layout.gate)); }

int gate_says(const struct kefs_image *image, const unsigned char *row) { return has_open_gate(image) == is_open_gate(row); }

uint32_t named_map(const struct kefs_image *image) { return image->layout.maps[has_open_gate(image)]; }

/* The block of a pool's map that says how many count comes last. */
uint32_t count_of_map(const struct kefs_image *image) {
  const struct layout *layout = &image->layout;
  uint32_t map = named_map(image);
  if (map == 0) return 0;
  if (layout->blocks == 0) return number_at(sector_at(image, map));
  uint32_t count = number_at(sector_at(image, map + BLOCK_SECTORS * (layout->blocks - 1)));
  return count < layout->blocks ? count : layout->blocks;
}

uint32_t journal_home(const struct kefs_image *image, uint32_t i) { return number_at(sector_at(image, named_map(image)) + 4 + 4 * (size_t)i); }

/* Pages */

void copy_durable_page(struct kefs_image *image, uint32_t home, unsigned char *to) { copy_standing(image, standing_sector(image, home), to); }

void copy_durable(struct kefs_image *image, unsigned f, size_t k, unsigned char *to) {
  const struct file *file = &image->files[f];
  size_t left = file->length - k * PAGE, inside = left < PAGE ? left : PAGE;
  copy_durable_page(image, home_of_page(file, k), to);
  memset(to + inside, 0, PAGE - inside);
}

uint64_t count_empty(struct kefs_image *image, uint32_t home, uint64_t most) {
  const struct places *places = image_places(image);
  off_t before, hole, at = home_offset(&image->layout, home), length = (off_t)(PAGE * most);
  int fd = file_of_bytes(image, &before);
  uint64_t end = home + (uint64_t)(next_data(fd, before + at, before + at + length, &hole) - before - at) / PAGE;
  size_t i = first_place(places, home);
  return (i < places->count && places->list[i].home < end ? places->list[i].home : end) - home;
}
