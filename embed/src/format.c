/* How a new image is made, of layout 4 (docs/FORMATS.md). */
#define _GNU_SOURCE
#include "internal.h"
#include <errno.h>
#include <string.h>
#include <unistd.h>

enum { ENTRY = 256, POOL_STEP = 1008, MOST_POOL = 2048 * POOL_STEP }; /* bytes of an entry; pages of a pool for each block of its maps, and at most */

static void put_number(unsigned char *at, uint32_t number) {
  for (int i = 0; i < 4; i++) at[i] = (unsigned char)(number >> 8 * i);
}

/* Directory, kind and mark */

/* A file of no pages has no extent. */
static void put_entry(unsigned char *at, const struct file *file) {
  uint32_t pages = (uint32_t)pages_of(file->length);
  put_number(at, file->read_only ? 3 : 1), put_number(at + 4, pages > 0);
  put_number(at + 8, (uint32_t)file->length), put_number(at + 12, (uint32_t)(file->length >> 32));
  if (pages > 0) put_number(at + 16, file->extents[0].first), put_number(at + 20, pages);
}

/* A page of the directory, of which these are the first files. */
static int write_directory_page(int fd, off_t at, const struct file *files, size_t count) {
  unsigned char page[PAGE] = {0};
  for (size_t i = 0; i < count && i < PAGE_ENTRIES; i++)
    if (files[i].present) put_entry(page + ENTRY * i, &files[i]);
  return write_all(fd, page, PAGE, at);
}

/* What is behind these files is zeros. */
int write_directory(int fd, const struct layout *layout, const struct file *files, size_t count) {
  int number = KEFS_OK;
  for (size_t f = 0; f < count && number == KEFS_OK; f += PAGE_ENTRIES)
    number = write_directory_page(fd, home_offset(layout, (uint32_t)(f / PAGE_ENTRIES)), files + f, count - f);
  return number;
}

static int write_stamps(int fd, const struct layout *layout, int is_kind) {
  unsigned char sector[SECTOR];
  for (size_t i = 0; i < SECTOR; i += 8) memcpy(sector + i, layout->mark, 8);
  if (is_kind) put_number(sector + 8, layout->blocks), put_number(sector + 12, layout->directory_pages);
  return write_all(fd, sector, SECTOR, is_kind ? (off_t)SECTOR * KIND_SECTOR : 0);
}

/* The kind is synced before the mark: a mark that is torn to that of another layout is refused by it. */
int finish_image(int fd, const struct layout *layout) {
  int number = sync_data(fd);
  if (number == KEFS_OK) number = write_stamps(fd, layout, 1);
  if (number == KEFS_OK) number = sync_data(fd);
  if (number == KEFS_OK) number = write_stamps(fd, layout, 0);
  return number == KEFS_OK && fsync(fd) != 0 ? errno : number;
}

/* Files */

unsigned places_asked(const struct kefs_options *options) {
  size_t places = options->places == 0 ? OLDER_FILES : options->places;
  if (places < options->count) places = options->count;
  return (unsigned)((places + PAGE_ENTRIES - 1) / PAGE_ENTRIES * PAGE_ENTRIES);
}

/* The layout of an image as the options say, with all directory pages and files: KEFS_OK, or the result. */
static int check_sizes(const struct kefs_options *options, struct layout *layout) {
  uint32_t pool = options->pool;
  if (options->count > KEFS_FILES) return fail(NULL, EINVAL, "%zu files", options->count);
  if (options->places > KEFS_FILES) return fail(NULL, EINVAL, "places for %lu files", (unsigned long)options->places);
  if (pool > MOST_POOL) return fail(NULL, EINVAL, "a pool of %lu pages", (unsigned long)pool);
  *layout = pool_layout(pool == 0 ? POOL_BLOCKS : (pool + POOL_STEP - 1) / POOL_STEP, places_asked(options) / PAGE_ENTRIES);
  return KEFS_OK;
}

static int check_files(const struct kefs_options *options, const struct layout *layout, uint64_t *homes) {
  const struct kefs_file *files = options->files;
  if (files == NULL && options->count > 0) return fail(NULL, KEFS_BAD_ARGUMENT, "no files");
  *homes = layout->directory_pages;
  for (size_t f = 0; f < options->count; f++) {
    if ((files[f].flags & ~(uint32_t)(KEFS_FILE_READ_ONLY | KEFS_FILE_SPARSE | KEFS_FILE_GROWS)) != 0) return fail(NULL, EINVAL, "flags of file %zu", f);
    if (files[f].length > LONGEST_FILE) return fail(NULL, EFBIG, "file %zu of %llu bytes", f, (unsigned long long)files[f].length);
    *homes += pages_of(files[f].length);
  }
  return *homes > MOST_HOMES ? fail(NULL, EFBIG, "%llu pages", (unsigned long long)*homes) : KEFS_OK;
}

static int has_sparse(const struct kefs_file *files, size_t count) {
  for (size_t f = 0; f < count; f++)
    if ((files[f].flags & KEFS_FILE_SPARSE) != 0) return 1;
  return 0;
}

int take_first_room(int fd, const struct layout *layout, int has_pool) {
  if (has_pool) return take_room(fd, 0, home_offset(layout, layout->directory_pages));
  int number = take_room(fd, 0, (off_t)SECTOR * layout->maps[0] + (off_t)PAGE * layout->blocks);
  return number == KEFS_OK ? take_room(fd, home_offset(layout, 0), (off_t)PAGE * layout->directory_pages) : number;
}

/* Room for all that is not sparse is taken now, where the file system can. Where no file is sparse the pool gets its own too, so that no commit
   fails for want of it; else commits take it. */
static int take_first_rooms(int fd, const struct layout *layout, const struct kefs_file *files, size_t count) {
  uint64_t home = layout->directory_pages, from = home; /* the homes from `from` up to `home` have no room yet */
  int number = take_first_room(fd, layout, !has_sparse(files, count));
  for (size_t f = 0; f < count && number == KEFS_OK; f++) {
    int is_last = f + 1 == count, is_sparse = (files[f].flags & KEFS_FILE_SPARSE) != 0;
    uint64_t next = home + pages_of(files[f].length), end = is_sparse ? home : next;
    if ((is_sparse || is_last) && end > from) number = take_room(fd, home_offset(layout, (uint32_t)from), (off_t)(PAGE * (end - from)));
    if (is_sparse) from = next;
    home = next;
  }
  return number;
}

static int write_contents(int fd, const struct layout *layout, const struct kefs_file *files, size_t count) {
  uint64_t home = layout->directory_pages;
  int number = KEFS_OK;
  for (size_t f = 0; f < count && number == KEFS_OK; f++) {
    if (files[f].content != NULL) number = write_all(fd, files[f].content, files[f].length, home_offset(layout, (uint32_t)home));
    home += pages_of(files[f].length);
  }
  return number;
}

static int write_files(int fd, const struct layout *layout, const struct kefs_file *files, size_t count) {
  struct file *entries = new_memory((count + 1) * sizeof *entries);
  uint32_t home = layout->directory_pages;
  if (entries == NULL) return ENOMEM;
  for (size_t f = 0; f < count; f++) {
    uint32_t pages = (uint32_t)pages_of(files[f].length);
    entries[f] = (struct file){1, (files[f].flags & KEFS_FILE_READ_ONLY) != 0, files[f].length, 1, {{home, pages}}};
    home += pages;
  }
  int number = write_directory(fd, layout, entries, count);
  drop_memory(entries, (count + 1) * sizeof *entries);
  return number;
}

/* The gate, the map that it names and all zeros are those of the lengthened file, which gets its name when all of it is synced. */
static int fill_image(int fd, const struct layout *layout, const struct kefs_file *files, size_t count, uint64_t homes) {
  int number = set_length(fd, home_offset(layout, 0) + (off_t)(PAGE * homes));
  if (number == KEFS_OK) number = take_first_rooms(fd, layout, files, count);
  if (number == KEFS_OK) number = write_contents(fd, layout, files, count);
  if (number == KEFS_OK) number = write_files(fd, layout, files, count);
  return number == KEFS_OK ? finish_image(fd, layout) : number;
}

static int format(const char *path, const struct kefs_options *options) {
  struct new_file new;
  struct layout layout;
  uint64_t homes = 0;
  int result = path == NULL ? fail(NULL, KEFS_BAD_ARGUMENT, "no path") : check_sizes(options, &layout);
  if (result == KEFS_OK) result = check_files(options, &layout, &homes);
  if (result != KEFS_OK) return result;
  int number = begin_file(&new, path, options->permissions);
  if (number == KEFS_OK) number = fill_image(new.fd, &layout, options->files, options->count, homes);
  if (number == KEFS_OK) number = name_file(&new);
  end_file(&new);
  return number == KEFS_OK ? KEFS_OK : fail(NULL, new_file_result(number), "making %s: %s", path, kefs_strerror(number));
}

int format_as(const char *path, const struct kefs_options *options) {
  int cancel;
  pthread_setcancelstate(PTHREAD_CANCEL_DISABLE, &cancel);
  int result = format(path, options);
  pthread_setcancelstate(cancel, NULL);
  return result;
}

int kefs_format(const char *path, unsigned permissions, const struct kefs_file *files, size_t count) {
  return format_as(path, &(struct kefs_options){.permissions = permissions, .files = files, .count = count});
}
