/* What is wrong with an image that no opening takes, in words: for kefs_errmsg and kefscheck. */
#include "internal.h"
#include <errno.h>
#include <stdio.h>
#include <string.h>

static struct finding found(int result, const char *format, unsigned long a, unsigned long b) {
  struct finding finding = {result, ""};
  snprintf(finding.words, sizeof finding.words, format, a, b);
  return finding;
}

/* Each extent lies behind the directory and in the image, and a file has a home for each page. */
static struct finding check_file(const struct kefs_image *image, unsigned f, const struct file *file) {
  uint64_t homes = 0, first = image->layout.directory_pages;
  for (const struct extent *it = file->extents; it < file->extents + file->extent_count; homes += it++->count)
    if (it->count > 0 && (uint64_t)it->first + it->count > home_pages(image)) return found(KEFS_NOT_IMAGE, "file %lu does not end within the image", f, 0);
    else if (it->count > 0 && it->first < first) return found(KEFS_NOT_IMAGE, "file %lu has a home of the directory", f, 0);
  return homes < pages_of(file->length) ? found(KEFS_NOT_IMAGE, "file %lu has more pages than homes", f, 0) : found(KEFS_OK, "", 0, 0);
}

/* An extent of a file, and where it ends. In places it has a home, its first, and a number: that of the file and of the extent among those of the file. */
static uint64_t end_of(const struct file *files, uint32_t number) {
  const struct extent *extent = &files[number / EXTENTS].extents[number % EXTENTS];
  return (uint64_t)extent->first + extent->count;
}

static void list_extents(const struct file *files, unsigned count, struct places *extents) {
  for (unsigned f = 0; f < count; f++)
    for (unsigned i = 0; i < files[f].extent_count && files[f].present; i++)
      if (files[f].extents[i].count > 0) extents->list[extents->count++] = (struct place){files[f].extents[i].first, f * EXTENTS + i};
}

/* Of extents in the order of their homes each may begin where those before it end, and not sooner. */
static struct finding find_shared(const struct file *files, const struct places *extents) {
  uint32_t last = 0; /* the one that ends last of those before */
  for (size_t i = 0; i < extents->count; i++) {
    const struct place *extent = &extents->spare[i];
    unsigned f = extent->sector / EXTENTS, before = last / EXTENTS;
    if (i > 0 && extent->home < end_of(files, last)) return found(KEFS_NOT_IMAGE, "files %lu and %lu share a page", before < f ? before : f, before < f ? f : before);
    if (i == 0 || end_of(files, extent->sector) > end_of(files, last)) last = extent->sector;
  }
  return found(KEFS_OK, "", 0, 0);
}

static struct finding check_shared(const struct file *files, unsigned count) {
  struct places extents = {.room = (size_t)EXTENTS * count};
  size_t bytes = extents.room * sizeof *extents.list;
  struct finding finding = found(ENOMEM, "memory for its extents", 0, 0);
  extents.list = new_memory(bytes), extents.spare = new_memory(bytes);
  if (extents.list != NULL && extents.spare != NULL) {
    list_extents(files, count, &extents);
    order_places(&extents);
    finding = find_shared(files, &extents);
  }
  drop_memory(extents.list, bytes), drop_memory(extents.spare, bytes);
  return finding;
}

static struct finding check_entry(struct kefs_image *image, unsigned f, struct file *file) {
  const char *why;
  int result = read_entry(image, f, file, &why);
  if (result != KEFS_OK) return found(result, why, f, 0);
  return file->present ? check_file(image, f, file) : found(KEFS_OK, "", 0, 0);
}

static struct finding check_entries(struct kefs_image *image, struct file *files, unsigned count) {
  struct finding finding = found(KEFS_OK, "", 0, 0);
  for (unsigned f = 0; f < count && finding.result == KEFS_OK; f++) finding = check_entry(image, f, &files[f]);
  return finding.result == KEFS_OK ? check_shared(files, count) : finding;
}

static struct finding check_directory(struct kefs_image *image) {
  unsigned count = entries_of(&image->layout);
  struct file *files = new_memory(count * sizeof *files);
  struct finding finding = files == NULL ? found(ENOMEM, "memory for its files", 0, 0) : check_entries(image, files, count);
  drop_memory(files, count * sizeof *files);
  return finding;
}

/* No map of a pool is bad. */
static struct finding check_journal(const struct kefs_image *image) {
  uint32_t pages = image->layout.blocks == 0 ? count_of_map(image) : 0;
  if (pages > JOURNAL_PAGES) return found(KEFS_BAD_JOURNAL, "the journal has %lu pages", pages, 0);
  for (uint32_t i = 0; i < pages; i++) {
    if (journal_home(image, i) >= home_pages(image)) return found(KEFS_BAD_JOURNAL, "page %lu of the journal has no home", i, 0);
    for (uint32_t j = 0; j < i; j++)
      if (journal_home(image, i) == journal_home(image, j)) return found(KEFS_BAD_JOURNAL, "pages %lu and %lu of the journal have one home", j, i);
  }
  return found(KEFS_OK, "", 0, 0);
}

/* A mark and a kind of two layouts are what a torn write of the mark may leave. */
static struct finding check_mark(const struct kefs_image *image) {
  static const char *const marks[] = {"FAMSYNC2", "FAMSYNC3", "FAMSYNC4"};
  unsigned long number = image->layout.number;
  if (image->sectors == 0) return found(KEFS_NOT_IMAGE, "it has less than a sector", 0, 0);
  if (has_mark(image, image->layout.mark)) return found(KEFS_OK, "", 0, 0);
  if (has_mark(image, "FAMSYNC1")) return found(KEFS_NOT_IMAGE, "it has layout 1; 'pagefmt upgrade' makes one of layout 2 of it", 0, 0);
  for (unsigned long other = 2; other <= 4; other++) {
    if (!has_mark(image, marks[other - 2])) continue;
    if (number == 2) return found(KEFS_NOT_IMAGE, "sector 0 is the mark of layout %lu, and sector 1 is not its kind", other, 0);
    return found(KEFS_NOT_IMAGE, "sector 0 is the mark of layout %lu, and sector 1 the kind of layout %lu", other, number);
  }
  return found(KEFS_NOT_IMAGE, "sector 0 is not the mark of an image", 0, 0);
}

struct finding check_store(struct kefs_image *image) {
  struct finding finding = check_mark(image);
  if (finding.result != KEFS_OK) return finding;
  if (image->sectors < least_sectors(&image->layout))
    return found(KEFS_NOT_IMAGE, "it has %lu sectors, under %lu", image->sectors, least_sectors(&image->layout));
  finding = check_directory(image);
  return finding.result == KEFS_OK ? check_journal(image) : finding;
}

const char OF_LAYOUT_3[] = "it has layout 3; 'kefscheck upgrade OLD NEW' makes one of layout 4 of it";

struct finding check_image(struct kefs_image *image) {
  struct finding finding = check_mark(image);
  if (finding.result != KEFS_OK) return finding;
  return image->layout.number == 3 ? found(KEFS_NOT_IMAGE, OF_LAYOUT_3, 0, 0) : check_store(image);
}
