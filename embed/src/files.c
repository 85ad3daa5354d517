/* Files that come and go. Until a commit takes them (sizes.c), all at once and with the names (names.c), a new file is zeros and has no home, and one that is
   gone is in the image still. A number is free again when a commit has taken it that its file is gone: so no file begins with the pages of another. */
#include "internal.h"
#include <errno.h>

int is_there(const struct kefs_image *image, unsigned f) {
  return has_number(&image->changed, f) ? !image->sizes[f].is_gone : has_number(&image->present, f);
}

int is_new(const struct kefs_image *image, unsigned f) { return has_number(&image->changed, f) && image->sizes[f].is_new; }

int comes_or_goes(const struct kefs_image *image, unsigned f) {
  return has_number(&image->changed, f) && (image->sizes[f].is_new || image->sizes[f].is_gone);
}

uint32_t count_files(const struct kefs_image *image) {
  uint32_t count = count_numbers(&image->present);
  for (unsigned f = first_number(&image->changed); f < KEFS_FILES; f = next_number(&image->changed, f + 1))
    count += (uint32_t)image->sizes[f].is_new - (uint32_t)image->sizes[f].is_gone;
  return count;
}

int means_files(struct kefs_image *image, const struct kefs_range *ranges, size_t count) {
  if (ranges == NULL) return 1;
  for (unsigned f = first_number(&image->changed); f < KEFS_FILES; f = next_number(&image->changed, f + 1))
    if (image->sizes[f].is_new && has_byte_of(&image->mappings[f], ranges, count)) return 1;
  return 0;
}

/* Of a new file's size. */
static struct size size_of_new(uint64_t length) { return (struct size){.is_new = 1, .length = length, .made = length}; }

void lose_size(struct kefs_image *image, unsigned f) {
  struct size made = is_new(image, f) ? size_of_new(image->sizes[f].made) : (struct size){0};
  if (made.is_new) put_size(image, f, &made);
  else forget_size(image, f);
}

int check_files_change(const struct kefs_image *image, const char *call) {
  if (image->read_only) return fail(image, KEFS_READ_ONLY, "%s", call);
  return image->layout.blocks > 0 ? KEFS_OK : fail(image, EOPNOTSUPP, "files of an image of layout %u", (unsigned)image->layout.number);
}

/* Coming */

int check_new(struct kefs_image *image, unsigned f, size_t length) {
  if (f >= image->entries) return fail(image, EINVAL, "file %u, where the directory has places for %u", f, image->entries);
  if (is_there(image, f)) return fail(image, EEXIST, "file %u", f);
  if (has_number(&image->present, f)) return fail(image, EBUSY, "file %u was removed, and no commit has taken that yet", f);
  if (image->mappings[f].at != NULL) return fail(image, EBUSY, "file %u, which was rolled back, is mapped still", f);
  return length > LONGEST_FILE ? fail(image, EFBIG, "%zu bytes", length) : KEFS_OK;
}

int make_new(struct kefs_image *image, unsigned f, uint64_t length) {
  struct size size = size_of_new(length);
  put_size(image, f, &size);
  int result = length > 0 ? make_homes(image, f) : KEFS_OK;
  if (result != KEFS_OK) forget_size(image, f);
  return result;
}

int kefs_add_file(kefs_image *image, unsigned file, size_t length) {
  int result = enter(image);
  if (result != KEFS_OK) return result;
  result = check_files_change(image, "kefs_add_file");
  if (result == KEFS_OK) result = check_new(image, file, length);
  if (result == KEFS_OK) result = make_new(image, file, length);
  return leave(image, result);
}

/* Going */

int check_going(struct kefs_image *image, unsigned f) {
  int result = file_of(image, f);
  if (result != KEFS_OK) return result;
  if (is_names_file(image, f)) return fail(image, EINVAL, "file %u is the names of others", f);
  if (image->files[f].read_only) return fail(image, KEFS_READ_ONLY, "file %u", f);
  return image->mappings[f].at == NULL ? KEFS_OK : fail(image, EBUSY, "file %u is mapped", f);
}

void let_file_go(struct kefs_image *image, unsigned f) {
  struct size gone = {.is_gone = 1};
  if (has_number(&image->present, f)) put_size(image, f, &gone);
  else forget_size(image, f);
  clear_name(image, f);
}

int kefs_remove_file(kefs_image *image, unsigned file) {
  int result = enter(image);
  if (result != KEFS_OK) return result;
  result = check_files_change(image, "kefs_remove_file");
  if (result == KEFS_OK) result = check_going(image, file);
  if (result == KEFS_OK) let_file_go(image, file);
  return leave(image, result);
}
