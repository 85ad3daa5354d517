/* A whole image of what is durable, made while other threads commit. */
#define _GNU_SOURCE
#include "internal.h"
#include <errno.h>
#include <stdlib.h>
#include <string.h>
#include <unistd.h>

enum { CHUNK = 256, ROUNDS = 3 }; /* homes that are copied in one turn, and rounds over all that is late */

/* The copy has layout 4. It has the homes of one of that layout, and those of an older one behind its directory, by so many later: `homes` in all, with room
   on the device from the first where the image `is_whole`. A bit says of each home of the image whether it is to be copied yet, and whether the copy has got bytes of it. */
struct backup {
  struct kefs_image *image;
  struct new_file file;
  struct layout layout;
  uint32_t shift;
  unsigned char *late, *copied, *chunk;
  uint64_t homes;
  int is_whole;
};

/* Sets the bits of homes up to `end`, or clears them: eight at once where it can. */
static void put_bits(unsigned char *bits, uint64_t first, uint64_t end, int is_set) {
  while (first < end) {
    if (first % 8 == 0 && end - first >= 8) bits[first / 8] = is_set ? 0xff : 0, first += 8;
    else is_set ? set_bit(bits, first) : clear_bit(bits, first), first++;
  }
}

/* The first homes are the directory. */
static void note_sizes(struct kefs_image *image) {
  const struct resizing *resizing = &image->resizing;
  struct new_homes it = {.image = image};
  struct extent homes;
  for (size_t i = 0; i < resizing->count; i++) set_bit(image->late, resizing->sizes[i].file / PAGE_ENTRIES);
  while (next_new_homes(&it, &homes)) put_bits(image->late, homes.first, (uint64_t)homes.first + homes.count, 1);
}

void note_homes(struct kefs_image *image) {
  const struct taken *taken = image->planned;
  if (image->late == NULL) return;
  for (size_t i = 0; i < taken->count; i++) set_bit(image->late, home_of_page(&image->files[taken->pages[i].file], taken->pages[i].page));
  note_sizes(image);
}

/* Marks the homes that may hold other bytes than zeros as late: those with room in the file, and those whose pages stand elsewhere. */
static void find_used(struct kefs_image *image) {
  off_t before, hole, begin = home_offset(&image->layout, 0), end = begin + (off_t)(PAGE * image->stat.pages);
  int fd = file_of_bytes(image, &before);
  for (off_t data = next_data(fd, before + begin, before + end, &hole); data < before + end; data = next_data(fd, hole, before + end, &hole))
    for (off_t at = data - before - begin; at < hole - before - begin; at += PAGE - at % PAGE) set_bit(image->late, (size_t)at / PAGE);
  const struct places *places = image_places(image);
  for (size_t i = 0; i < places->count; i++) set_bit(image->late, places->list[i].home);
}

/* The first home from one on whose bit is set, or `end`. */
static uint64_t next_bit(const unsigned char *bits, uint64_t home, uint64_t end) {
  while (home < end && !bit_of(bits, home)) home += home % 8 == 0 && bits[home / 8] == 0 ? 8 : 1;
  return home < end ? home : end;
}

/* The homes from `first` on that are late, and follow each other: how many, at most a chunk. What is a hole in both files, as most of a new page may be, is late no
   more. */
static size_t late_homes(const struct backup *backup, uint64_t *first) {
  uint64_t homes = backup->image->stat.pages, end = *first;
  do {
    put_bits(backup->late, *first, end, 0);
    *first = next_bit(backup->late, end, homes);
    end = *first < homes ? next_bit(backup->copied, *first, *first + count_empty(backup->image, (uint32_t)*first, homes - *first)) : *first;
  } while (end > *first);
  while (end < homes && end - *first < CHUNK && bit_of(backup->late, end)) end++;
  return (size_t)(end - *first);
}

/* Reads homes as they are durable. From here on a commit makes them late again. */
static int read_homes(struct backup *backup, uint64_t first, size_t count) {
  for (uint64_t home = first; home < first + count; home++) {
    copy_durable_page(backup->image, (uint32_t)home, backup->chunk + (home - first) * PAGE);
    clear_bit(backup->late, home);
  }
  return KEFS_OK;
}

static int is_zero(const unsigned char *bytes) { return bytes[0] == 0 && memcmp(bytes, bytes + 1, PAGE - 1) == 0; }

/* Zeros are written where the copy has got other bytes. */
static int write_homes(struct backup *backup, uint64_t first, size_t count) {
  int number = KEFS_OK;
  off_t at = home_offset(&backup->layout, (uint32_t)first + backup->shift);
  for (size_t i = 0, end; i < count && number == KEFS_OK; i = end) {
    int are_zeros = is_zero(backup->chunk + i * PAGE);
    for (end = i + 1; end < count && is_zero(backup->chunk + end * PAGE) == are_zeros;) end++;
    if (are_zeros && next_bit(backup->copied, first + i, first + end) == first + end) continue;
    number = write_all(backup->file.fd, backup->chunk + i * PAGE, (end - i) * PAGE, at + (off_t)(PAGE * i));
    put_bits(backup->copied, first + i, first + end, 1);
  }
  return number;
}

/* Copies what is late, a chunk a turn. */
static int copy_late(struct backup *backup) {
  uint64_t first = 0;
  for (;;) {
    int result = enter(backup->image);
    if (result != KEFS_OK) return result;
    size_t count = late_homes(backup, &first);
    leave(backup->image, count == 0 ? KEFS_OK : read_homes(backup, first, count));
    if (count == 0) return KEFS_OK;
    int number = write_homes(backup, first, count);
    if (number != KEFS_OK) return number;
    first += count;
  }
}

/* Of an image of layout 4 the directory is among its pages. */
static int write_older_directory(const struct backup *backup) {
  struct file files[OLDER_FILES];
  if (backup->shift == 0) return KEFS_OK;
  memcpy(files, backup->image->files, sizeof files);
  for (unsigned f = 0; f < OLDER_FILES; f++) files[f].extents[0].first += backup->shift;
  return write_directory(backup->file.fd, &backup->layout, files, OLDER_FILES);
}

static off_t length_of_copy(const struct backup *backup) { return home_offset(&backup->layout, 0) + (off_t)(PAGE * backup->homes); }
static int set_copy_length(const struct backup *backup) { return backup->homes > MOST_HOMES ? EFBIG : set_length(backup->file.fd, length_of_copy(backup)); }

static void note_length(struct backup *backup) { backup->homes = backup->shift + backup->image->stat.pages; }

/* The last round is one turn: what it leaves is as after one commit. Files may have got longer since the first, and so the image. */
static int copy_last(struct backup *backup) {
  uint64_t first = 0;
  int result = enter(backup->image);
  if (result != KEFS_OK) return result;
  note_length(backup);
  int number = set_copy_length(backup);
  for (size_t count; number == KEFS_OK && (count = late_homes(backup, &first)) > 0; first += count) {
    read_homes(backup, first, count);
    number = write_homes(backup, first, count);
  }
  if (number == KEFS_OK) number = write_older_directory(backup);
  return leave(backup->image, number);
}

static int take_rooms_of(const struct backup *backup) {
  return backup->is_whole ? take_room(backup->file.fd, 0, length_of_copy(backup)) : take_first_room(backup->file.fd, &backup->layout, 0);
}

static int fill_file(struct backup *backup) {
  int result = set_copy_length(backup);
  if (result == KEFS_OK) result = take_rooms_of(backup);
  for (int round = 0; round < ROUNDS && result == KEFS_OK; round++) result = copy_late(backup);
  if (result == KEFS_OK && fdatasync(backup->file.fd) != 0) result = errno; /* so that the last turn is short */
  if (result == KEFS_OK) result = copy_last(backup);
  if (result == KEFS_OK) result = finish_image(backup->file.fd, &backup->layout);
  return result == KEFS_OK ? name_file(&backup->file) : result;
}

/* From here on commits note what they change. */
static int watch(struct backup *backup) {
  struct kefs_image *image = backup->image;
  int result = enter(image);
  if (result != KEFS_OK) return result;
  image->late = backup->late;
  find_used(image);
  note_length(backup);
  backup->is_whole = image->roomless == NULL && !image->read_only;
  return leave(image, KEFS_OK);
}

static void watch_no_more(struct kefs_image *image) {
  if (enter_halted(image) != KEFS_OK) return;
  image->late = NULL;
  leave(image, KEFS_OK);
}

static int back_up(struct kefs_image *image, const char *path, unsigned permissions) {
  int is_older = image->layout.blocks == 0;
  struct layout layout = is_older ? pool_layout(POOL_BLOCKS, DIRECTORY_PAGES) : image->layout;
  size_t bits = bits_bytes(image);
  struct backup backup = {.image = image, .file = {path, NULL, -1}, .layout = layout, .shift = is_older ? DIRECTORY_PAGES : 0,
                          .late = new_memory(bits), .copied = new_memory(bits), .chunk = malloc((size_t)CHUNK * PAGE)};
  int result = backup.late == NULL || backup.copied == NULL || backup.chunk == NULL ? ENOMEM : KEFS_OK;
  if (result == KEFS_OK) result = begin_file(&backup.file, path, permissions);
  if (result == KEFS_OK) result = watch(&backup);
  if (result == KEFS_OK) result = fill_file(&backup);
  watch_no_more(image);
  end_file(&backup.file);
  drop_memory(backup.late, bits), drop_memory(backup.copied, bits);
  free(backup.chunk);
  return result;
}

/* The state of cancelling is that of the whole call, which takes many turns. */
int kefs_backup(kefs_image *image, const char *path, unsigned permissions) {
  int cancel;
  if (image == NULL) return KEFS_BAD_ARGUMENT;
  if (is_forked(image)) return KEFS_FORKED;
  pthread_setcancelstate(PTHREAD_CANCEL_DISABLE, &cancel);
  pthread_mutex_lock(&image->backups);
  int result = path == NULL ? fail(image, KEFS_BAD_ARGUMENT, "no path") : back_up(image, path, permissions), entered = enter_halted(image);
  if (result > 0) result = fail(image, new_file_result(result), "backup to %s: %s", path, kefs_strerror(result));
  if (entered == KEFS_OK) leave(image, KEFS_OK);
  pthread_mutex_unlock(&image->backups);
  pthread_setcancelstate(cancel, &cancel);
  return result;
}
