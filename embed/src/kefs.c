/* Images: turns, closing, mapping, facts. */
#define _GNU_SOURCE
#include "internal.h"
#include <errno.h>
#include <stdlib.h>
#include <sys/file.h>
#include <sys/mman.h>
#include <unistd.h>

/* Turns */

/* A thread that is cancelled in a call would leave the lock behind. */
int enter_beside(struct kefs_image *image) {
  int cancel;
  if (image == NULL) return KEFS_BAD_ARGUMENT;
  if (is_forked(image)) return KEFS_FORKED;
  pthread_setcancelstate(PTHREAD_CANCEL_DISABLE, &cancel);
  pthread_mutex_lock(&image->lock);
  image->cancel = cancel;
  return KEFS_OK;
}

int enter_halted(struct kefs_image *image) {
  int result = enter_beside(image);
  if (result == KEFS_OK) await_run(image);
  return result;
}

int enter(struct kefs_image *image) {
  int result = enter_halted(image);
  return result == KEFS_OK && image->halted ? leave(image, KEFS_HALTED) : result;
}

int leave(struct kefs_image *image, int result) {
  int cancel = image->cancel;
  pthread_mutex_unlock(&image->lock);
  pthread_setcancelstate(cancel, &cancel);
  return result;
}

void *new_memory(size_t length) {
  void *at = mmap(NULL, length, PROT_READ | PROT_WRITE, MAP_PRIVATE | MAP_ANONYMOUS | MAP_NORESERVE, -1, 0);
  return at == MAP_FAILED ? NULL : at;
}

void drop_memory(const void *at, size_t length) {
  if (at != NULL) munmap((void *)(uintptr_t)at, length);
}

/* Closing */

static void drop_marks(struct mapping *mapping) {
  drop_memory(mapping->marks, mapping->kept + areas_of(mapping));
  drop_memory(mapping->slots, mapping->kept * sizeof *mapping->slots);
}

/* A handler of signals finds the region by its addresses, which another mapping may have once the memory is gone. */
static void drop_mapping(struct mapping *mapping) {
  forget_order(mapping);
  remove_region(mapping);
  drop_memory(mapping->at, mapping->kept * PAGE);
  drop_marks(mapping);
  *mapping = (struct mapping){0};
}

/* A child has not inherited the mapped files: something else may be mapped there. */
static void forget_mapping(struct mapping *mapping) { drop_marks(mapping); }

static void drop_mappings(struct kefs_image *image, int forked) {
  for (unsigned f = first_number(&image->mapped); f < KEFS_FILES; f = next_number(&image->mapped, f + 1)) {
    if (forked) forget_mapping(&image->mappings[f]);
    else drop_mapping(&image->mappings[f]);
  }
}

/* The mapped files go before the userfaultfd, without which pages that were not read would be zeros; and the lock last, since another process writes the file from
   then on. */
static int close_image(struct kefs_image *image) {
  int forked = image->generation != 0 && is_forked(image), result = forked ? KEFS_FORKED : image->halted ? KEFS_OK : commit_started(image);
  remove_owner(image);
  drop_mappings(image, forked);
  end_tracking(image);
  end_snapshot(image);
  drop_memory(image->bytes, mapped_bytes(image->sectors));
  drop_former(image);
  drop_sizes(image);
  end_names(image);
  drop_rooms(image);
  drop_homes(image);
  drop_tables(image);
  drop_memory(image->roomless, room_bytes(image->sectors));
  if (image->nothing >= 0) close(image->nothing);
  if (image->fd >= 0 && !forked) end_turns(image), flock(image->fd, LOCK_UN); /* a child that still has the descriptor would hold the locks */
  if (image->fd >= 0) close(image->fd);
  if (!forked) pthread_mutex_destroy(&image->lock), pthread_mutex_destroy(&image->backups), pthread_cond_destroy(&image->starts.over);
  free(image);
  return result;
}

int kefs_close(kefs_image *image) {
  int cancel;
  if (image == NULL) return KEFS_OK;
  pthread_setcancelstate(PTHREAD_CANCEL_DISABLE, &cancel);
  int result = close_image(image);
  pthread_setcancelstate(cancel, &cancel);
  return result;
}

/* Mapping */

int file_of(struct kefs_image *image, unsigned file) {
  return file < KEFS_FILES && is_there(image, file) ? KEFS_OK : fail(image, KEFS_NO_FILE, "file %u", file);
}

/* Those of a small file are one page of memory. */
static int make_marks(struct mapping *mapping) {
  mapping->marks = new_memory(mapping->kept + areas_of(mapping));
  if (mapping->marks == NULL) return ENOMEM;
  mapping->areas = mapping->marks + mapping->kept;
  return KEFS_OK;
}

static int fill_mapping(struct mapping *mapping) {
  struct span all = {mapping, 0, mapping->pages};
  if (mapping->image->snapshot != NULL) return map_snapshot(mapping);
  int number = put_memory(&all);
  return number == KEFS_OK ? load(mapping) : number;
}

/* The place that was asked for is taken first: the system could give it to the marks. Of what kefs_resize has made of the file that part is read which is
   durable. */
static int new_mapping(struct kefs_image *image, unsigned file, void *wanted, size_t kept) {
  struct mapping *mapping = &image->mappings[file];
  *mapping = (struct mapping){.image = image, .file = image->files[file], .pages = (size_t)pages_of(left_of(image, file)), .kept = kept, .bare = SIZE_MAX};
  int result = keep_addresses(mapping, wanted);
  if (result == KEFS_OK) result = make_marks(mapping);
  if (result == KEFS_OK) result = fill_mapping(mapping);
  if (result == KEFS_OK) result = fit_new_mapping(mapping);
  if (result == KEFS_OK) result = add_region(mapping);
  if (result == KEFS_OK) return note_order(mapping), settle_size(image, file), KEFS_OK;
  drop_mapping(mapping);
  return fail(image, result == EIO ? KEFS_DEVICE : result, "mapping file %u: %s", file, kefs_strerror(result));
}

/* For how many pages a mapping of a file keeps addresses, where it is to keep them for so many bytes. */
static size_t kept_for(const struct kefs_image *image, unsigned file, size_t most) {
  size_t pages = (size_t)pages_of(length_of(image, file)), more = (size_t)pages_of(most < LONGEST_FILE ? most : LONGEST_FILE);
  size_t durable = durable_pages(image, file), least = pages > more ? pages : more;
  return least > 0 && least < durable ? durable : least;
}

static int map_file(struct kefs_image *image, unsigned file, void *wanted, size_t most) {
  struct mapping *mapping = &image->mappings[file];
  size_t kept = kept_for(image, file, most);
  if ((uintptr_t)wanted % PAGE != 0) return fail(image, EINVAL, "%p is not the beginning of a page", wanted);
  if (is_names_file(image, file)) return fail(image, EBUSY, "file %u is the names of others", file);
  if (mapping->at == NULL && kept == 0) return KEFS_OK;
  int result = mapping->at == NULL ? commit_started(image) : KEFS_OK; /* pages of the file may be started, and are read when they are durable */
  if (result != KEFS_OK) return result;
  if (mapping->at == NULL) return new_mapping(image, file, wanted, kept);
  if (wanted != NULL && wanted != mapping->at) return fail(image, EEXIST, "file %u is mapped at %p", file, (void *)mapping->at);
  return kept <= mapping->kept ? KEFS_OK : fail(image, EEXIST, "file %u is mapped with addresses for %zu pages", file, mapping->kept);
}

int kefs_map_growing(kefs_image *image, unsigned file, void *wanted, size_t most, void **at, size_t *length) {
  int result = enter(image);
  if (result != KEFS_OK) return result;
  result = at == NULL ? fail(image, KEFS_BAD_ARGUMENT, "no place for the address") : file_of(image, file);
  if (result == KEFS_OK) result = map_file(image, file, wanted, most);
  if (result == KEFS_OK) *at = image->mappings[file].at;
  if (result == KEFS_OK && length != NULL) *length = length_of(image, file);
  return leave(image, result);
}

int kefs_map(kefs_image *image, unsigned file, void *wanted, void **at, size_t *length) { return kefs_map_growing(image, file, wanted, 0, at, length); }

int kefs_unmap(kefs_image *image, unsigned file) {
  int result = enter(image);
  if (result != KEFS_OK) return result;
  if (file >= KEFS_FILES || !has_number(&image->mapped, file)) return leave(image, fail(image, KEFS_NO_FILE, "file %u", file));
  drop_mapping(&image->mappings[file]);
  lose_size(image, file);
  return leave(image, KEFS_OK);
}

int kefs_length(kefs_image *image, unsigned file, size_t *length) {
  int result = enter(image);
  if (result != KEFS_OK) return result;
  result = length == NULL ? fail(image, KEFS_BAD_ARGUMENT, "no place for the length") : file_of(image, file);
  if (result == KEFS_OK) *length = length_of(image, file);
  return leave(image, result);
}

/* Facts */

int kefs_stat(kefs_image *image, struct kefs_stat *to) {
  static const char *const names[] = {"none", "scan", "signal", "caller"};
  int result = enter(image);
  if (result != KEFS_OK) return result;
  if (to == NULL) return leave(image, fail(image, KEFS_BAD_ARGUMENT, "no place for the facts"));
  if (to->size < sizeof *to) return leave(image, fail(image, EINVAL, "size %zu", to->size));
  size_t size = to->size;
  *to = image->stat;
  to->size = size;
  to->files = count_files(image);
  to->most_pages = (uint32_t)places_of(&image->layout);
  to->tracker = names[image->tracker];
  to->lazy = (uint32_t)image->lazy;
  to->layout = image->layout.number;
  return leave(image, KEFS_OK);
}
