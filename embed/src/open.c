/* Images: opening, and recovery in place. */
#define _GNU_SOURCE
#include "internal.h"
#include <errno.h>
#include <fcntl.h>
#include <stdio.h>
#include <stdlib.h>
#include <string.h>
#include <sys/file.h>
#include <sys/mman.h>
#include <sys/stat.h>
#include <sys/sysmacros.h>
#include <unistd.h>

/* What an opening is given. */
struct opening { const char *path; unsigned flags; int takes_layout_3; struct kefs_options options; };

/* What the options of versions 1.0 and 1.1 had. */
enum { OLD_OPTIONS = offsetof(struct kefs_options, pool) };

static int check_opening(kefs_image **to, const char *path, unsigned flags, const struct kefs_options *options) {
  if (to != NULL) *to = NULL;
  if (to == NULL || path == NULL) return fail(NULL, KEFS_BAD_ARGUMENT, to == NULL ? "no place for the handle" : "no path");
  unsigned trackers = flags & (KEFS_TRACK_SCAN | KEFS_TRACK_SIGNAL | KEFS_TRACK_CALLER), all = 2 * KEFS_NAMES - 1;
  if ((flags & ~all) != 0 || (trackers & (trackers - 1)) != 0) return fail(NULL, EINVAL, "flags %#x", flags);
  if (options != NULL && options->size < OLD_OPTIONS) return fail(NULL, EINVAL, "size %zu of the options", options->size);
  if ((flags & KEFS_CREATE) == 0) return (flags & KEFS_NAMES) == 0 ? KEFS_OK : fail(NULL, EINVAL, "KEFS_NAMES without KEFS_CREATE");
  if (options == NULL || (flags & (KEFS_RDONLY | KEFS_SNAPSHOT)) != 0) return fail(NULL, EINVAL, "KEFS_CREATE without options, or to read");
  if ((flags & KEFS_NAMES) != 0 && options->count > 0) return fail(NULL, EINVAL, "%zu files of an image with names", options->count);
  return options->files == NULL && options->count > 0 ? fail(NULL, KEFS_BAD_ARGUMENT, "no files") : KEFS_OK;
}

/* Locking */

int holder_of(int fd) {
  struct stat here;
  char line[200];
  int process, found = 0, locks = open_high("/proc/locks", O_RDONLY | O_CLOEXEC, 0);
  unsigned major_number, minor_number;
  unsigned long number;
  FILE *lines = locks < 0 ? NULL : fdopen(locks, "r");
  if (lines == NULL || fstat(fd, &here) != 0) here.st_ino = 0;
  while (lines != NULL && found == 0 && fgets(line, sizeof line, lines) != NULL)
    if (sscanf(line, "%*d: FLOCK %*s %*s %d %x:%x:%lu", &process, &major_number, &minor_number, &number) == 4)
      if (number == here.st_ino && major_number == major(here.st_dev) && minor_number == minor(here.st_dev)) found = process;
  if (lines != NULL) fclose(lines);
  else if (locks >= 0) close(locks);
  return found;
}

static int is_busy(struct kefs_image *image, const struct opening *opening) {
  if (is_own(image->fd)) return fail(image, KEFS_BUSY, "this thread has %s open by another handle", opening->path);
  int process = holder_of(image->fd);
  return process == 0 ? fail(image, KEFS_BUSY, "%s", opening->path) : fail(image, KEFS_BUSY, "process %d has %s", process, opening->path);
}

/* Milliseconds that it waits, or -1: for ever. */
static long limit_of(const struct opening *opening) {
  return (opening->flags & KEFS_NOWAIT) != 0 ? 0 : opening->options.wait == 0 ? -1 : (long)opening->options.wait;
}

/* A snapshot locks nothing but while it is read. For a handle of its own a thread would wait for ever. */
static int lock_file(struct kefs_image *image, const struct opening *opening) {
  long limit = image->snapshot == NULL && is_own(image->fd) ? 0 : limit_of(opening);
  int number = KEFS_OK;
  if (!image->read_only) number = lock_to_write(image, limit);
  else if (image->snapshot == NULL) number = lock_to_read(image, limit);
  return number == EWOULDBLOCK ? is_busy(image, opening) : number == KEFS_OK ? KEFS_OK : fail(image, number, "locking %s", opening->path);
}

/* The host file */

/* A file that cannot be waited for: no FIFO is, and no terminal becomes the process's own. */
static int open_host_file(struct kefs_image *image, const char *path) {
  struct stat there;
  if (image->fd >= 0) close(image->fd);
  image->fd = open_high(path, (image->read_only ? O_RDONLY : O_RDWR) | O_CLOEXEC | O_NONBLOCK | O_NOCTTY, 0);
  if (image->fd < 0) return errno;
  if (fstat(image->fd, &there) != 0) return errno;
  return S_ISREG(there.st_mode) ? KEFS_OK : KEFS_NOT_IMAGE;
}

static int is_same_file(const struct stat *one, const struct stat *other) { return one->st_dev == other->st_dev && one->st_ino == other->st_ino; }

/* Whether the path still leads to the file that was locked: it may have been replaced while the call waited. */
static int is_named(int fd, const char *path) {
  struct stat here, there;
  return fstat(fd, &here) == 0 && stat(path, &there) == 0 && is_same_file(&here, &there);
}

/* Opens the file, or makes it first. Where another process has made it meanwhile, that one is opened. */
static int open_or_make(struct kefs_image *image, const struct opening *opening) {
  const struct kefs_options *options = &opening->options;
  for (;;) {
    int result = open_host_file(image, opening->path);
    if (result == KEFS_NOT_IMAGE) return fail(image, result, "%s: it is no regular file", opening->path);
    if (result != ENOENT || (opening->flags & KEFS_CREATE) == 0) return result == KEFS_OK ? KEFS_OK : fail(image, result, "opening %s", opening->path);
    result = ((opening->flags & KEFS_NAMES) != 0 ? format_with_names : format_as)(opening->path, options);
    if (result == EEXIST && access(opening->path, F_OK) != 0) return fail(image, errno, "opening %s", opening->path); /* a link to nothing */
    if (result != KEFS_OK && result != EEXIST) return fail(image, result, "%s", kefs_errmsg(NULL));
  }
}

/* The image may be another process's new one, whose name is not durable yet: what is committed to it is not found again without its name. */
static int settle_name(struct kefs_image *image, const struct opening *opening) {
  if ((opening->flags & KEFS_CREATE) == 0) return KEFS_OK;
  int number = sync_name(opening->path, image->fd);
  return number == KEFS_OK ? KEFS_OK : fail(image, new_file_result(number), "syncing the folder of %s: %s", opening->path, kefs_strerror(number));
}

enum { MOST_ROUNDS = 100 }; /* in each of which another file has come to the path */

static int lock_path(struct kefs_image *image, const struct opening *opening) {
  for (int round = 0; round < MOST_ROUNDS; round++) {
    int result = open_or_make(image, opening);
    if (result == KEFS_OK) result = lock_file(image, opening);
    if (result != KEFS_OK) return result;
    if (is_named(image->fd, opening->path)) return settle_name(image, opening);
  }
  return fail(image, ESTALE, "%s leads to another file each time", opening->path);
}

static void let_pages_go(const unsigned char *bytes, size_t sectors) { madvise((void *)(uintptr_t)bytes, SECTOR * sectors, MADV_DONTNEED); }

/* After a sync that failed the system may hold bytes that it takes for written and the device has not: a later sync succeeds and
   does not write them. So what it holds is dropped, once nothing of it waits to be written, and read anew. A page stays where it
   is mapped, or being read, so the pages of the image's own mapping are let go first, and readers' turns are waited for. */
int settle(struct kefs_image *image) {
  await_readers(image);
  if (image->bytes != NULL) let_pages_go(image->bytes, image->sectors);
  for (const struct former *it = image->former; it != NULL; it = it->next) let_pages_go(it->bytes, it->sectors);
  if (fsync(image->fd) != 0) return fail(image, device_result(errno), "fsync: %s", strerror(errno));
  posix_fadvise(image->fd, 0, 0, POSIX_FADV_DONTNEED);
  forget_places(image);
  return KEFS_OK;
}

/* The host file by an open file of its own, or -1. A mapping keeps its open file alive for a while after a kill, and in children: had that one the lock, the
   image would be busy for as long. */
static int open_to_map(const struct kefs_image *image) {
  char place[40];
  snprintf(place, sizeof place, "/proc/self/fd/%d", image->fd);
  int fd = open_high(place, O_RDONLY | O_CLOEXEC, 0);
  if (fd < 0 && image->path != NULL) fd = open_high(image->path, O_RDONLY | O_CLOEXEC | O_NONBLOCK | O_NOCTTY, 0);
  struct stat here, there;
  if (fd < 0 || (fstat(image->fd, &here) == 0 && fstat(fd, &there) == 0 && is_same_file(&here, &there))) return fd;
  close(fd);
  return -1;
}

/* The one byte more is for a file of no bytes, which cannot be mapped. */
const unsigned char *map_sectors(const struct kefs_image *image, size_t sectors) {
  int fd = open_to_map(image);
  void *bytes = mmap(NULL, mapped_bytes(sectors), PROT_READ, MAP_SHARED, fd < 0 ? image->fd : fd, 0);
  if (fd >= 0) close(fd);
  return bytes == MAP_FAILED ? NULL : bytes;
}

static int map_host_file(struct kefs_image *image) {
  struct stat there;
  if (fstat(image->fd, &there) != 0) return fail(image, errno, "fstat");
  image->sectors = (size_t)there.st_size / SECTOR;
  image->bytes = map_sectors(image, image->sectors);
  return image->bytes == NULL ? fail(image, ENOMEM, "mapping the host file") : KEFS_OK;
}

/* Sparse host files. One that takes less room on the device than its length may have pages without any. On a memory file system such a page takes room when it
   is touched in a mapping, and where there is none the process gets a SIGBUS. So of these files pages are read by calls, and all that the proved part reads is made
   sure of: a writer takes room for it, and a reader puts a copy in its place. */

static int is_sparse(const struct kefs_image *image) {
  struct stat there;
  return fstat(image->fd, &there) == 0 && (uint64_t)there.st_blocks * 512 < (uint64_t)there.st_size;
}

int read_kind(struct kefs_image *image) {
  unsigned char first[SECTOR * (KIND_SECTOR + 1)] = {0};
  const unsigned char *bytes = image->bytes;
  int number = image->sectors <= KIND_SECTOR ? KEFS_OK : read_all(image->fd, first, sizeof first, 0);
  if (number != KEFS_OK) return fail(image, KEFS_DEVICE, "pread of %zu bytes at sector 0: %s", sizeof first, kefs_strerror(number));
  image->bytes = first;
  image->layout = layout_of(image);
  image->bytes = bytes;
  return KEFS_OK;
}

/* Does something with these sectors of an image. */
typedef int part(struct kefs_image *image, size_t first, size_t end);

/* Puts a copy in the place of the mapping: no other program writes it. */
static int copy_part(struct kefs_image *image, size_t first, size_t end) {
  if (end > image->sectors) end = image->sectors;
  size_t from = SECTOR * first / PAGE * PAGE, to = (SECTOR * end + PAGE - 1) / PAGE * PAGE;
  if (first >= end) return KEFS_OK;
  void *at = mmap((void *)(uintptr_t)(image->bytes + from), to - from, PROT_READ | PROT_WRITE, MAP_PRIVATE | MAP_ANONYMOUS | MAP_NORESERVE | MAP_FIXED, -1, 0);
  if (at == MAP_FAILED) return fail(image, ENOMEM, "memory for sectors %zu to %zu", first, end - 1);
  size_t length = to > SECTOR * image->sectors ? SECTOR * image->sectors - from : to - from;
  int number = read_data(image->fd, at, length, (off_t)from, &(size_t){0});
  return number == KEFS_OK ? KEFS_OK : fail(image, KEFS_DEVICE, "pread of %zu bytes at sector %zu: %s", length, from / SECTOR, kefs_strerror(number));
}

/* All that an opening reads of a journal: the map that the gate names, and the pages that it has. */
static int take_journal(struct kefs_image *image, part *take) {
  size_t map = named_map(image), body = map + MAP_SECTORS;
  if (map == 0) return KEFS_OK;
  int result = take(image, map, body);
  size_t pages = result == KEFS_OK && image->sectors >= body ? count_of_map(image) : 0;
  return result == KEFS_OK ? take(image, body, body + PAGE / SECTOR * (pages < JOURNAL_PAGES ? pages : JOURNAL_PAGES)) : result;
}

/* And of a pool: the blocks of the map that count, and what stands for the directory. */
static int take_pool(struct kefs_image *image, part *take) {
  const struct layout *layout = &image->layout;
  size_t map = named_map(image), end = map + PAGE / SECTOR * layout->blocks;
  if (image->sectors < least_sectors(layout)) return KEFS_OK;
  int result = take(image, end - PAGE / SECTOR, end);
  if (result == KEFS_OK) result = take(image, end - PAGE / SECTOR * count_of_map(image), end);
  for (uint32_t home = 0; home < layout->directory_pages && result == KEFS_OK; home++) {
    size_t sector = standing_sector(image, home);
    result = take(image, sector, sector + PAGE / SECTOR);
  }
  return result;
}

static int take_head(struct kefs_image *image, part *take) {
  const struct layout *layout = &image->layout;
  int result = take(image, 0, layout->gate + 1);
  if (result != KEFS_OK || image->sectors <= layout->gate) return result;
  return layout->blocks == 0 ? take_journal(image, take) : take_pool(image, take);
}

int copy_head(struct kefs_image *image) { return take_head(image, copy_part); }

/* The slots that a pool's map names, whose bytes a plan copies. */
static int take_slots(struct kefs_image *image) {
  const struct places *places = image_places(image);
  int result = KEFS_OK;
  for (size_t i = 0; i < places->count && result == KEFS_OK;) {
    size_t first = places->list[i].sector, end = first;
    for (; i < places->count && places->list[i].sector == end; i++) end += PAGE / SECTOR;
    result = take_sectors(image, first, end);
  }
  return result;
}

static int secure_head(struct kefs_image *image) {
  if (!is_sparse(image)) return image->layout = layout_of(image), KEFS_OK;
  image->roomless = new_memory(room_bytes(image->sectors));
  if (image->roomless == NULL) return fail(image, ENOMEM, "which pages have no room");
  memset(image->roomless, 0xff, room_bytes(image->sectors));
  return read_kind(image);
}

static int read_head(struct kefs_image *image) {
  if (image->roomless == NULL) return KEFS_OK;
  int result = take_head(image, image->read_only ? copy_part : take_sectors);
  return result == KEFS_OK && !image->read_only && image->layout.blocks > 0 && image->sectors >= least_sectors(&image->layout) ? take_slots(image) : result;
}

/* Room for plans, for what their commits take, and memory to make them in. The worst plan writes each page sector by sector. */

enum { HEAP_OF_BLOCK = 68 << 10, HEAP = (1 << 20) + (32 << 10), HEAP_OF_DIRECTORY_PAGE = 24 << 10 };

static int new_plan(struct plan *plan, size_t room) {
  *plan = (struct plan){.room = room, .calls = new_memory(room * sizeof *plan->calls), .rows = new_memory(room * sizeof *plan->rows)};
  return plan->calls != NULL && plan->rows != NULL;
}

static void drop_plan(struct plan *plan) {
  drop_memory(plan->calls, plan->room * sizeof *plan->calls);
  drop_memory(plan->rows, plan->room * sizeof *plan->rows);
  *plan = (struct plan){0};
}

/* As new_memory, it takes room only where it is touched, after mlockall(MCL_FUTURE) too: most rows of new pages never are. */
static void *resized_memory(void *at, size_t length, size_t wanted) {
  munlock(at, length);
  void *moved = mremap(at, length, wanted, MREMAP_MAYMOVE);
  return moved == MAP_FAILED ? NULL : moved;
}

/* What the plan holds so far stays in it. */
static int set_plan_room(struct plan *plan, size_t room) {
  if (plan->room == room) return KEFS_OK;
  void *calls = resized_memory(plan->calls, plan->room * sizeof *plan->calls, room * sizeof *plan->calls);
  if (calls == NULL) return ENOMEM;
  plan->calls = calls;
  void *rows = resized_memory(plan->rows, plan->room * sizeof *plan->rows, room * sizeof *plan->rows);
  if (rows != NULL) return plan->rows = rows, plan->room = room, KEFS_OK;
  resized_memory(plan->calls, room * sizeof *plan->calls, plan->room * sizeof *plan->calls);
  return ENOMEM;
}

static size_t room_of(const struct layout *layout) { return layout->blocks == 0 ? (size_t)FAMSYNC_ROOM : (size_t)FAMSYNC_ROOM_OF_BLOCK * layout->blocks; }

int set_plan_rooms(struct kefs_image *image, size_t added) {
  size_t room = room_of(&image->layout) + ROWS_OF_PAGE * added;
  int number = set_plan_room(&image->scratch, room);
  return number == KEFS_OK ? set_plan_room(&image->plan, room) : number;
}

static int new_heap(struct heap *heap, const struct layout *layout) {
  size_t length = HEAP + (size_t)HEAP_OF_BLOCK * layout->blocks + (size_t)HEAP_OF_DIRECTORY_PAGE * layout->directory_pages;
  *heap = (struct heap){.at = new_memory(length), .length = length};
  return heap->at != NULL;
}

int new_taken(struct taken *taken, size_t room) {
  *taken = (struct taken){.pages = new_memory(room * sizeof *taken->pages), .bytes = new_memory(room * sizeof *taken->bytes)};
  return taken->pages == NULL || taken->bytes == NULL ? ENOMEM : KEFS_OK;
}

void drop_taken(struct taken *taken, size_t room) {
  drop_memory(taken->pages, room * sizeof *taken->pages);
  drop_memory(taken->bytes, room * sizeof *taken->bytes);
  *taken = (struct taken){0};
}

int make_rooms(struct kefs_image *image) {
  const struct layout *layout = &image->layout;
  size_t room = room_of(layout);
  drop_rooms(image), drop_tables(image);
  int has_tables = make_tables(image) == KEFS_OK;
  int has_plans = new_plan(&image->scratch, room) && new_plan(&image->plan, room) && new_heap(&image->heap, layout);
  int has_places = new_places(layout, &image->places) == KEFS_OK;
  int has_taken = new_taken(&image->taken, image->places.room) == KEFS_OK;
  return has_tables && has_plans && has_places && has_taken ? KEFS_OK : fail(image, ENOMEM, "room for plans");
}

void drop_rooms(struct kefs_image *image) {
  drop_plan(&image->scratch), drop_plan(&image->plan);
  drop_memory(image->heap.at, image->heap.length);
  drop_taken(&image->taken, image->places.room);
  drop_starts(image);
  drop_places(&image->places);
  image->heap = (struct heap){0};
}

static int result_of(uint32_t answer) {
  switch (answer) {
    case FAMSYNC_OK: return KEFS_OK;
    case FAMSYNC_BAD_JOURNAL: return KEFS_BAD_JOURNAL;
    case FAMSYNC_NO_ROOM: case FAMSYNC_NO_MEMORY: return ENOMEM;
    default: return KEFS_NOT_IMAGE;
  }
}

/* Of layout 3, which is read alone, no plan is asked. */
static int check_layout_3(struct kefs_image *image) {
  struct finding finding = check_store(image);
  return finding.result == KEFS_OK ? KEFS_OK : fail(image, finding.result, "%s: %s", image->path, finding.words);
}

int recover(struct kefs_image *image) {
  struct plan *scratch = &image->scratch, *plan = &image->plan;
  if (image->layout.number == 3) return check_layout_3(image);
  begin_heap(&image->heap);
  uint32_t answer = famsync_open(&image->handle, image->bytes, image->sectors, scratch->calls, scratch->room, scratch->rows, scratch->room, &plan->used,
                                 plan->calls, plan->room, plan->rows, plan->room);
  end_heap();
  if (answer != FAMSYNC_OK) return fail(image, result_of(answer), "opening the journal");
  if (image->read_only) return KEFS_OK;
  if (image->layout.blocks == 0) image->stat.recovered += count_of_map(image);
  int result = take_rooms(image);
  return result == KEFS_OK ? carry_out(image) : result;
}

int refuse_layout_3(const struct kefs_image *image) {
  return image->layout.number != 3 || image->takes_layout_3 ? KEFS_OK : fail(image, KEFS_NOT_IMAGE, "%s: %s", image->path, OF_LAYOUT_3);
}

static int read_image(struct kefs_image *image) {
  if (image->snapshot != NULL) return read_snapshot(image);
  int result = settle(image);
  if (result == KEFS_OK) result = map_host_file(image);
  if (result == KEFS_OK) result = secure_head(image);
  if (result == KEFS_OK) result = refuse_layout_3(image);
  if (result == KEFS_OK) result = make_rooms(image);
  if (result == KEFS_OK) result = read_head(image);
  if (result == KEFS_OK) result = recover(image);
  if (result != KEFS_OK) return result;
  image->stat.pages = home_pages(image);
  read_directory(image);
  return KEFS_OK;
}

/* Images */

static struct kefs_image *new_image(void) {
  struct kefs_image *image = calloc(1, sizeof *image);
  if (image == NULL) return NULL;
  image->serial = new_serial();
  image->fd = image->faults = image->pagemap = image->nothing = -1;
  image->planned = &image->taken;
  begin_starts(image);
  pthread_mutex_init(&image->lock, NULL);
  pthread_mutex_init(&image->backups, NULL);
  return image;
}

/* A snapshot may find only when it reads the file that it was replaced: then it begins again, with the one that has come. */
static int lock_and_read(struct kefs_image *image, const struct opening *opening) {
  int result = ESTALE;
  for (int round = 0; round < MOST_ROUNDS && result == ESTALE; round++) {
    result = lock_path(image, opening);
    if (result == KEFS_OK) result = read_image(image);
    if (result == ESTALE && is_named(image->fd, opening->path)) break; /* a path of /proc leads to a file without a name */
  }
  return result;
}

/* A program whose struct has grown would read past the file that an earlier one made. Files of other numbers may be those that it has added. */
static int check_created(const struct kefs_image *image, const struct opening *opening) {
  const struct kefs_options *options = &opening->options;
  if ((opening->flags & KEFS_NAMES) != 0) return image->names != NULL ? KEFS_OK : fail(image, KEFS_OTHER_FILES, "the files of %s have no names", opening->path);
  for (unsigned f = 0; f < options->count && (opening->flags & KEFS_CREATE) != 0; f++) {
    const struct kefs_file *wanted = &options->files[f];
    if (f >= KEFS_FILES || !has_number(&image->present, f)) return fail(image, KEFS_OTHER_FILES, "%s has no file %u", opening->path, f);
    const struct file *file = &image->files[f];
    unsigned long long length = file->length, asked = wanted->length;
    if (length != asked && (wanted->flags & KEFS_FILE_GROWS) == 0)
      return fail(image, KEFS_OTHER_FILES, "file %u of %s has %llu bytes, and not %llu", f, opening->path, length, asked);
    if (file->read_only != ((wanted->flags & KEFS_FILE_READ_ONLY) != 0))
      return fail(image, KEFS_OTHER_FILES, "file %u of %s is %sread-only", f, opening->path, file->read_only ? "" : "not ");
  }
  return KEFS_OK;
}

/* The path and the reason of a refusal, as kefscheck has it. */
static void say_why(struct kefs_image *image, const struct opening *opening, int result) {
  if ((result != KEFS_NOT_IMAGE && result != KEFS_BAD_JOURNAL) || image->bytes == NULL || image->layout.number == 0) return;
  struct finding finding = opening->takes_layout_3 ? check_store(image) : check_image(image);
  if (finding.result == result) fail(image, result, "%s: %s", opening->path, finding.words);
}

static int open_image(struct kefs_image *image, const struct opening *opening) {
  if (sysconf(_SC_PAGESIZE) != PAGE) return fail(image, ENOSYS, "pages of %ld bytes", sysconf(_SC_PAGESIZE));
  int result = this_generation(&image->generation);
  if (result != KEFS_OK) return fail(image, result, "beginning");
  image->path = opening->path;
  image->takes_layout_3 = opening->takes_layout_3;
  image->read_only = (opening->flags & (KEFS_RDONLY | KEFS_SNAPSHOT)) != 0;
  int is_snapshot = (opening->flags & KEFS_SNAPSHOT) != 0;
  if (is_snapshot) result = begin_snapshot(image, limit_of(opening));
  if (result == KEFS_OK) result = lock_and_read(image, opening);
  if (result != KEFS_OK) return result;
  end_change(image);
  result = image->read_only ? KEFS_OK : begin_names(image);
  if (result == KEFS_OK) result = check_created(image, opening);
  if (result != KEFS_OK) return result;
  result = begin_tracking(image, is_snapshot ? 0 : opening->flags);
  return result == KEFS_OK ? KEFS_OK : fail(image, result, "tracking");
}

static int open_new(kefs_image **to, const struct opening *opening) {
  struct kefs_image *image = new_image();
  if (image == NULL) return fail(NULL, ENOMEM, "a handle");
  int result = open_image(image, opening);
  image->path = NULL;
  if (result == KEFS_OK && image->snapshot == NULL) add_owner(image);
  if (result == KEFS_OK) return *to = image, KEFS_OK;
  say_why(image, opening, result);
  keep_message(image);
  kefs_close(image);
  return result;
}

static int open_as(kefs_image **to, const struct opening *opening) {
  int cancel;
  pthread_setcancelstate(PTHREAD_CANCEL_DISABLE, &cancel);
  int result = open_new(to, opening);
  pthread_setcancelstate(cancel, &cancel);
  return result;
}

int kefs_open_with(kefs_image **to, const char *path, unsigned flags, const struct kefs_options *options) {
  int result = check_opening(to, path, flags, options);
  if (result != KEFS_OK) return result;
  struct opening opening = {.path = path, .flags = flags};
  if (options != NULL) memcpy(&opening.options, options, options->size < sizeof *options ? options->size : sizeof *options);
  return open_as(to, &opening);
}

int kefs_open(kefs_image **to, const char *path, unsigned flags) { return kefs_open_with(to, path, flags, NULL); }

int open_older(kefs_image **to, const char *path) {
  *to = NULL;
  return open_as(to, &(struct opening){.path = path, .flags = KEFS_RDONLY | KEFS_NOWAIT, .takes_layout_3 = 1});
}

/* Recovery in place */

/* A plan ends in the gate's write and a sync, in either layout. Before these the commit cannot stand; after one of them failed, the gate tells. */
static enum outcome outcome_of(const struct kefs_image *image) {
  const struct plan *plan = &image->plan;
  if (image->planned == &image->none || image->failed + 2 < plan->used) return IS_BEFORE;
  return gate_says(image, plan->rows[plan->used - 2]) ? IS_AFTER : IS_BEFORE;
}

/* What became of the commit is found once, before a plan writes the gate anew. */
int recover_in_place(struct kefs_image *image) {
  int result = settle(image);
  if (result != KEFS_OK) return result;
  if (image->outcome == IN_DOUBT) image->outcome = outcome_of(image);
  result = recover(image);
  if (result != KEFS_OK) return result;
  end_commit(image, image->outcome == IS_AFTER);
  image->halted = 0;
  image->turns.is_new = 1;
  end_change(image);
  return KEFS_OK;
}

int kefs_recover(kefs_image *image, int *stands) {
  int result = enter_halted(image);
  if (result != KEFS_OK) return result;
  if (image->halted) result = recover_in_place(image);
  else image->outcome = NO_FAILURE;
  if (result == KEFS_OK && stands != NULL) *stands = image->outcome == IS_AFTER ? KEFS_AFTER : KEFS_BEFORE;
  if (result == KEFS_OK) image->outcome = NO_FAILURE;
  return leave(image, result);
}
