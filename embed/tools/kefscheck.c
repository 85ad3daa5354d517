/* kefscheck IMAGE: tells what an image is, and whether it would open. kefscheck dump IMAGE FILE: writes one of its files out. kefscheck upgrade OLD
   NEW: makes an image of layout 4 of an older one. It is built from the parts of the library, and writes to no image that is there. */
#define _GNU_SOURCE
#include "internal.h"
#include <ctype.h>
#include <errno.h>
#include <fcntl.h>
#include <stdio.h>
#include <stdlib.h>
#include <string.h>
#include <sys/file.h>
#include <sys/stat.h>

static const char USAGE[] =
  "usage: kefscheck IMAGE\n"
  "       kefscheck dump IMAGE FILE\n"
  "       kefscheck upgrade OLD NEW\n"
  "\n"
  "The first form tells of an image its layout, its files and their names, what its journal or pool holds, who has it open, and whether it\n"
  "would open, and if not, why. The second one writes file number FILE, 0 to 4095, to standard output, as the last commit left it. The third\n"
  "one makes NEW, where nothing may be, an image of layout 4 with the files of OLD, an image of layout 2 or 3, as its last commit left them:\n"
  "whole, or not at all. Images of layout 3 have no other use: nothing else opens them.\n"
  "An image that is there is only read; while a program has it open to write, the first form may see a commit half made, and the others are\n"
  "refused.\n"
  "\n"
  "The exit status is 0 where the image would open, the file was written or NEW was made, 2 for other words than these, and else 1.\n";

static int failed(const char *what, const char *why) {
  fprintf(stderr, "kefscheck: %s: %s\n", what, why);
  return 1;
}

/* Telling */

/* A name may have any bytes: a line of it is to be one line, and of words alone. */
static void tell_name(const struct kefs_image *image, unsigned f) {
  const char *name = name_of(image, f);
  if (f == 0 && image->names != NULL) printf(" (names)");
  if (name == NULL) return;
  printf(" \"");
  for (; *name != 0; name++)
    if (iscntrl((unsigned char)*name) || *name == '"' || *name == '\\') printf("\\x%02x", (unsigned char)*name);
    else putchar(*name);
  putchar('"');
}

static void tell_files(struct kefs_image *image) {
  for (unsigned f = 0; f < entries_of(&image->layout); f++) {
    struct file file;
    const char *why;
    if (read_entry(image, f, &file, &why) != KEFS_OK || !file.present) continue;
    printf("file %u", f);
    tell_name(image, f);
    printf(": %lu bytes, %lu pages", (unsigned long)file.length, (unsigned long)pages_of(file.length));
    for (unsigned i = 0; i < file.extent_count; i++) printf("%s from home %lu on", i == 0 ? "" : ",", (unsigned long)file.extents[i].first);
    printf("%s\n", file.read_only ? ", read-only" : "");
  }
}

static void tell_journal(struct kefs_image *image) {
  const struct layout *layout = &image->layout;
  unsigned long pages = count_of_map(image);
  int is_open = has_open_gate(image);
  if (layout->blocks > 0) printf("pool: map %d of two, %lu pages in %lu slots\n", is_open, (unsigned long)image_places(image)->count, (unsigned long)places_of(layout));
  else if (layout->maps[0] != 0) printf("journal: %d of two, %lu pages\n", is_open, pages);
  else if (is_open) printf("journal: open, %lu pages\n", pages);
  else printf("journal: closed\n");
}

/* Of layout 4: homes of no file, which files that grow get. */
static unsigned long long count_free(struct kefs_image *image) {
  unsigned long long used = image->layout.directory_pages;
  for (unsigned f = 0; f < entries_of(&image->layout); f++) {
    struct file file;
    const char *why;
    if (read_entry(image, f, &file, &why) != KEFS_OK) continue;
    for (unsigned i = 0; i < file.extent_count; i++) used += file.extents[i].count;
  }
  return used < home_pages(image) ? home_pages(image) - used : 0;
}

static void tell_image(struct kefs_image *image) {
  struct stat there;
  if (fstat(image->fd, &there) == 0)
    printf("size: %llu bytes, of which %llu have room on the device\n", (unsigned long long)there.st_size, (unsigned long long)there.st_blocks * 512);
  if (image->sectors < least_sectors(&image->layout) || !has_mark(image, image->layout.mark)) return;
  printf("layout: %lu, %llu pages", (unsigned long)image->layout.number, (unsigned long long)home_pages(image));
  if (image->layout.blocks > 0) printf(", %llu of them free, places for %u files", count_free(image), entries_of(&image->layout));
  printf("\n");
  tell_files(image);
  tell_journal(image);
}

/* Of a sound image the names, if it has any. What was copied of it has no page of a file yet. */
static int read_names(struct kefs_image *image) {
  const struct file *file = &image->files[0];
  int number = KEFS_OK;
  read_directory(image);
  for (size_t k = 0; k < pages_of(file->length) && k < MOST_DIRECTORY && number == KEFS_OK; k++) {
    size_t sector = standing_sector(image, home_of_page(file, k));
    number = read_all(image->fd, (void *)(uintptr_t)sector_at(image, sector), PAGE, (off_t)(SECTOR * sector));
  }
  return number == KEFS_OK ? begin_names(image) : fail(image, KEFS_DEVICE, "reading file 0: %s", kefs_strerror(number));
}

/* Whether a writer has it, so that what was read may be half made. */
static int is_in_use(const struct kefs_image *image) {
  if (flock(image->fd, LOCK_SH | LOCK_NB) == 0) return flock(image->fd, LOCK_UN), 0;
  int process = holder_of(image->fd);
  if (process == 0) printf("in use: yes\n");
  else printf("in use: by process %d\n", process);
  return 1;
}

static int tell(const char *path) {
  static struct kefs_image image;
  struct stat there;
  image.fd = open_high(path, O_RDONLY | O_CLOEXEC | O_NONBLOCK | O_NOCTTY, 0);
  if (image.fd < 0 || fstat(image.fd, &there) != 0) return failed(path, strerror(errno));
  if (!S_ISREG(there.st_mode)) return failed(path, "it is no regular file");
  image.sectors = (size_t)there.st_size / SECTOR;
  image.bytes = new_memory(mapped_bytes(image.sectors)); /* a mapping of the file would take room on a memory file system */
  if (image.bytes == NULL) return failed(path, strerror(ENOMEM));
  int result = read_kind(&image);
  if (result == KEFS_OK) result = make_rooms(&image);
  if (result == KEFS_OK) result = copy_head(&image);
  struct finding finding = result == KEFS_OK ? check_image(&image) : (struct finding){result, ""};
  if (result == KEFS_OK && finding.result == KEFS_OK) result = read_names(&image);
  if (result != KEFS_OK) return failed(path, kefs_errmsg(&image));
  tell_image(&image);
  if (is_in_use(&image)) return printf("would open: not now\n"), 1;
  if (finding.result == KEFS_OK) return printf("would open: yes\n"), 0;
  return printf("would open: no, %s: %s\n", kefs_name(finding.result), finding.words), 1;
}

/* Writing out */

static int write_file(kefs_image *image, const struct file *file) {
  static unsigned char page[PAGE];
  static char buffer[1 << 18];
  setvbuf(stdout, buffer, _IOFBF, sizeof buffer);
  for (uint64_t k = 0; k < pages_of(file->length); k++) {
    size_t more = file->length - k * PAGE < PAGE ? (size_t)(file->length - k * PAGE) : PAGE;
    copy_durable_page(image, home_of_page(file, k), page);
    if (fwrite(page, 1, more, stdout) != more) return failed("standard output", strerror(errno));
  }
  return fflush(stdout) == 0 ? 0 : failed("standard output", strerror(errno));
}

static int dump(const char *path, const char *word) {
  kefs_image *image;
  char *end;
  unsigned long number = strtoul(word, &end, 10);
  if (*word < '0' || *word > '9' || *end != 0) return fputs(USAGE, stderr), 2;
  int result = kefs_open(&image, path, KEFS_RDONLY | KEFS_NOWAIT);
  if (result != KEFS_OK) return failed(path, kefs_errmsg(NULL));
  int status = number >= KEFS_FILES || !has_number(&image->present, (unsigned)number) ? failed(path, "no such file") : write_file(image, &image->files[number]);
  kefs_close(image);
  return status;
}

/* Making anew */

static int upgrade(const char *old, const char *new) {
  kefs_image *image;
  struct stat there;
  int result = open_older(&image, old);
  if (result != KEFS_OK) return failed(old, kefs_errmsg(NULL));
  int status = 0;
  if (image->layout.number == 4) status = failed(old, "it has layout 4 already");
  else if (fstat(image->fd, &there) != 0) status = failed(old, strerror(errno));
  else if (kefs_backup(image, new, there.st_mode & 0777) != KEFS_OK) status = failed(new, kefs_errmsg(image));
  kefs_close(image);
  return status;
}

int main(int argc, char **argv) {
  if (argc == 4 && strcmp(argv[1], "dump") == 0) return dump(argv[2], argv[3]);
  if (argc == 4 && strcmp(argv[1], "upgrade") == 0) return upgrade(argv[2], argv[3]);
  if (argc == 2) return tell(argv[1]);
  return fputs(USAGE, stderr), 2;
}
