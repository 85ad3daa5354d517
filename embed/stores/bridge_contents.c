/* The files of an image by their numbers, and whether a file of the host has the same bytes. */
#define _GNU_SOURCE
#include "bridge_contents.h"
#include "next.h"
#include <errno.h>
#include <fcntl.h>
#include <limits.h>
#include <stdio.h>
#include <string.h>
#include <sys/stat.h>
#include <unistd.h>

unsigned next_number(unsigned number) { return number == 0 ? 2 : number == 2 ? 3 : 0; }

static int has_file(kefs_image *image, unsigned file) {
  size_t length;
  return kefs_length(image, file, &length) == KEFS_OK;
}

/* Finds the data file among its three numbers. No kefsrun leaves all of them. */
static int find_data(kefs_image *image, struct contents *to) {
  unsigned number = 0, files = 0;
  to->number = 3;
  do {
    files += (unsigned)has_file(image, number);
    if (has_file(image, number) && !has_file(image, next_number(number))) to->number = number;
    number = next_number(number);
  } while (number != 0);
  to->is_there = files > 0 && !has_file(image, GONE_FILE);
  for (unsigned mark = MARK_FILE; mark < MARKS_END; mark++) to->is_unfinished |= has_file(image, mark);
  return files < 3 ? KEFS_OK : KEFS_OTHER_FILES;
}

/* Takes what file 1 says. An older kefsrun gave the most that its library had where no limit was asked for. */
static void take_limit(struct contents *to, void *page, size_t bytes) {
  if (bytes == sizeof(uint32_t)) to->most = *(uint32_t *)page == UINT32_MAX ? LENGTH_MOST : *(uint32_t *)page;
  if (bytes == sizeof(uint64_t)) to->most = *(uint64_t *)page;
  if (bytes == KEFS_PAGE) to->kept = page, to->most = to->length, to->length = *to->kept;
  if (to->most > LENGTH_MOST) to->most = LENGTH_MOST;
}

int read_contents(kefs_image *image, struct contents *to) {
  void *page = NULL;
  size_t bytes = 0, length = 0;
  *to = (struct contents){0};
  int result = find_data(image, to);
  if (result == KEFS_OK && to->is_there) result = kefs_length(image, to->number, &length);
  if (result == KEFS_OK) result = kefs_map(image, LIMIT_FILE, NULL, &page, &bytes);
  if (result == KEFS_NO_FILE) return KEFS_OTHER_FILES;
  if (result != KEFS_OK) return result;
  to->length = length;
  take_limit(to, page, bytes);
  return to->most > 0 && to->length <= to->most ? KEFS_OK : KEFS_OTHER_FILES;
}

static int are_bytes(const unsigned char *bytes, uint64_t length, int fd) {
  static unsigned char part[1 << 16];
  for (uint64_t at = 0; at < length;) {
    ssize_t read = NEXT(pread)(fd, part, sizeof part, (off_t)at);
    if (read <= 0 || (uint64_t)read > length - at || memcmp(bytes + at, part, (size_t)read) != 0) return 0;
    at += (uint64_t)read;
  }
  return 1;
}

int is_content(kefs_image *image, const struct contents *of, int fd) {
  struct stat st;
  void *at;
  if (!of->is_there || NEXT(fstat)(fd, &st) != 0 || (uint64_t)st.st_size != of->length) return 0;
  if (kefs_map(image, of->number, NULL, &at, NULL) != KEFS_OK) return 0;
  int is_same = are_bytes(at, of->length, fd);
  if (at != NULL) kefs_unmap(image, of->number);
  return is_same;
}

/* Bytes that are not in the image stay, by another name. */
static int replace(const char *path, mode_t mode) {
  char other[PATH_MAX];
  if (snprintf(other, sizeof other, "%s.left", path) >= (int)sizeof other) return errno = ENAMETOOLONG, -1;
  if (NEXT(renameat2)(AT_FDCWD, path, AT_FDCWD, other, RENAME_NOREPLACE) != 0) return -1;
  fprintf(stderr, "kefsrun: %s: had bytes that the image has not, as a process that was killed leaves what it has not synced: they are %s now\n", path, other);
  int fd = NEXT(open)(path, O_WRONLY | O_CREAT | O_EXCL | O_CLOEXEC, mode & 0777);
  return fd < 0 ? -1 : (NEXT(close)(fd), 1);
}

int settle_stand_in(kefs_image *image, const struct contents *of, const char *path) {
  struct stat st;
  int fd = NEXT(open)(path, O_RDWR | O_CLOEXEC | O_NOFOLLOW | O_NONBLOCK), result = 0;
  if (fd < 0) return errno == ENOENT ? 0 : -1;
  if (NEXT(fstat)(fd, &st) == 0 && S_ISREG(st.st_mode) && st.st_size > 0)
    result = is_content(image, of, fd) ? NEXT(ftruncate)(fd, 0) : replace(path, st.st_mode);
  NEXT(close)(fd);
  return result;
}
