/* What the test programs share: images of the layout that the environment's LAYOUT says, 2 or, where it is not there, 4. kefs_format makes those of
   layout 4. One of layout 2 is made of such a one by docs/FORMATS.md alone, and without the library. */
#ifndef KEFS_TESTS_H
#define KEFS_TESTS_H
#include "kefs.h"
#include <fcntl.h>
#include <stdio.h>
#include <stdlib.h>
#include <string.h>
#include <sys/stat.h>
#include <unistd.h>

static const uint64_t LONGEST = (uint64_t)1 << 42; /* bytes of a file at most */

/* Of a new image of layout 4: the blocks of a map, the pages of the directory, and the sectors before its homes. */
enum { MAP_BLOCKS = 4, DIRECTORY_PAGES = 4, POOL_FRONT = 16 + 8080 * MAP_BLOCKS, BODY_PAGES = 504 * MAP_BLOCKS };

/* The sectors of directory, gate, map of the journal that an open gate names (of layout 4 the block of it that says how many count), and the first home of a file; how
   many syncs a commit takes after another one, and how many pages every one may take; and what an opening writes and how often it syncs where the journal or pool has a page,
   besides pages, and whether it writes these home. */
struct sectors { long directory, gate, map, homes; unsigned long syncs, most, opening_bytes, opening_syncs; int copies; };
static const struct sectors SECTORS_2 = {1, 2, 3, 8195, 4, 1023, 512, 2, 1},
                            SECTORS_4 = {POOL_FRONT, 8, 16 + 4040 * MAP_BLOCKS + 8 * (MAP_BLOCKS - 1), POOL_FRONT + 8 * DIRECTORY_PAGES, 2, 2 * BODY_PAGES, 4096 + 512, 2, 0};

static inline int image_layout(void) {
  const char *word = getenv("LAYOUT");
  return word == NULL ? 4 : atoi(word);
}

static inline const struct sectors *sectors_of(int layout) { return layout == 2 ? &SECTORS_2 : &SECTORS_4; }
static inline const struct sectors *image_sectors(void) { return sectors_of(image_layout()); }

static inline int is_zeros(const char *bytes, size_t length) { return bytes[0] == 0 && memcmp(bytes, bytes + 1, length - 1) == 0; }

static inline void must_move(ssize_t moved, size_t length, const char *path) {
  if (moved != (ssize_t)length) perror(path), exit(1);
}

/* Copies `length` bytes of a file to another place of another one that holds zeros. */
static inline void copy_bytes(int from, off_t at, int to, off_t there, off_t length, const char *path) {
  static char bytes[KEFS_PAGE];
  for (off_t done = 0; done < length; done += (off_t)sizeof bytes) {
    size_t part = length - done < (off_t)sizeof bytes ? (size_t)(length - done) : sizeof bytes;
    must_move(pread(from, bytes, part, at + done), part, path);
    if (!is_zeros(bytes, part)) must_move(pwrite(to, bytes, part, there + done), part, path);
  }
}

/* The directory of layout 2, of entries of eight bytes, of that of layout 4, where the homes of files follow each other. */
static inline void put_older_directory(int from, int to, off_t at, const char *path) {
  static unsigned char entries[64][256], older[512];
  unsigned home = 0;
  must_move(pread(from, entries, sizeof entries, 512 * SECTORS_4.directory), sizeof entries, path);
  memset(older, 0, sizeof older);
  for (int f = 0; f < 64; f++) {
    unsigned flags = entries[f][0], length = 0, word = 0;
    memcpy(&length, entries[f] + 8, 4);
    if (flags != 0) word = 1u << 31 | (flags == 3 ? 1u << 30 : 0) | home;
    memcpy(older + 8 * f, &word, 4), memcpy(older + 8 * f + 4, &length, 4);
    home += length / KEFS_PAGE + (length % KEFS_PAGE != 0);
  }
  must_move(pwrite(to, older, sizeof older, at), sizeof older, path);
}

static inline void put_mark(int to, const char *eight, const char *path) {
  char mark[512];
  for (size_t i = 0; i < sizeof mark; i += 8) memcpy(mark + i, eight, 8);
  must_move(pwrite(to, mark, sizeof mark, 0), sizeof mark, path);
}

/* Puts an image of layout 2 in the place of a new one of layout 4: as sparse as that, or with room for all. */
static inline void make_older(const char *path) {
  char older[256];
  struct stat there;
  const struct sectors *sectors = &SECTORS_2;
  snprintf(older, sizeof older, "%s.older", path);
  int from = open(path, O_RDONLY | O_CLOEXEC), to = open(older, O_RDWR | O_CREAT | O_TRUNC | O_CLOEXEC, 0600);
  if (from < 0 || to < 0 || fstat(from, &there) != 0) perror(path), exit(1);
  off_t homes = there.st_size - 512 * SECTORS_4.homes;
  if (ftruncate(to, 512 * sectors->homes + homes) != 0 || fchmod(to, there.st_mode) != 0) perror(older), exit(1);
  if (there.st_blocks * 512 >= there.st_size) (void)!fallocate(to, 0, 0, 512 * sectors->homes + homes);
  put_older_directory(from, to, 512 * sectors->directory, older);
  copy_bytes(from, 512 * SECTORS_4.homes, to, 512 * sectors->homes, homes, path);
  put_mark(to, "FAMSYNC2", older);
  if (close(from) != 0 || close(to) != 0 || rename(older, path) != 0) perror(older), exit(1);
}

/* kefs_format, of that layout. */
static inline int format_image(const char *path, unsigned permissions, const struct kefs_file *files, size_t count) {
  int result = kefs_format(path, permissions, files, count);
  if (result == KEFS_OK && image_layout() != 4) make_older(path);
  return result;
}
#endif
