/* A file that was renamed to the data file while the program had it mapped, as where gdbm compacts its file, or in a stream of the C library, or while other threads
   may be in calls of it. The program goes on to read and write it by what is not answered here. So its bytes stay in it, with the data file's name; each sync looks
   at all of them, and brings those that differ into the memory of the data file, which it commits, until the program uses it no more. The image has a mark, so that
   they are not taken for bytes that went past this where the program is killed. */
#include "bridge.h"
#include <limits.h>
#include <string.h>
#include <sys/mman.h>
#include <unistd.h>

/* Whether a line of /proc/self/maps is of a file. Some file systems give another device or another number there than elsewhere. */
static int is_line_of(const char *line, const struct stat *st, const char *path) {
  unsigned long number = 0;
  int at = 0;
  if (sscanf(line, "%*x-%*x %*s %*x %*x:%*x %lu %n", &number, &at) != 1) return 0;
  size_t length = strlen(path);
  return number == st->st_ino || (at > 0 && strncmp(line + at, path, length) == 0 && line[at + (int)length] == '\n');
}

/* Where the system does not tell, there may be one. */
static int has_mapping(int fd, const struct stat *st) {
  char name[40], path[PATH_MAX + 1], line[PATH_MAX + 128];
  snprintf(name, sizeof name, "/proc/self/fd/%d", fd);
  ssize_t length = readlink(name, path, PATH_MAX);
  FILE *maps = NEXT(fopen)("/proc/self/maps", "re");
  int has = length <= 0 || maps == NULL;
  if (!has) path[length] = 0;
  while (!has && fgets(line, sizeof line, maps) != NULL) has = is_line_of(line, st, path);
  if (maps != NULL) fclose(maps);
  return has;
}

/* A thread may be in a call of it that has not begun yet. */
int is_to_lend(int fd) {
  struct stat st;
  return NEXT(fstat)(fd, &st) != 0 || has_mapping(fd, &st) || has_stream(&st) || (has_threads() && has_descriptor(&st, fd));
}

/* Stores the pages that differ. */
static void store_changed(unsigned char *to, const unsigned char *from, size_t bytes) {
  for (size_t at = 0; at < bytes; at += KEFS_PAGE) {
    size_t part = bytes - at < KEFS_PAGE ? bytes - at : KEFS_PAGE;
    if (memcmp(to + at, from + at, part) != 0) memcpy(to + at, from + at, part);
  }
}

static int bring(int fd) {
  static unsigned char part[1 << 18];
  struct stat st;
  if (NEXT(fstat)(fd, &st) != 0 || resize(st.st_size) != 0) return -1;
  ssize_t read = 1;
  for (off_t at = 0; at < st.st_size && read > 0; at += read) {
    size_t most = st.st_size - at < (off_t)sizeof part ? (size_t)(st.st_size - at) : sizeof part;
    if ((read = NEXT(pread)(fd, part, most, at)) < 0) return -1;
    store_changed(data.base + at, part, (size_t)read);
  }
  return 0;
}

static int bring_locked(void) {
  int fd = NEXT(open)(data_path(), O_RDONLY | O_CLOEXEC);
  if (fd < 0) return -1;
  int result = is_stand_in(fd) ? bring(fd) : fail(ESTALE), number = errno;
  NEXT(close)(fd);
  return result == 0 ? 0 : fail(number);
}

int bring_lent(void) {
  pthread_mutex_lock(&lock);
  int result = data.is_lent ? bring_locked() : 0;
  pthread_mutex_unlock(&lock);
  return result;
}

/* Where the program uses it still, as at its end, another file becomes the stand-in. */
static int give_back(int fd, int is_over) {
  struct stat st;
  int is_used = NEXT(fstat)(fd, &st) != 0 || has_mapping(fd, &st) || has_stream(&st) || has_descriptor(&st, fd);
  if (is_used) return is_over ? replace_stand_in() : -1;
  return NEXT(ftruncate)(fd, 0) == 0 ? NEXT(fsync)(fd) : -1;
}

static int end_locked(int is_over) {
  int fd = NEXT(open)(data_path(), O_RDWR | O_CLOEXEC);
  if (fd < 0) return -1;
  int result = is_stand_in(fd) ? give_back(fd, is_over) : -1;
  NEXT(close)(fd);
  return result;
}

/* The commit that comes next removes the mark. */
void end_lent(int is_over) {
  pthread_mutex_lock(&lock);
  is_changing++;
  if (data.is_lent && end_locked(is_over) == 0) {
    data.is_lent = 0;
    forget_files();
    if (is_over) commit();
  }
  is_changing--;
  pthread_mutex_unlock(&lock);
}
