/* Files of the host, where the data file's name goes to another one while the program has the data file open. */
#include "bridge.h"
#include <ctype.h>
#include <dirent.h>
#include <limits.h>
#include <stdlib.h>
#include <string.h>
#include <unistd.h>

_Static_assert(sizeof ((struct aside *)0)->other == PATH_MAX, "it has room for any path");

void folder_of(const char *name, char path[PATH_MAX]) {
  const char *slash = strrchr(name, '/');
  size_t length = slash == NULL ? 0 : slash == name ? 1 : (size_t)(slash - name);
  snprintf(path, PATH_MAX, "%.*s", length == 0 ? 1 : (int)length, length == 0 ? "." : name);
}

int sync_folder(int folder, const char *name, int fd) {
  char path[PATH_MAX];
  folder_of(name, path);
  int at = NEXT(openat)(folder, path, O_RDONLY | O_DIRECTORY | O_CLOEXEC);
  if (at < 0) return errno == EACCES ? NEXT(syncfs)(fd) : -1;
  int result = NEXT(fsync)(at), number = errno;
  NEXT(close)(at);
  return result == 0 ? 0 : fail(number);
}

/* What the program has */

/* Where the system does not tell, there may be one. */
int has_descriptor(const struct stat *st, int besides) {
  DIR *folder = opendir("/proc/self/fd");
  struct stat it;
  int has = folder == NULL;
  for (struct dirent *entry; !has && (entry = readdir(folder)) != NULL;) {
    int fd = atoi(entry->d_name);
    has = isdigit((unsigned char)*entry->d_name) && fd != besides && NEXT(fstat)(fd, &it) == 0 && it.st_ino == st->st_ino && it.st_dev == st->st_dev;
  }
  if (folder != NULL) closedir(folder);
  return has;
}

int is_in_use(void) { return data.in_use > 0 || has_stand_in_open(); }

/* The folder of threads has a link for each. */
int has_threads(void) {
  struct stat st;
  return NEXT(stat)("/proc/self/task", &st) != 0 || st.st_nlink != 3;
}

/* Putting aside */

/* An empty file that is as another one in all else. Who has the image has this name: one that is there is of a process that was killed, and had this one's number. */
static int make_empty(int folder, const char *name, const struct stat *as) {
  NEXT(unlinkat)(folder, name, 0);
  int fd = NEXT(openat)(folder, name, O_WRONLY | O_CREAT | O_EXCL | O_CLOEXEC, 0600);
  if (fd < 0) return -1;
  int is_owned = fchown(fd, as->st_uid, as->st_gid) == 0;
  fchmod(fd, as->st_mode & (is_owned ? 07777 : 0777));
  return NEXT(close)(fd);
}

static int name_aside(const char *name, char other[PATH_MAX]) {
  return snprintf(other, PATH_MAX, "%s.kefsrun-%d", name, (int)getpid()) < PATH_MAX ? 0 : fail(ENAMETOOLONG);
}

static int exchange(struct aside *aside, const struct stat *st) {
  if (name_aside(aside->name, aside->other) != 0 || make_empty(aside->folder, aside->other, st) != 0) return -1;
  if (NEXT(renameat2)(aside->folder, aside->other, aside->folder, aside->name, RENAME_EXCHANGE) == 0) return 0;
  int number = errno;
  NEXT(unlinkat)(aside->folder, aside->other, 0);
  return number == EINVAL || number == ENOSYS ? refuse("a file system that exchanges no names", EBUSY) : fail(number);
}

/* The file is as old as it was. */
static int write_bytes(int fd, const struct stat *st) {
  ssize_t written;
  for (uint64_t at = 0; at < *data.length; at += (uint64_t)written)
    if ((written = NEXT(pwrite)(fd, data.base + at, *data.length - at, (off_t)at)) < 0) return -1;
  return futimens(fd, (struct timespec[]){st->st_atim, st->st_mtim});
}

/* A thread that stores to the mapping meanwhile could store what is copied already. The exchange is durable before there are bytes: they never have the name of an empty file
   that was the stand-in. */
int put_aside(struct aside *aside, int folder, const char *name) {
  struct stat st;
  *aside = (struct aside){-1, folder, name, ""};
  if (data.in_use > 0 && data.is_stored_to && has_threads()) return refuse("it is mapped to write, and another thread may store to it", EBUSY);
  int fd = NEXT(openat)(folder, name, O_RDWR | O_NOFOLLOW | O_CLOEXEC);
  if (fd < 0) return errno == EACCES ? refuse("it is open, and its bytes may not be written to a file that was it", EACCES) : -1;
  if (NEXT(fstat)(fd, &st) != 0 || exchange(aside, &st) != 0) {
    int number = errno;
    NEXT(close)(fd);
    return fail(number);
  }
  aside->fd = fd;
  if (sync_folder(folder, name, fd) == 0 && (data.is_lent || write_bytes(fd, &st) == 0)) return 0;
  int number = errno;
  take_back(aside);
  return fail(number);
}

void take_back(const struct aside *aside) {
  if (aside->fd < 0) return;
  if (!data.is_lent) NEXT(ftruncate)(aside->fd, 0);
  NEXT(renameat)(aside->folder, aside->other, aside->folder, aside->name);
  NEXT(close)(aside->fd);
}

void end_aside(const struct aside *aside) {
  if (aside->fd < 0) return;
  if (*aside->other != 0) NEXT(unlinkat)(aside->folder, aside->other, 0);
  NEXT(close)(aside->fd);
}

int replace_stand_in(void) {
  struct stat st;
  char other[PATH_MAX];
  if (NEXT(stat)(data_path(), &st) != 0 || name_aside(data_path(), other) != 0 || make_empty(AT_FDCWD, other, &st) != 0) return -1;
  if (NEXT(rename)(other, data_path()) != 0 || NEXT(stat)(data_path(), &st) != 0) return -1;
  set_stand_in(&st);
  return 0;
}
