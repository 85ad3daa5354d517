/* New files, which get their names when they are whole: a stop leaves the whole file or none. */
#define _GNU_SOURCE
#include "internal.h"
#include <errno.h>
#include <fcntl.h>
#include <libgen.h>
#include <stdio.h>
#include <stdlib.h>
#include <string.h>
#include <sys/stat.h>
#include <unistd.h>

/* The folder that a path lies in, or NULL. */
static char *folder_of(const char *path) {
  char *copy = strdup(path), *folder = copy == NULL ? NULL : strdup(dirname(copy));
  free(copy);
  return folder;
}

/* A file without a name in the folder of `path`, or -1 and errno. It gets its name by way of /proc. */
static int open_unnamed(const char *path, unsigned permissions) {
  char *folder = folder_of(path);
  if (folder == NULL) return errno = ENOMEM, -1;
  int fd = -1, has_proc = access("/proc/self/fd", X_OK) == 0;
  if (has_proc) fd = open_high(folder, O_TMPFILE | O_RDWR | O_CLOEXEC, (mode_t)permissions);
  int number = has_proc ? errno : EOPNOTSUPP;
  free(folder);
  errno = number;
  return fd;
}

static int has_no_unnamed(int number) { return number == EOPNOTSUPP || number == EISDIR || number == EINVAL || number == ENOENT; }

/* A file with a name of its own beside `path`. */
static int open_unfinished(struct new_file *file, unsigned permissions) {
  for (int number = 0;; number++) {
    if (asprintf(&file->unfinished, "%s.new-%d-%d", file->path, (int)getpid(), number) < 0) return file->unfinished = NULL, ENOMEM;
    file->fd = open_high(file->unfinished, O_RDWR | O_CREAT | O_EXCL | O_CLOEXEC, (mode_t)permissions);
    if (file->fd >= 0) return KEFS_OK;
    int found = errno;
    free(file->unfinished);
    file->unfinished = NULL;
    if (found != EEXIST || number > 1000) return found;
  }
}

/* What syncs a name in this path's folder: the folder's descriptor or, where it may be written to and not read, that of a file of its file system. */
struct name_sync { int folder, file; };

static int begin_sync(struct name_sync *sync, const char *path, int file) {
  char *folder = folder_of(path);
  if (folder == NULL) return ENOMEM;
  *sync = (struct name_sync){open_high(folder, O_RDONLY | O_DIRECTORY | O_CLOEXEC, 0), file};
  int number = sync->folder < 0 && errno != EACCES ? errno : KEFS_OK;
  free(folder);
  return number;
}

static int end_sync(const struct name_sync *sync, int is_wanted) {
  int number = !is_wanted || (sync->folder >= 0 ? fsync(sync->folder) : syncfs(sync->file)) == 0 ? KEFS_OK : errno;
  if (sync->folder >= 0) close(sync->folder);
  return number;
}

int sync_name(const char *path, int file) {
  struct name_sync sync;
  int number = begin_sync(&sync, path, file);
  return number == KEFS_OK ? end_sync(&sync, 1) : number;
}

int begin_file(struct new_file *file, const char *path, unsigned permissions) {
  struct stat there;
  if (permissions == 0) permissions = 0600; /* who may read an image may lock it too */
  *file = (struct new_file){path, NULL, -1};
  if (lstat(path, &there) == 0) return EEXIST;
  file->fd = open_unnamed(path, permissions);
  if (file->fd >= 0) return KEFS_OK;
  return has_no_unnamed(errno) ? open_unfinished(file, permissions) : errno;
}

/* A file system without hard links may be able to rename a file where nothing may be. */
static int name_unfinished(struct new_file *file) {
  if (link(file->unfinished, file->path) == 0) return KEFS_OK; /* end_file takes the other name away */
  if (errno != EPERM && errno != EOPNOTSUPP && errno != EMLINK && errno != ENOSYS) return errno;
  if (renameat2(AT_FDCWD, file->unfinished, AT_FDCWD, file->path, RENAME_NOREPLACE) != 0) return errno;
  free(file->unfinished);
  file->unfinished = NULL;
  return KEFS_OK;
}

static int name_unnamed(const struct new_file *file) {
  char place[40];
  snprintf(place, sizeof place, "/proc/self/fd/%d", file->fd);
  return linkat(AT_FDCWD, place, AT_FDCWD, file->path, AT_SYMLINK_FOLLOW) == 0 ? KEFS_OK : errno;
}

/* What can fail for another reason than the device comes before the name. From the name on another process may open the file and commit to it: so the name is
   never taken away again, whatever fails. */
int name_file(struct new_file *file) {
  struct name_sync sync;
  int number = begin_sync(&sync, file->path, file->fd);
  if (number != KEFS_OK) return number;
  number = file->unfinished == NULL ? name_unnamed(file) : name_unfinished(file);
  int synced = end_sync(&sync, number == KEFS_OK);
  return number == KEFS_OK ? synced : number;
}

void end_file(struct new_file *file) {
  if (file->unfinished != NULL) unlink(file->unfinished);
  free(file->unfinished);
  if (file->fd >= 0) close(file->fd);
  file->fd = -1;
}

int new_file_result(int number) { return number == EIO ? KEFS_DEVICE : number; }
