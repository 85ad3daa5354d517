/* kefsrun: runs a program on an image of libkefs in place of its one data file. The work is done by kefsrun.so (bridge.c and the
   files beside it), which stands beside this program and is preloaded; here are its options, what has to be so before it can begin, and clear words where it is not. */
#define _GNU_SOURCE
#include "bridge_contents.h"
#include <elf.h>
#include <errno.h>
#include <fcntl.h>
#include <libgen.h>
#include <limits.h>
#include <linux/filter.h>
#include <linux/seccomp.h>
#include <stddef.h>
#include <stdio.h>
#include <stdlib.h>
#include <string.h>
#include <sys/mman.h>
#include <sys/prctl.h>
#include <sys/stat.h>
#include <sys/syscall.h>
#include <unistd.h>

static const char usage[] =
  "usage: kefsrun [-v] [-j] [-c every|fsync|part] [-m LENGTH] [-i] IMAGE DATAFILE -- COMMAND [ARGUMENT...]\n"
  "\n"
  "Runs COMMAND, whose reads, writes and mappings of DATAFILE go to IMAGE. What COMMAND syncs becomes durable all at once:\n"
  "after a crash or a power cut IMAGE holds what one of its syncs left, the last one that returned or a later one.\n"
  "IMAGE is made where it is missing, and grows with the data file. DATAFILE is an empty file, for its name and its locks; it is made where it is missing, but not\n"
  "where COMMAND, in an earlier run, has removed it.\n"
  "\n"
  "  -m LENGTH  the IMAGE that is made is for a data file of at most LENGTH bytes (K, M, G, T: times 1,024), else as long as an image may have it. COMMAND\n"
  "             may map more, as LMDB, Kyoto Cabinet and Tokyo Cabinet do\n"
  "  -i         takes the bytes of DATAFILE into the IMAGE that is made, and keeps the file as DATAFILE.before\n"
  "  -c every   each msync, fsync and fdatasync is a commit (the default; for gdbm, and where nothing is known)\n"
  "  -c fsync   fsync and fdatasync alone: for a program that makes both of each sync, as Kyoto and Tokyo Cabinet\n"
  "  -c part    not an msync of the whole mapping: for LMDB with MDB_WRITEMAP, which syncs its root page after it\n"
  "  -j         COMMAND has a journal of its own, as SQLite: a sync of more pages than a commit takes is several commits\n"
  "  -v         says at the end how many commits there were\n"
  "\n"
  "COMMAND may be any program: a copy by tar or cp has the bytes of DATAFILE. It may unlink and rename DATAFILE, and rename another file to it, which is durable, with\n"
  "all bytes, when the call returns. A stop within may leave both files, or a DATAFILE.kefsrun-PID, which may be removed; and DATAFILE.left, where COMMAND had not synced\n"
  "what it wrote to a file that was mapped as it was renamed to DATAFILE. What can't be done to it, as a private mapping, is refused in a line. One process has IMAGE at a\n"
  "time, and a shell that redirects to or from DATAFILE is one; stat, unlink and rename alone hold nothing.\n"
  "\n"
  "A commit takes all pages of 4,096 bytes that DATAFILE has grown by, and 4,031 others, of an IMAGE that an older kefsrun made 1,023. With more it fails\n"
  "with E2BIG. An IMAGE that a much older kefsrun made does not grow: 'kefsrun OLD FILE -- cat FILE >COPY' writes it out, and -i takes COPY into a new one.\n"
  "COMMAND has to be linked dynamically. Its exit status is\n"
  "kefsrun's; 2 is a wrong word here, 125 another failure of kefsrun, 126 and 127 a COMMAND that cannot be run or is not there.\n";

/* `most`: how long the data file of an image that is made may get. */
struct options { const char *commit_at, *image, *data; uint64_t most; int is_verbose, is_import, has_journal; char **command; };

/* Says what failed and ends the program with status 125. */
_Noreturn static void quit(const char *what, const char *why) {
  fprintf(stderr, "kefsrun: %s: %s\n", what, why);
  exit(125);
}

/* Says how the program is called and ends it with status 2. */
_Noreturn static void misused(void) {
  fputs(usage, stderr);
  exit(2);
}

/* A number of bytes, as 4096, 64K, 16M, 1G. */
static uint64_t length_of(const char *text) {
  char *end;
  errno = 0;
  unsigned long long number = strtoull(text, &end, 10);
  int shift = *end == 'K' ? 10 : *end == 'M' ? 20 : *end == 'G' ? 30 : *end == 'T' ? 40 : 0;
  if (end == text || *text == '-' || errno != 0 || end[shift != 0] != 0 || number == 0 || number > LENGTH_MOST >> shift) quit(text, "no length that an image may have");
  return (uint64_t)number << shift;
}

static struct options options_of(int count, char **words) {
  struct options found = {.commit_at = "every", .most = LENGTH_MOST};
  for (int letter; (letter = getopt(count, words, "+c:ijm:v")) != -1;) {
    if (letter == 'c') found.commit_at = optarg;
    else if (letter == 'i') found.is_import = 1;
    else if (letter == 'j') found.has_journal = 1;
    else if (letter == 'm') found.most = length_of(optarg);
    else if (letter == 'v') found.is_verbose = 1;
    else misused();
  }
  if (strcmp(found.commit_at, "every") != 0 && strcmp(found.commit_at, "fsync") != 0 && strcmp(found.commit_at, "part") != 0) misused();
  if (count - optind < 4 || strcmp(words[optind + 2], "--") != 0) misused();
  found.image = words[optind], found.data = words[optind + 1], found.command = words + optind + 3;
  return found;
}

/* Makes the image of a data file that may get `most` bytes long and has `length` of them now, those at `bytes`. */
static void format(const char *path, uint64_t most, size_t length, const void *bytes) {
  struct kefs_file files[2] = {{.content = bytes}, {.length = sizeof most, .flags = KEFS_FILE_READ_ONLY, .content = &most}};
  files[0].length = length; /* of as many bits as the library has */
  int result = kefs_format(path, 0, files, 2);
  if (result != KEFS_OK) quit(path, kefs_strerror(result));
}

/* The data file's bytes, mapped to read; NULL where it has none. */
static unsigned char *map_data(const char *path, size_t length) {
  int fd = open(path, O_RDONLY | O_CLOEXEC);
  unsigned char *bytes = length == 0 ? NULL : mmap(NULL, length, PROT_READ, MAP_PRIVATE, fd, 0);
  if (fd < 0 || bytes == MAP_FAILED) quit(path, strerror(errno));
  close(fd);
  return bytes;
}

/* The other name of a data file whose bytes the image has. */
static void name_before(const char *data, char before[PATH_MAX]) {
  if (snprintf(before, PATH_MAX, "%s.before", data) >= PATH_MAX) quit(data, strerror(ENAMETOOLONG));
  if (access(before, F_OK) == 0) quit(before, strerror(EEXIST));
}

static void put_aside(const char *data) {
  char before[PATH_MAX];
  name_before(data, before);
  if (rename(data, before) != 0) quit(before, strerror(errno));
}

/* Makes the image of the bytes that the data file has. Only then the file gets its other name. */
static void import(const struct options *options, uint64_t length) {
  char before[PATH_MAX];
  if (length > options->most) quit(options->data, options->most < LENGTH_MOST ? "has more bytes than -m says" : "has more bytes than an image may have");
  name_before(options->data, before);
  unsigned char *bytes = map_data(options->data, (size_t)length);
  format(options->image, options->most, (size_t)length, bytes);
  if (bytes != NULL) munmap(bytes, (size_t)length);
  put_aside(options->data);
}

/* Looks at an image that is there: the result of the library. */
static int look_into(const char *path, kefs_image **image, struct contents *contents) {
  int result = kefs_open(image, path, KEFS_RDONLY | KEFS_NOWAIT);
  return result == KEFS_OK ? read_contents(*image, contents) : result;
}

/* Whether the image holds just the bytes that the data file has, as where an import was killed before it gave the file its other name; an image that is not finished
   has them at the end. */
static int holds_bytes(const struct options *options) {
  char path[PATH_MAX];
  kefs_image *image;
  struct contents contents;
  int result = look_into(options->image, &image, &contents), is_same = 0;
  if (image == NULL) quit(options->image, kefs_errmsg(NULL));
  if (result == KEFS_OK && contents.is_unfinished) {
    if (realpath(options->data, path) == NULL || settle_stand_in(image, &contents, path) < 0) quit(options->data, strerror(errno));
  } else if (result == KEFS_OK) {
    int fd = open(options->data, O_RDONLY | O_CLOEXEC);
    is_same = is_content(image, &contents, fd);
    close(fd);
  }
  kefs_close(image);
  return is_same;
}

static int is_empty(const char *data) {
  struct stat st;
  return stat(data, &st) == 0 && st.st_size == 0;
}

/* A data file with bytes is not the image's: they would be hidden, and taken for lost. Nothing is made before this is looked at. */
static void take_in(const struct options *options, uint64_t length) {
  int has_image = access(options->image, F_OK) == 0;
  if (!has_image && options->is_import) return import(options, length);
  if (!has_image) quit(options->data, "has bytes of its own; the image should have them, and this file be empty. -i takes them in; else move it away first");
  int is_same = holds_bytes(options);
  if (is_empty(options->data)) return;
  if (!is_same) quit(options->data, "has bytes of its own, and the image, which is there already, holds others: move one of the two away");
  if (options->is_import) return put_aside(options->data);
  quit(options->data, "has the bytes that the image has: -i was cut short, and the same words again end it");
}

static int are_same(const char *one, const char *other) {
  struct stat here, there;
  return stat(one, &here) == 0 && stat(other, &there) == 0 && here.st_ino == there.st_ino && here.st_dev == there.st_dev;
}

/* Whether both paths lead to one file, or would if it were there. */
static int are_one(const char *one, const char *other) {
  char folders[2][PATH_MAX], names[2][PATH_MAX];
  const char *paths[2] = {one, other};
  for (int i = 0; i < 2; i++) snprintf(folders[i], PATH_MAX, "%s", paths[i]), snprintf(names[i], PATH_MAX, "%s", paths[i]);
  return are_same(one, other) || (strcmp(basename(names[0]), basename(names[1])) == 0 && are_same(dirname(folders[0]), dirname(folders[1])));
}

/* The library would read the image by calls that it answers from the image. */
static void refuse_one_file(const struct options *options) {
  if (are_one(options->image, options->data)) quit(options->data, "is the image itself; the data file has a name of its own");
}

/* Sees to both files: the image holds the bytes, and the data file is empty. */
static void make_files(const struct options *options) {
  struct stat st = {0};
  refuse_one_file(options);
  int is_there = stat(options->data, &st) == 0;
  if (!is_there && errno != ENOENT) quit(options->data, strerror(errno));
  if (is_there && !S_ISREG(st.st_mode)) quit(options->data, S_ISDIR(st.st_mode) ? strerror(EISDIR) : "no regular file");
  int is_to_take = is_there && options->is_import && access(options->image, F_OK) != 0;
  if (st.st_size != 0 || is_to_take) take_in(options, (uint64_t)st.st_size);
  if (access(options->image, F_OK) != 0) {
    if (options->is_import && !is_there) quit(options->data, strerror(ENOENT));
    format(options->image, options->most, 0, NULL);
  }
}

/* A word of the environment that is an absolute path. Of a file that is not there, but its folder is, realpath gives the path that it would have. */
static void set_path(const char *name, const char *path) {
  char absolute[PATH_MAX], folder[PATH_MAX];
  snprintf(folder, PATH_MAX, "%s", path);
  if (realpath(path, absolute) == NULL && (errno != ENOENT || access(dirname(folder), F_OK) != 0)) quit(path, strerror(errno));
  setenv(name, absolute, 1);
}

static void make_empty(const char *path) {
  int fd = open(path, O_RDWR | O_CREAT | O_CLOEXEC, 0644);
  if (fd < 0) quit(path, strerror(errno));
  close(fd);
}

/* The data file is there, as an empty file, where the image has one; and is not where the image has none. Where another process has the image it sees to that. */
static void make_stand_in(const struct options *options) {
  kefs_image *image;
  struct contents contents;
  int result = look_into(options->image, &image, &contents), is_gone = result == KEFS_OK && !contents.is_there;
  if (!is_gone && result != KEFS_BUSY && access(options->data, F_OK) != 0) make_empty(options->data);
  set_path("KEFS_FILE", options->data);
  if (is_gone && is_empty(options->data)) unlink(getenv("KEFS_FILE"));
  kefs_close(image);
  refuse_one_file(options); /* by a link that led to nothing */
}

/* kefsrun.so, which stands beside this program, before what is preloaded already. */
static void preload(void) {
  char path[PATH_MAX + 16], list[2 * PATH_MAX];
  ssize_t length = readlink("/proc/self/exe", path, PATH_MAX);
  if (length <= 0) quit("/proc/self/exe", strerror(errno));
  path[length] = 0;
  strcpy(strrchr(path, '/'), "/kefsrun.so");
  if (access(path, R_OK) != 0) quit(path, strerror(errno));
  const char *others = getenv("LD_PRELOAD");
  if (snprintf(list, sizeof list, "%s%s%s", path, others == NULL ? "" : ":", others == NULL ? "" : others) >= (int)sizeof list) quit("LD_PRELOAD", "is too long");
  setenv("LD_PRELOAD", list, 1);
}

/* The file that execvp would run; "" where there is none. */
static void find_command(const char *name, char path[PATH_MAX]) {
  const char *folder = getenv("PATH"), *end;
  snprintf(path, PATH_MAX, "%s", name);
  if (strchr(name, '/') != NULL || folder == NULL) return;
  for (; *folder != 0; folder = *end == 0 ? end : end + 1) {
    end = strchrnul(folder, ':');
    snprintf(path, PATH_MAX, "%.*s/%s", (int)(end - folder), folder, name);
    if (access(path, X_OK) == 0) return;
  }
  *path = 0;
}

/* Whether a file is a program that no loader links: one of ELF without an interpreter. */
static int is_static(int fd) {
  Elf64_Ehdr head;
  Elf64_Phdr part;
  if (pread(fd, &head, sizeof head, 0) != sizeof head || memcmp(head.e_ident, ELFMAG, SELFMAG) != 0 || head.e_ident[EI_CLASS] != ELFCLASS64) return 0;
  for (int i = 0; i < head.e_phnum; i++) {
    if (pread(fd, &part, sizeof part, (off_t)(head.e_phoff + (size_t)i * head.e_phentsize)) != sizeof part) return 0;
    if (part.p_type == PT_INTERP) return 0;
  }
  return 1;
}

/* A program that would not load kefsrun.so would see the empty file, and no error. */
static void look_at_command(const char *name) {
  char path[PATH_MAX];
  find_command(name, path);
  int fd = open(path, O_RDONLY | O_CLOEXEC);
  if (fd < 0) return;
  if (is_static(fd)) quit(name, "is linked statically, so it would see the empty file");
  close(fd);
}

/* io_uring's reads and writes are made by the system itself: programs do without it where there is none. Systems without seccomp go on with it. For the filter no
   program may gain rights by exec, as sudo does; such a one would not load kefsrun.so. */
static void refuse_rings(void) {
  struct sock_filter rows[] = {
    BPF_STMT(BPF_LD | BPF_W | BPF_ABS, offsetof(struct seccomp_data, nr)),
    BPF_JUMP(BPF_JMP | BPF_JEQ | BPF_K, SYS_io_uring_setup, 0, 1),
    BPF_STMT(BPF_RET | BPF_K, SECCOMP_RET_ERRNO | ENOSYS),
    BPF_STMT(BPF_RET | BPF_K, SECCOMP_RET_ALLOW),
  };
  struct sock_fprog filter = {sizeof rows / sizeof *rows, rows};
  if (prctl(PR_SET_NO_NEW_PRIVS, 1, 0, 0, 0) == 0) prctl(PR_SET_SECCOMP, SECCOMP_MODE_FILTER, &filter);
}

int main(int count, char **words) {
  struct options options = options_of(count, words);
  look_at_command(options.command[0]);
  make_files(&options);
  make_stand_in(&options);
  set_path("KEFS_IMAGE", options.image);
  setenv("KEFS_COMMIT_AT", options.commit_at, 1);
  if (options.is_verbose) setenv("KEFS_VERBOSE", "1", 1);
  else unsetenv("KEFS_VERBOSE");
  if (options.has_journal) setenv("KEFS_PIECES", "1", 1);
  else unsetenv("KEFS_PIECES");
  preload();
  refuse_rings();
  execvp(options.command[0], options.command);
  int number = errno;
  fprintf(stderr, "kefsrun: %s: %s\n", options.command[0], strerror(number));
  return number == ENOENT ? 127 : 126;
}
