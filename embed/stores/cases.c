/* cases CASE FILE OTHER: makes calls on FILE that Python does not make, for test_kefsrun.py, which says what they have to leave. Each case has a line on standard
   output, or none. */
#define _GNU_SOURCE
#include <aio.h>
#include <errno.h>
#include <fcntl.h>
#include <linux/fs.h>
#include <pthread.h>
#include <setjmp.h>
#include <signal.h>
#include <stdint.h>
#include <stdio.h>
#include <stdlib.h>
#include <string.h>
#include <sys/ioctl.h>
#include <sys/mman.h>
#include <sys/stat.h>
#include <sys/time.h>
#include <sys/wait.h>
#include <unistd.h>

static const char *path, *other;

static void must(int is, const char *what) {
  if (is) return;
  perror(what);
  exit(1);
}

static int opened(const char *name) {
  int fd = open(name, O_RDWR | O_CREAT, 0600);
  must(fd >= 0, name);
  return fd;
}

static void put(int fd, const char *text, off_t at) { must(pwrite(fd, text, strlen(text), at) == (ssize_t)strlen(text), text); }

/* The number of a descriptor that was closed goes to another file, by calls of which fclose is one that no library sees. */
static void fclosed(void) {
  int fd = opened(path);
  put(fd, "the store's", 0);
  must(fclose(fdopen(fd, "r+")) == 0, "fclose");
  must(opened(other) == fd, "the same number");
  put(fd, "the other's", 0);
}

static void closed_by_the_system(void) {
  int fd = opened(path);
  put(fd, "the store's", 0);
  must(syscall(436, fd, fd, 0) == 0, "close_range"); /* its number in each architecture */
  must(opened(other) == fd, "the same number");
  put(fd, "the other's", 0);
}

/* A mapping that grows, as that of a hash. */
static void remapped(void) {
  int fd = opened(path);
  must(ftruncate(fd, 3 * 4096) == 0, "ftruncate");
  char *at = mmap(NULL, 4096, PROT_READ | PROT_WRITE, MAP_SHARED, fd, 0);
  must(at != MAP_FAILED, "mmap");
  strcpy(at, "begin");
  char *grown = mremap(at, 4096, 3 * 4096, MREMAP_MAYMOVE);
  must(grown != MAP_FAILED, "mremap");
  strcpy(grown + 2 * 4096, "end");
  must(fsync(fd) == 0, "fsync");
  char *place = mmap(NULL, 4096, PROT_NONE, MAP_PRIVATE | MAP_ANONYMOUS, -1, 0);
  int is_moved = mremap(grown, 4096, 4096, MREMAP_MAYMOVE | MREMAP_FIXED, place) != MAP_FAILED;
  printf("%s %s, moved: %d %d\n", grown, grown + 2 * 4096, is_moved, errno == ENOTSUP);
}

/* Threads that lengthen the file, each by every fourth of 64 words. */
static int shared_fd;
static pthread_barrier_t together;
static void *lengthen(void *first) {
  pthread_barrier_wait(&together);
  for (long word = (long)(intptr_t)first; word < 64; word += 4) put(shared_fd, "12345678", 8 * word);
  return NULL;
}

static void threads(void) {
  int wrong = 0;
  struct stat st;
  pthread_t thread[4];
  shared_fd = opened(path);
  pthread_barrier_init(&together, NULL, 4);
  for (int round = 0; round < 2000; round++) {
    must(ftruncate(shared_fd, 0) == 0, "ftruncate");
    for (long k = 0; k < 4; k++) must(pthread_create(&thread[k], NULL, lengthen, (void *)(intptr_t)k) == 0, "thread");
    for (int k = 0; k < 4; k++) pthread_join(thread[k], NULL);
    must(fstat(shared_fd, &st) == 0, "fstat");
    wrong += st.st_size != 8 * 64;
  }
  printf("wrong: %d\n", wrong);
}

/* Whether a byte of a mapping can be read: past the last page of its file that is a SIGBUS. */
static sigjmp_buf back;
static void go_back(int number) { siglongjmp(back, number); }
static int is_there(const volatile char *at) {
  signal(SIGBUS, go_back);
  return sigsetjmp(back, 1) == 0 ? (void)*at, 1 : 0;
}

/* A mapping of more than there is shows what the file gets, and what it loses is gone from it. */
static void past_the_end(void) {
  int fd = opened(path);
  must(ftruncate(fd, 5000) == 0, "ftruncate");
  char *at = mmap(NULL, 1 << 20, PROT_READ | PROT_WRITE, MAP_SHARED, fd, 0);
  must(at != MAP_FAILED, "mmap");
  printf("%d %d %d, ", is_there(at), is_there(at + 8191), is_there(at + 8192));
  put(fd, "pages on", 5 * 4096);
  printf("%s %d %d, ", at + 5 * 4096, is_there(at + 2 * 4096), is_there(at + 6 * 4096));
  strcpy(at + 3 * 4096, "stored");
  must(ftruncate(fd, 4096) == 0, "ftruncate");
  printf("%d %d, ", is_there(at), is_there(at + 4096));
  must(ftruncate(fd, 1 << 20) == 0, "ftruncate");
  printf("%d %d %d\n", at[3 * 4096], at[5 * 4096], is_there(at + (1 << 20) - 1));
}

/* As LMDB has it, whose map may be far larger than the file gets. */
static void mapped_widely(void) {
  int fd = opened(path);
  size_t most = (size_t)1 << 40;
  char *at = mmap(NULL, most, PROT_READ | PROT_WRITE, MAP_SHARED, fd, 0);
  must(at != MAP_FAILED, "mmap");
  put(fd, "bytes", 70000);
  strcpy(at + 100, "stored");
  must(msync(at, most, MS_SYNC) == 0, "msync");
  printf("%s %d %d %d\n", at + 70000, is_there(at + 73728), is_there(at + most / 2), is_there(at + most - 1));
  must(munmap(at, most) == 0, "munmap");
}

/* One thread cuts the file off, and others read and write it meanwhile. */
static void *use(void *first) {
  static const char zeros[3 * 4096];
  char bytes[3 * 4096];
  for (long k = (long)(intptr_t)first; k < 20000; k++) {
    off_t at = k * 2797 % (60 * 4096);
    if (k % 3 == 0) must(pwrite(shared_fd, zeros, sizeof zeros, at) == (ssize_t)sizeof zeros, "pwrite");
    else must(pread(shared_fd, bytes, sizeof bytes, at) >= 0, "pread");
  }
  return NULL;
}

static void cut_meanwhile(void) {
  pthread_t thread[2];
  shared_fd = opened(path);
  for (long k = 0; k < 2; k++) must(pthread_create(&thread[k], NULL, use, (void *)(intptr_t)k) == 0, "thread");
  for (long k = 0; k < 2000; k++) must(ftruncate(shared_fd, k * 4099 % (1 << 18)) == 0, "ftruncate");
  for (int k = 0; k < 2; k++) pthread_join(thread[k], NULL);
  must(ftruncate(shared_fd, 3) == 0 && fsync(shared_fd) == 0, "fsync");
  printf("whole\n");
}

/* A child of vfork has the memory of its parent, and descriptors of its own. */
static void vforked(void) {
  int fd = opened(path);
  pid_t child = vfork();
  if (child == 0) {
    close(fd);
    _exit(0);
  }
  must(waitpid(child, NULL, 0) == child, "waitpid");
  put(fd, "after", 0);
  must(fsync(fd) == 0, "fsync");
  kill(getpid(), SIGKILL);
}

static void written_stream(void) {
  FILE *stream = fopen(path, "w");
  must(stream != NULL && fputs("one, two", stream) >= 0 && fseek(stream, -3, SEEK_END) == 0 && fputs("three", stream) >= 0, "fopen w");
  must(fflush(stream) == 0 && fsync(fileno(stream)) == 0, "fsync");
  must(fputs(", not synced", stream) >= 0 && fflush(stream) == 0, "fputs");
  kill(getpid(), SIGKILL);
}

/* A stream that is still open at the end of the program. */
static void open_stream(void) {
  FILE *stream = fopen(path, "a");
  must(stream != NULL && fputs("at the end", stream) >= 0, "fopen a");
}

static void read_stream(void) {
  char line[64] = "";
  FILE *stream = fopen(path, "r");
  must(stream != NULL && fgets(line, sizeof line, stream) != NULL && fclose(stream) == 0, "fopen r");
  printf("%s", line);
}

static void reopened_stream(void) { printf("%d\n", freopen(path, "r", stdin) == NULL && errno == ENOTSUP); }

static void facts(void) {
  struct stat st;
  struct statx stx;
  put(opened(path), "12345", 0);
  must(fstatat(AT_FDCWD, path, &st, 0) == 0 && statx(AT_FDCWD, path, 0, STATX_SIZE, &stx) == 0, "stat");
  printf("%ld %ld %d\n", (long)st.st_size, (long)stx.stx_size, (int)st.st_blocks);
}

static void allocated(void) {
  int fd = opened(path);
  struct stat st;
  put(fd, "x", 0);
  must(posix_fallocate(fd, 0, 5000) == 0 && fallocate(fd, FALLOC_FL_KEEP_SIZE, 0, 9000) == 0 && fstat(fd, &st) == 0, "fallocate");
  int past = posix_fallocate(fd, 0, (1 << 16) + 1), flow = posix_fallocate(fd, INT64_MAX, 9);
  int hole = fallocate(fd, FALLOC_FL_PUNCH_HOLE | FALLOC_FL_KEEP_SIZE, 0, 1);
  printf("%ld %d %d %d\n", (long)st.st_size, past == EFBIG, flow == EFBIG, hole == -1 && errno == EOPNOTSUPP);
}

static void asynchronous(void) {
  struct aiocb job = {.aio_fildes = opened(path), .aio_buf = "lost", .aio_nbytes = 4};
  printf("%d\n", aio_write(&job) == -1 && errno == EOPNOTSUPP);
}

/* Some file systems would clone the empty file. */
static void cloned(void) {
  int to = opened(other), from = opened(path);
  struct file_clone_range range = {.src_fd = from};
  printf("%d %d\n", ioctl(to, FICLONE, from) == -1 && errno == EXDEV, ioctl(to, FICLONERANGE, &range) == -1 && errno == EXDEV);
}

static void called(void) {
  put(opened(path), "before exec", 0);
  execl("/bin/echo", "echo", "after", (char *)NULL);
}
static void ended(void) {
  put(opened(path), "before _exit", 0);
  _exit(0);
}
static void ended_quickly(void) {
  put(opened(path), "before quick_exit", 0);
  quick_exit(0);
}

/* A signal ends the program, mostly in the midst of a sync. */
static void end(int number) {
  (void)number;
  _exit(0);
}
static void interrupted(void) {
  int fd = opened(path);
  struct itimerval soon = {.it_value.tv_usec = 20000};
  put(fd, "whole", 0);
  must(fsync(fd) == 0, "fsync"); /* on a busy machine the first one may take longer than the time that is left to the others */
  signal(SIGALRM, end);
  must(setitimer(ITIMER_REAL, &soon, NULL) == 0, "setitimer");
  for (;;) {
    put(fd, "whole", 0);
    must(fsync(fd) == 0, "fsync");
  }
}

/* A file gets the name of the data file while the program has it in a stream of the C library, or mapped. */
static void end_or_be_killed(void) {
  if (getenv("CASE_KILLED") != NULL) kill(getpid(), SIGKILL);
}

static void show_data(void) {
  char bytes[64] = "";
  int fd = opened(path);
  must(read(fd, bytes, 63) >= 0, "read");
  printf("%s\n", bytes);
}

static void renamed_stream(void) {
  FILE *stream = fopen(other, "w");
  must(stream != NULL && fputs("begin", stream) >= 0 && fflush(stream) == 0 && fsync(fileno(stream)) == 0, "fopen w");
  must(rename(other, path) == 0, "rename");
  must(fputs(", end", stream) >= 0 && fflush(stream) == 0, "fputs");
  end_or_be_killed();
  must(fclose(stream) == 0, "fclose");
  show_data();
}

/* What the C library has of it is written when the program ends. */
static void renamed_open_stream(void) {
  FILE *stream = fopen(other, "w");
  must(stream != NULL && fputs("begin", stream) >= 0 && fflush(stream) == 0 && rename(other, path) == 0, "rename");
  must(fputs(", end", stream) >= 0, "fputs");
}

static void renamed_mapping(void) {
  int fd = opened(other);
  put(fd, "begin     ", 0);
  must(ftruncate(fd, 5) == 0, "ftruncate");
  char *at = mmap(NULL, 4096, PROT_READ | PROT_WRITE, MAP_SHARED, fd, 0);
  must(at != MAP_FAILED && rename(other, path) == 0, "rename");
  must(msync(at, 4096, MS_SYNC) == 0 && ftruncate(fd, 10) == 0, "msync");
  strcpy(at + 5, ", end");
  end_or_be_killed();
  must(msync(at, 4096, MS_SYNC) == 0, "msync");
  show_data();
}

/* Threads read and write by descriptors of their own, while the name goes from file to file: each descriptor stays at its file, which has one letter alone. */
static volatile int is_over;
static void *read_and_write(void *unused) {
  char bytes[64], letters[64];
  while (!is_over) {
    int fd = open(path, O_RDWR);
    if (fd < 0) continue;
    for (int k = 0; k < 20; k++) {
      ssize_t had = pread(fd, bytes, sizeof bytes, 0);
      memset(letters, had > 0 ? bytes[0] : 'x', sizeof letters);
      must(had == sizeof bytes && memcmp(bytes, letters, sizeof bytes) == 0, "one letter");
      must(pwrite(fd, letters, sizeof letters, k % 2 * 4096) == sizeof letters && lseek(fd, 0, SEEK_END) > 0, "pwrite");
    }
    must(close(fd) == 0, "close");
  }
  return unused;
}

static void make_file(const char *name, int letter) {
  char letters[64];
  memset(letters, letter, sizeof letters);
  int fd = opened(name);
  must(pwrite(fd, letters, sizeof letters, 0) == sizeof letters && close(fd) == 0, name);
}

static void renamed_meanwhile(void) {
  pthread_t thread[3];
  make_file(path, 'a');
  for (int k = 0; k < 3; k++) must(pthread_create(&thread[k], NULL, read_and_write, NULL) == 0, "thread");
  for (int k = 0; k < 60; k++) {
    make_file(other, 'b' + k % 20);
    must(rename(other, path) == 0, "rename");
    if (k % 5 == 0) must(rename(path, other) == 0 && rename(other, path) == 0, "rename back");
    if (k % 7 == 0) must(unlink(path) == 0, "unlink");
  }
  is_over = 1;
  for (int k = 0; k < 3; k++) pthread_join(thread[k], NULL);
  printf("whole\n");
}

static const struct { const char *name; void (*run)(void); } cases[] = {
  {"fclosed", fclosed}, {"closed_by_the_system", closed_by_the_system}, {"remapped", remapped}, {"threads", threads},
  {"past_the_end", past_the_end}, {"mapped_widely", mapped_widely}, {"cut_meanwhile", cut_meanwhile}, {"vforked", vforked},
  {"written_stream", written_stream}, {"open_stream", open_stream}, {"read_stream", read_stream}, {"reopened_stream", reopened_stream}, {"facts", facts},
  {"allocated", allocated}, {"asynchronous", asynchronous}, {"cloned", cloned}, {"called", called}, {"ended", ended}, {"ended_quickly", ended_quickly},
  {"interrupted", interrupted}, {"renamed_stream", renamed_stream}, {"renamed_open_stream", renamed_open_stream},
  {"renamed_mapping", renamed_mapping}, {"renamed_meanwhile", renamed_meanwhile},
};

int main(int count, char **words) {
  if (count != 4) return 2;
  path = words[2], other = words[3];
  for (size_t i = 0; i < sizeof cases / sizeof *cases; i++)
    if (strcmp(cases[i].name, words[1]) == 0) return cases[i].run(), 0;
  return 2;
}
