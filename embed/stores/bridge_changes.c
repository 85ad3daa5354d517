/* The data file comes, goes and is replaced: what becomes of the image. Each of these is one commit, after which the change is durable; and what counts for nothing
   from then on, as the data file before, is removed by the commit after it. So whatever fails can be taken back.

   A commit of a range takes the files that come and go where the range has a byte of a new file. So each of these makes a file that is a mark, of which nothing else
   is asked: it takes no page that the program has stored to. */
#include "bridge.h"
#include <stdlib.h>
#include <sys/mman.h>
#include <unistd.h>

int is_new_data;

static unsigned last_mark; /* that was made durable */

/* The last mark may be there still, and a commit be lacking that takes that the one before is gone: then the third one is free. */
static int add_mark(unsigned *mark) {
  int result = EBUSY;
  for (*mark = MARK_FILE; *mark < MARKS_END; ++*mark) {
    result = kefs_add_file(image, *mark, 0);
    if (result != EBUSY && result != EEXIST) break;
  }
  return result;
}

static int commit_mark(unsigned mark) {
  void *at;
  int result = kefs_map_growing(image, mark, NULL, KEFS_PAGE, &at, NULL);
  return result == KEFS_OK ? kefs_commit(image, &(struct kefs_range){at, 1}, 1, NULL) : result;
}

/* Makes durable which files there are: 0, or -1 and errno. */
static int commit_files(void) {
  unsigned mark;
  if (told(add_mark(&mark)) != 0) return -1;
  int result = told(commit_mark(mark)), number = errno;
  kefs_unmap(image, mark);
  if (result == 0) return last_mark = mark, is_new_data = 0, 0;
  kefs_remove_file(image, mark);
  return fail(number);
}

/* What it says of the image that failed was told. */
static int undo(unsigned file, int number) {
  kefs_remove_file(image, file);
  return fail(number);
}

/* A lent file needs its mark: the stand-in has bytes. */
void forget_files(void) {
  size_t length;
  for (unsigned file = 0; file < MARKS_END && contents.kept == NULL; file++) {
    int is_kept = file == LIMIT_FILE || (contents.is_there && file == contents.number) || (data.is_lent && file == last_mark);
    if (!is_kept && kefs_length(image, file, &length) == KEFS_OK) kefs_remove_file(image, file);
  }
}

/* Coming */

int create_data(void) {
  pthread_rwlock_wrlock(&changing);
  int result = told(kefs_add_file(image, next_number(contents.number), 0));
  if (result == 0) contents.number = next_number(contents.number), contents.length = 0, contents.is_there = is_new_data = 1;
  pthread_rwlock_unlock(&changing);
  return result;
}

/* Reads a file of the host: 0, or -1 and errno. Where it has become shorter meanwhile the rest is zeros. */
static int read_bytes(int from, unsigned char *to, uint64_t length) {
  ssize_t read = 1;
  for (uint64_t at = 0; at < length && read > 0; at += (uint64_t)read)
    if ((read = NEXT(pread)(from, to + at, length - at, (off_t)at)) < 0) return -1;
  return 0;
}

static int stage_locked(struct data *next, unsigned number, int from, uint64_t length) {
  *next = (struct data){.most = contents.most, .grows = 1};
  int result = told(kefs_add_file(image, number, length));
  if (result != 0) return -1;
  if (told(map_bytes(number, next)) == 0 && read_bytes(from, next->base, length) == 0 && commit_files() == 0) return 0;
  int kept = errno;
  unmap_data(number, next);
  return undo(number, kept);
}

/* No other commit may take it before it is whole. */
int stage_data(struct data *next, int from, uint64_t length) {
  pthread_rwlock_wrlock(&changing);
  int result = stage_locked(next, next_number(contents.number), from, length);
  pthread_rwlock_unlock(&changing);
  return result;
}

int unstage_data(const struct data *next) {
  unsigned number = next_number(contents.number);
  unmap_data(number, next);
  kefs_remove_file(image, number);
  return commit_files();
}

void take_staged(void) { contents.number = next_number(contents.number), contents.is_there = 1; }

/* Going */

/* One that never was durable goes with the memory. */
int remove_data(void) {
  if (is_new_data) return 0;
  int result = told(kefs_add_file(image, GONE_FILE, 0));
  if (result != 0) return -1;
  return commit_files() == 0 ? 0 : undo(GONE_FILE, errno);
}

int restore_data(void) {
  if (is_new_data) return 0;
  kefs_remove_file(image, GONE_FILE);
  return commit_files();
}

/* Of one that never was durable the number is free: the next one is to have it. */
void take_removed(void) {
  kefs_remove_file(image, contents.number);
  if (is_new_data) contents.number = next_number(next_number(contents.number));
  contents.is_there = is_new_data = 0;
}

/* Memory */

void unmap_data(unsigned number, const struct data *of) {
  if (of->base == NULL || kefs_unmap(image, number) != KEFS_OK) return;
  if (of->room > of->kept) NEXT(munmap)(of->base + of->kept, of->room - of->kept);
}

/* Mappings that the program had of what was the data file then. Those that were of the same bytes have the same addresses, until the last of them goes. */
struct former { unsigned char *base; size_t bytes, in_use; struct former *next; };
static struct former *formers;

static struct former **find_former(const void *at) {
  struct former **it = &formers;
  while (*it != NULL && ((unsigned char *)at < (*it)->base || (unsigned char *)at >= (*it)->base + (*it)->bytes)) it = &(*it)->next;
  return it;
}

/* Without memory for it the last one stays mapped for good, as the first one that goes would take it along. */
static void add_former(const struct data *of, size_t bytes) {
  struct former *former = malloc(sizeof *former);
  if (former == NULL) return;
  *former = (struct former){of->base, bytes, of->in_use, formers};
  formers = former;
}

/* The memory that goes with so many bytes of mappings of it: all of it, or none. */
static size_t take_former(struct former **at, size_t bytes, void **base) {
  struct former *former = *at;
  size_t pages = (bytes + KEFS_PAGE - 1) / KEFS_PAGE * KEFS_PAGE, gone = 0;
  former->in_use -= pages < former->in_use ? pages : former->in_use;
  if (former->in_use > 0) return 0;
  *base = former->base, gone = former->bytes, *at = former->next;
  free(former);
  return gone;
}

int unmap_former(const void *at, size_t bytes) {
  void *base = NULL;
  if (__atomic_load_n(&formers, __ATOMIC_SEQ_CST) == NULL) return 0;
  pthread_mutex_lock(&lock);
  struct former **found = find_former(at);
  int is_former = *found != NULL;
  size_t gone = is_former ? take_former(found, bytes, &base) : 0;
  if (gone > 0) NEXT(munmap)(base, gone);
  pthread_mutex_unlock(&lock);
  return is_former;
}

/* One that is the only one is the system's. */
int is_shared_former(const void *at, size_t bytes) {
  if (__atomic_load_n(&formers, __ATOMIC_SEQ_CST) == NULL) return 0;
  pthread_mutex_lock(&lock);
  struct former **found = find_former(at), *former = *found;
  int is_shared = former != NULL && former->in_use > (bytes + KEFS_PAGE - 1) / KEFS_PAGE * KEFS_PAGE;
  if (former != NULL && !is_shared) *found = former->next, free(former);
  pthread_mutex_unlock(&lock);
  return is_shared;
}

/* The library takes its memory away by munmap, which leaves that of the data file where it is. Of a halted image it stays mapped. */
static void drop_locked(int fd) {
  struct data old = data;
  size_t used = fd >= 0 && old.in_use > 0 ? (old.end + KEFS_PAGE - 1) / KEFS_PAGE * KEFS_PAGE : 0;
  if (used > 0) NEXT(mmap)(old.base, used, PROT_READ | PROT_WRITE, MAP_SHARED | MAP_FIXED, fd, 0);
  if (old.base == NULL || kefs_unmap(image, contents.number) != KEFS_OK) return;
  set_data(&(struct data){0}, 0);
  if (used > 0) add_former(&old, used);
  if (old.room > used) NEXT(munmap)(old.base + used, old.room - used);
}

void drop_data(int fd) {
  pthread_rwlock_wrlock(&changing);
  drop_locked(fd);
  pthread_rwlock_unlock(&changing);
}
