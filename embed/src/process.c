/* What belongs to the whole process: a lock, a number that a child of fork has not, and which handles are open. */
#define _GNU_SOURCE
#include "internal.h"
#include <errno.h>
#include <sys/mman.h>
#include <sys/stat.h>

static pthread_mutex_t process_lock = PTHREAD_MUTEX_INITIALIZER;

void lock_process(void) { pthread_mutex_lock(&process_lock); }
void unlock_process(void) { pthread_mutex_unlock(&process_lock); }

/* The number stands in memory that reads as zero in a child, which so finds that what it inherited is not its own; that holds
   of a child made by clone(2) too, where no handler of pthread_atfork runs. A process id would not do: a later process may
   have it again. */
static uint64_t *generation_now;

static int make_generation(void) {
  uint64_t *at = mmap(NULL, PAGE, PROT_READ | PROT_WRITE, MAP_PRIVATE | MAP_ANONYMOUS, -1, 0);
  if (at == MAP_FAILED) return ENOMEM;
  if (madvise(at, PAGE, MADV_WIPEONFORK) != 0) return munmap(at, PAGE), ENOMEM;
  /* A child forked while another thread holds the lock would find it held for ever. */
  pthread_atfork(lock_process, unlock_process, unlock_process);
  generation_now = at;
  return KEFS_OK;
}

int this_generation(uint64_t *generation) {
  static uint64_t last;
  lock_process();
  int number = generation_now == NULL ? make_generation() : KEFS_OK;
  if (number == KEFS_OK) {
    if (*generation_now == 0) *generation_now = ++last;
    *generation = *generation_now;
  }
  unlock_process();
  return number;
}

int is_of_parent(uint64_t generation) { return generation != *generation_now; }
int is_forked(const struct kefs_image *image) { return is_of_parent(image->generation); }

/* Handles. A handle of a parent process is no owner in its child. */

static struct kefs_image *handles;

/* A number that no thread before had: a pthread_t goes to another thread when one has ended. */
static uint64_t this_thread(void) {
  static _Thread_local uint64_t number;
  static uint64_t last;
  if (number == 0) number = __atomic_add_fetch(&last, 1, __ATOMIC_SEQ_CST);
  return number;
}

void add_owner(struct kefs_image *image) {
  struct stat facts = {0};
  fstat(image->fd, &facts);
  lock_process();
  image->owner = (struct owner){facts.st_dev, facts.st_ino, this_thread(), handles};
  handles = image;
  unlock_process();
}

void remove_owner(struct kefs_image *image) {
  lock_process();
  for (struct kefs_image **it = &handles; *it != NULL; it = &(*it)->owner.next)
    if (*it == image) {
      *it = image->owner.next;
      break;
    }
  unlock_process();
}

int is_own(int fd) {
  struct stat facts;
  int found = 0;
  if (fstat(fd, &facts) != 0) return 0;
  lock_process();
  for (const struct kefs_image *it = handles; it != NULL && !found; it = it->owner.next)
    found = it->owner.device == facts.st_dev && it->owner.number == facts.st_ino && it->owner.thread == this_thread() && !is_forked(it);
  unlock_process();
  return found;
}
