/* Readers beside a writer: snapshots of an image that one process has open to write.

   What a snapshot is. A copy of the used pages of the image in memory of the reader's own (a memfd), made by pread. The journal that the gate names
   is carried out there: the plan of famsync_open, which is proved to leave what the image stands for as it was at every call, and at its end each
   page in its home, is made of the copy, and never of the file. Of an image of layout 4 the copy is one with an empty pool: each page is put into its home
   there from where it stands in the file. kefs_map maps the homes of the copy to read. A refresh makes a private view of the
   copy, whose pages are the copy's until they are changed, reads into that, and brings the pages that differ over at its end: a refresh that fails
   has changed nothing.

   No reader maps the file. After a sync that failed the system keeps pages that the disk has not, and drops none that is mapped, or that a pread
   is just copying. So a writer's opening and kefs_recover wait for the turns of readers before they have the system drop what it keeps (settle). A reader whose
   turn is not over in a second has been stopped between two preads, each of 256 KiB at most, and holds no page: then they go on.

   When the file may be read. By locks of bytes that no file has (F_OFD_SETLK; they go with their process, and a child of fork shares them):
   - STATES, one byte, by the writer: while it is locked, the file is whole, as after a commit, and synced. It is let go before the first device
     call of a commit, and the next byte is locked before the commit returns; after an opening or a recovery it is one at random. What was read
     while one and the same byte was locked before and after is as after that commit. Where the writer fails, or is killed, none is locked.
   - Where none is, a reader looks whether another program that writes has flock(2), as those of older libraries have, and the answer is KEFS_BUSY where one
     has it. Then it syncs the file and drops what is cached, as every opening does, and what it reads counts where the file's time of change
     is the same after each turn as before the first: a reading begins only when that time is so long past that a later change has another one.
     It keeps no lock meanwhile, so that a reader that is stopped keeps nobody out.
   - NEXT, shared, by readers that wait for a turn: the writer begins no commit before they have it.
   - INTENT, by a writer that is about to commit or to open: no reader begins a turn then.
   - TURN, shared, by readers in their turn, which takes some megabytes: the writer waits for its end.
   - LISTS, by the writer: which homes each of its last commits changed, and which of these it gave to new pages of files that got longer.
   - DIRECTORY, by the writer: LISTS names pages of the directory, too. Where it is not locked the writer is of version 1.
   - INTEREST, shared, by readers from their first turn on: where none has it, LISTS names no home.
   That a snapshot is whole rests on the first two alone; the next three make waits short. A reader waits for the commit that is under way, and
   the writer for the turns that are. It waits for them a second at most, as for a reader that was stopped, and then goes on, and from then on in a tenth of the
   time at most until it finds none in the way; such a reader finds another byte of STATES, or another time of change, and reads again.

   What a lock says only a writer can have said: a read lock, which is all that a program without the right to write can have, is none of STATES or LISTS.

   What is read. Nothing where the byte of STATES is that of the snapshot, or where the file has the same time of change and it was long past when the
   snapshot was made; the journal that the gate names alone where it is the next byte, since its map names all that one commit has changed, and each other
   page is in the copy's home already, in whichever journal the file had it; that and the homes that LISTS names where it is one of the next REACH bytes; else
   all used pages. Of a pool, in place of a journal, it is the homes that its map gives another slot than before, as each has that the last commit took, and
   those of new pages, which LISTS names of the last commit too: they may get none, or keep one that they had. Where commits came between, a home may have the
   slot again that it had: then LISTS names it, or, where pages were copied home meanwhile, says that it does not name all. Between two turns of one reader
   there is mostly one commit, and its journal is read in the second one: so at the end of each turn the view is as after the newest commit, as far as it
   goes. The files of a turn are those of the directory of a pool, of which each turn reads the pages that have changed, or all where the writer does not name
   these and commits came between: what a file had read of it before stays read, since a page keeps its home for as long as the file has it, and LISTS names
   those that came. */
#define _GNU_SOURCE
#include "reading.h"
#include <errno.h>
#include <fcntl.h>
#include <string.h>
#include <sys/file.h>
#include <sys/random.h>
#include <unistd.h>

enum { PATIENCE = 1000, LITTLE_PATIENCE = 10, SELDOM = 10 }; /* milliseconds that a writer waits for readers; and the share of its time after a vain wait */

/* Locks */

static const off_t INTENT = (off_t)1 << 62, TURN = INTENT + 1, NEXT = INTENT + 2, INTEREST = INTENT + 3, DIRECTORY = INTENT + 4;
static const off_t LISTS = INTENT + ((off_t)1 << 60), STATES = INTENT + ((off_t)1 << 61);
enum { COUNT_BITS = 24, EPOCH_BITS = 32 }; /* of a place in STATES: an opening's random number, and how many commits there were since */
enum { REACH = 16, MOST_RUNS = 32 };       /* commits that LISTS names, and runs of neighbouring homes that one of them may have there */

static int set_locks(int fd, short type, off_t at, off_t length) {
  struct flock lock = {.l_type = type, .l_whence = SEEK_SET, .l_start = at, .l_len = length};
  return fcntl(fd, F_OFD_SETLK, &lock) == 0 ? KEFS_OK : errno;
}

static int set_lock(int fd, short type, off_t at) { return set_locks(fd, type, at, 1); }

/* The first bytes of these that another has locked against a lock of this type: where they begin, or 0, and how many they are. The system keeps the locks of one
   program in their order. */
static off_t locked_bytes(int fd, short type, off_t at, off_t length, off_t *count) {
  struct flock lock = {.l_type = type, .l_whence = SEEK_SET, .l_start = at, .l_len = length};
  if (fcntl(fd, F_OFD_GETLK, &lock) != 0 || lock.l_type == F_UNLCK) return 0;
  *count = lock.l_len;
  return lock.l_start;
}

static off_t locked_byte(int fd, short type, off_t at, off_t length) { return locked_bytes(fd, type, at, length, &(off_t){0}); }

static int is_free(int fd, off_t at) { return locked_byte(fd, F_WRLCK, at, 1) == 0; }

/* The byte that says which commit the file is as after, or 0: it may be half made, or a program that does not tell has the file. */
static off_t state_of(int fd) { return locked_byte(fd, F_RDLCK, STATES, (off_t)1 << (COUNT_BITS + EPOCH_BITS)); }

/* Writers */

static off_t next_state(off_t state) {
  off_t counts = ((off_t)1 << COUNT_BITS) - 1;
  uint32_t epoch = 0;
  if (state != 0 && (state & counts) != counts) return state + 1;
  if (getrandom(&epoch, sizeof epoch, 0) != sizeof epoch) epoch = (uint32_t)(milliseconds() ^ getpid());
  return STATES + ((off_t)epoch << COUNT_BITS) + 1;
}

/* Whether no reader has the byte any more. */
static int wait_for_readers(int fd, off_t at, long limit) {
  struct wait wait = wait_of(limit);
  while (!is_free(fd, at))
    if (rest(&wait, NULL) == EWOULDBLOCK) return 0;
  return 1;
}

/* How long the writer may wait now. */
static long patience_of(const struct turns *turns) {
  return !turns->hurries ? PATIENCE : milliseconds() < turns->patient_from ? 0 : LITTLE_PATIENCE;
}

static void note_wait(struct turns *turns, int was_in_vain, long limit) {
  turns->hurries = was_in_vain;
  if (was_in_vain && limit > 0) turns->patient_from = milliseconds() + (SELDOM - 1) * LITTLE_PATIENCE;
}

/* NEXT is waited for before INTENT is locked, since readers that wait would not get their turn after it. */
int begin_change(struct kefs_image *image) {
  struct turns *turns = &image->turns;
  if (!turns->shares || turns->changes) return KEFS_OK;
  long limit = patience_of(turns);
  int had_next = wait_for_readers(image->fd, NEXT, limit);
  set_lock(image->fd, F_WRLCK, INTENT);
  int had_turns = wait_for_readers(image->fd, TURN, had_next ? limit : 0);
  note_wait(turns, !had_next || !had_turns, limit);
  int number = turns->state == 0 ? KEFS_OK : set_lock(image->fd, F_UNLCK, turns->state);
  if (number != KEFS_OK) return set_lock(image->fd, F_UNLCK, INTENT), fail(image, number, "telling readers");
  turns->changes = 1;
  return KEFS_OK;
}

/* Where LISTS has the homes that a commit changed, which an earlier commit had before: first those of pages that were pages before, and then those of new
   ones. Its last byte says that the first are not all there. Home 0, of the directory, is no new page's. */
enum { LIST_BITS = 31 };
off_t list_of(off_t state) { return LISTS + ((state & (REACH - 1)) << LIST_BITS); }
off_t new_list_of(off_t state) { return list_of(state) + MOST_HOMES - 1; }
static off_t end_of_list(off_t state) { return list_of(state) + ((off_t)1 << LIST_BITS) - 1; }

static uint32_t home_taken(const struct kefs_image *image, size_t i) {
  const struct famsync_page *page = &image->planned->pages[i];
  return home_of_page(&image->files[page->file], page->page);
}

/* A new page may be copied too: where it has by chance the bytes of what was read last, mostly zeros of the directory in its home. */
int has_dropped(const struct kefs_image *image) {
  const struct layout *layout = &image->layout;
  for (const struct famsync_call *it = image->plan.calls; it < image->plan.calls + image->plan.used && layout->blocks > 0; it++)
    if (it->kind == FAMSYNC_COPY && it->from < layout->homes && layout->homes <= it->sector) return 1;
  return 0;
}

/* Neighbouring homes of the pages that a commit has taken, from page `i` of it on. */
static size_t run_of(const struct kefs_image *image, size_t i) {
  size_t end = i + 1;
  while (end < image->planned->count && home_taken(image, end) == home_taken(image, end - 1) + 1) end++;
  return end - i;
}

static int are_few(const struct kefs_image *image) {
  size_t i = 0;
  for (int run = 0; run < MOST_RUNS && i < image->planned->count; run++) i += run_of(image, i);
  return i == image->planned->count;
}

/* Tells which homes have new pages: all of them, or an errno value. */
static int tell_new_homes(struct kefs_image *image, off_t state) {
  struct new_homes it = {.image = image};
  struct extent homes;
  int number = KEFS_OK;
  if (image->planned != &image->resizing.lent || is_free(image->fd, INTEREST)) return KEFS_OK;
  for (int runs = 0; number == KEFS_OK && next_new_homes(&it, &homes); runs++)
    number = runs == MOST_RUNS ? E2BIG : set_locks(image->fd, F_WRLCK, new_list_of(state) + homes.first, (off_t)homes.count);
  return number;
}

/* Tells which pages of the directory a commit has changed, which are the first homes: all of them, or an errno value. */
static int tell_directory(struct kefs_image *image, off_t state) {
  const struct famsync_size *sizes = image->resizing.sizes, *end = sizes + image->resizing.count;
  int number = KEFS_OK;
  if (image->planned != &image->resizing.lent) return KEFS_OK;
  for (int runs = 0; sizes < end && number == KEFS_OK; runs++) {
    off_t first = sizes->file / PAGE_ENTRIES, last = first;
    for (; sizes < end && sizes->file / PAGE_ENTRIES <= last + 1; sizes++) last = sizes->file / PAGE_ENTRIES;
    number = runs == MOST_RUNS ? E2BIG : set_locks(image->fd, F_WRLCK, list_of(state) + first, last + 1 - first);
  }
  return number;
}

/* Tells which homes are other ones since the state before this one. Where they are too many runs readers look at all pages, and none is named, nor where there is no
   reader: each lock takes time by the number of those that are there. */
static int tell_homes(struct kefs_image *image, off_t state) {
  int fd = image->fd, number = set_locks(fd, F_UNLCK, list_of(state), (off_t)1 << LIST_BITS), names_all = are_few(image) && !has_dropped(image) && !is_free(fd, INTEREST);
  for (size_t i = 0, homes; names_all && i < image->planned->count && number == KEFS_OK; i += homes) {
    homes = run_of(image, i);
    number = set_locks(fd, F_WRLCK, list_of(state) + home_taken(image, i), (off_t)homes);
  }
  if (names_all && number == KEFS_OK) number = tell_directory(image, state);
  if (!names_all && number == KEFS_OK) number = set_lock(fd, F_WRLCK, end_of_list(state));
  return number == KEFS_OK ? tell_new_homes(image, state) : number;
}

/* The list is there before the state is, and INTENT goes last: a reader whose turn begins finds both. Where the list can't be had, the state is no next one of
   another; where the state's lock can't be had, readers wait until a later commit gets one. */
void end_change(struct kefs_image *image) {
  struct turns *turns = &image->turns;
  if (!turns->changes || image->halted) return;
  if (turns->is_new) set_locks(image->fd, F_UNLCK, LISTS, STATES - LISTS);
  turns->state = next_state(turns->is_new ? 0 : turns->state);
  if (!turns->is_new && tell_homes(image, turns->state) != KEFS_OK) turns->state = next_state(0);
  turns->is_new = turns->changes = 0;
  if (set_lock(image->fd, F_WRLCK, turns->state) != KEFS_OK) turns->state = 0;
  set_lock(image->fd, F_UNLCK, INTENT);
}

void await_readers(struct kefs_image *image) {
  struct turns *turns = &image->turns;
  if (!turns->shares) return;
  long limit = patience_of(turns);
  note_wait(turns, !wait_for_readers(image->fd, TURN, limit), limit);
}

/* All bytes at once, and before flock: a reader that finds STATES is right to read. */
void end_turns(struct kefs_image *image) {
  struct flock all = {.l_type = F_UNLCK, .l_whence = SEEK_SET, .l_start = INTENT};
  fcntl(image->fd, F_OFD_SETLK, &all);
}

static int lock_alone(int fd) { return flock(fd, LOCK_EX | LOCK_NB) == 0 ? KEFS_OK : errno; }

/* Readers that are alone look one after the other whether another program has flock, by which they have it for a moment: they are kept from new turns first. A
   writer that tells its state keeps the file for long, and is left in peace. */
struct owning { int fd; struct wait wait; };

static int try_to_own(void *of) {
  const struct owning *owning = of;
  int fd = owning->fd, number = lock_alone(fd);
  if (number != EWOULDBLOCK || state_of(fd) != 0 || set_lock(fd, F_WRLCK, INTENT) != KEFS_OK) return number;
  long now = milliseconds(), left = owning->wait.end < now ? 0 : owning->wait.end - now;
  wait_for_readers(fd, TURN, left < PATIENCE ? left : PATIENCE);
  number = lock_alone(fd);
  if (number != KEFS_OK) set_lock(fd, F_UNLCK, INTENT);
  return number;
}

/* Without a limit the lock's own wait serves: readers that are alone have it for moments alone. */
static int own_at_last(struct owning *owning) {
  int number = try_to_own(owning);
  return number != EWOULDBLOCK ? number : flock(owning->fd, LOCK_EX) == 0 ? KEFS_OK : errno;
}

/* From here on the file is being changed, until end_change. Where the file system has no such locks, no reader runs beside this writer. A reader may be in a turn
   that it began before: a wait that is over sooner than one for a reader that is stopped ends the opening. */
int lock_to_write(struct kefs_image *image, long limit) {
  struct owning owning = {image->fd, wait_of(limit)};
  int number = limit < 0 ? own_at_last(&owning) : look_until(try_to_own, &owning, &owning.wait);
  if (number != KEFS_OK) return number;
  int locked = set_lock(image->fd, F_WRLCK, INTENT), shares = locked == KEFS_OK || locked == EAGAIN || locked == EACCES;
  if (shares) set_lock(image->fd, F_WRLCK, DIRECTORY);
  image->turns = (struct turns){.shares = shares, .changes = shares, .is_new = 1};
  long left = owning.wait.end - milliseconds(), patience = left < PATIENCE ? left : PATIENCE;
  int had_turns = !shares || wait_for_readers(image->fd, TURN, patience < 0 ? 0 : patience);
  note_wait(&image->turns, !had_turns, PATIENCE);
  if (had_turns || left >= PATIENCE) return KEFS_OK;
  end_turns(image), flock(image->fd, LOCK_UN);
  return EWOULDBLOCK;
}

static int try_to_share(void *of) { return flock(((const struct owning *)of)->fd, LOCK_SH | LOCK_NB) == 0 ? KEFS_OK : errno; }

int lock_to_read(struct kefs_image *image, long limit) {
  struct owning owning = {image->fd, wait_of(limit)};
  if (limit < 0) return flock(image->fd, LOCK_SH) == 0 ? KEFS_OK : errno;
  return look_until(try_to_share, &owning, &owning.wait);
}

/* Turns of a reader */

int is_busy_reading(struct kefs_image *image) {
  int process = holder_of(image->fd);
  if (process == 0) return fail(image, KEFS_BUSY, "reading");
  return fail(image, KEFS_BUSY, "process %d changes the image, or does not let readers in", process);
}

int is_same_time(const struct timespec *one, const struct timespec *other) { return one->tv_sec == other->tv_sec && one->tv_nsec == other->tv_nsec; }

enum { TICK = 20 }; /* milliseconds, of a file system whose times have parts of milliseconds */

static long age_of(const struct timespec *time) {
  struct timespec now;
  clock_gettime(CLOCK_REALTIME, &now);
  return (now.tv_sec - time->tv_sec) * 1000 + (now.tv_nsec - time->tv_nsec) / 1000000;
}

/* How old a time has to be so that a change from now on gives the file another one. */
static long age_that_is_past(const struct timespec *time) { return time->tv_nsec % 1000000 != 0 ? TICK : CALM; }

static int has_changed(const struct reading *reading) {
  struct stat now;
  return fstat(reading->image->fd, &now) != 0 || !is_same_time(&now.st_ctim, &reading->time);
}

/* Whether a program that does not tell its state has the file. It is looked for once a reading: what it writes from then on shows by the time of change. */
static int look_for_owner(int fd) {
  if (flock(fd, LOCK_SH | LOCK_NB) != 0) return errno;
  flock(fd, LOCK_UN);
  return KEFS_OK;
}

/* One look: KEFS_OK where the turn has begun, EWOULDBLOCK, or an errno value. */
static int try_turn(void *of) {
  struct reading *reading = of;
  int fd = reading->image->fd, number = set_lock(fd, F_RDLCK, TURN);
  if (number != KEFS_OK) return number;
  number = is_free(fd, INTENT) ? KEFS_OK : EWOULDBLOCK;
  reading->state = number == KEFS_OK ? state_of(fd) : 0;
  if (number == KEFS_OK && reading->state == 0 && !reading->is_alone) number = look_for_owner(fd);
  if (number != KEFS_OK) set_lock(fd, F_UNLCK, TURN);
  return number;
}

static int wait_for_turn(struct reading *reading) {
  struct kefs_image *image = reading->image;
  int number = set_lock(image->fd, F_RDLCK, INTEREST);
  if (number == KEFS_OK) number = set_lock(image->fd, F_RDLCK, NEXT);
  if (number == KEFS_OK) number = look_until(try_turn, reading, &reading->wait);
  set_lock(image->fd, F_UNLCK, NEXT);
  if (number == EWOULDBLOCK) return is_busy_reading(image);
  return number == KEFS_OK ? KEFS_OK : fail(image, number == EINVAL ? ENOLCK : number, "locking");
}

/* In how many milliseconds a reading without a writer may begin: 0 or less, now. A time that stays the same for so long is past too, also where the clocks
   differ. */
static long till_calm(struct reading *reading, long *since) {
  struct stat now;
  if (has_changed(reading) && fstat(reading->image->fd, &now) == 0) reading->time = now.st_ctim, *since = milliseconds();
  long left = age_that_is_past(&reading->time) - age_of(&reading->time), at_most = CALM - (milliseconds() - *since);
  return left < at_most ? left : at_most;
}

/* Sleeps so long that a reading may begin, or a TICK, since a writer may come that tells. */
static int rest_till_calm(struct reading *reading, long left) {
  struct timespec pause = {0, (left < TICK ? left : TICK) * 1000000};
  return nanosleep(&pause, NULL) == 0 ? KEFS_OK : fail(reading->image, errno, "waiting until the image stays as it is");
}

/* Where the file was changed just now and no writer tells, the turn begins some milliseconds later. */
int begin_turn(struct reading *reading) {
  long begin = milliseconds(), since = begin;
  for (;;) {
    if (has_changed(reading)) reading->is_alone = 0;
    int result = wait_for_turn(reading);
    if (result != KEFS_OK || reading->state != 0) return result;
    long left = reading->is_alone ? has_changed(reading) : till_calm(reading, &since);
    if (left <= 0) return KEFS_OK;
    set_lock(reading->image->fd, F_UNLCK, TURN);
    if (milliseconds() - begin > 3 * CALM) return fail(reading->image, KEFS_BUSY, "the image changes again and again");
    result = rest_till_calm(reading, left);
    if (result != KEFS_OK) return result;
  }
}

/* Whether what was read in the turn is of one state. Where there is more to read, NEXT is taken first, so that one commit comes between at most. */
int end_turn(struct reading *reading, int is_over) {
  int fd = reading->image->fd, holds = reading->state == 0 ? !has_changed(reading) : state_of(fd) == reading->state;
  if (!is_over) set_lock(fd, F_RDLCK, NEXT);
  set_lock(fd, F_UNLCK, TURN);
  return holds;
}

/* What commits have told */

/* How far a list of LISTS goes: the homes of one run from `at` on, or none, where `count` is 0. */
off_t next_run(const struct reading *reading, off_t list, off_t at, off_t *count) {
  off_t found = *count = 0, end = list + MOST_HOMES;
  if (at < end) found = locked_bytes(reading->image->fd, F_RDLCK, at, end - at, count);
  if (found == 0) return *count = 0, at;
  if (found < at) *count -= at - found, found = at;
  if (*count > end - found) *count = end - found;
  return found;
}

static off_t count_list(const struct reading *reading, off_t list) {
  off_t sum = 0, count;
  for (off_t at = next_run(reading, list, list, &count); count > 0; at = next_run(reading, list, at + count, &count)) sum += count;
  return sum;
}

/* How many homes the commits after `before` and before this turn's state changed, and new pages this turn's has, or -1 where that is not told of each. */
off_t count_told(const struct reading *reading) {
  off_t sum = 0, same_epoch = reading->before >> COUNT_BITS == reading->state >> COUNT_BITS;
  if (!same_epoch || reading->state < reading->before || reading->state - reading->before > REACH) return -1;
  for (off_t state = reading->before + 1; state <= reading->state; state++) {
    int is_last = state == reading->state;
    if (!is_last && locked_byte(reading->image->fd, F_RDLCK, end_of_list(state), 1) != 0) return -1;
    sum += count_list(reading, new_list_of(state)) + (is_last ? 0 : count_list(reading, list_of(state)));
  }
  return sum;
}

int tells_directory(const struct kefs_image *image) { return locked_byte(image->fd, F_RDLCK, DIRECTORY, 1) != 0; }

off_t state_now(const struct kefs_image *image) { return state_of(image->fd); }
