/* Commits that are started and waited for: all that threads have started meanwhile goes as one.

   A start copies the dirty pages of its ranges, which are clean then, to those that were *gathered*, where a page that is there already gets its newer bytes. Of the
   threads that wait, one leads: what was gathered is *running* from then on, and one commit makes all of it durable, while others gather the next. For the time of
   each device call the image's lock is let go, and starts and waits alone come then: any other call waits until the run is over (await_run). So all but the calls
   themselves, of which the plan and the copies are changed by nobody else, is done under the lock.

   Order. A run has all that was started before it, so that what is durable is as after some start, and all before it. A run that fails leaves its pages among those
   that were gathered, but where a page has newer bytes there: the next run has them too. A commit, a map, a close and a start that finds no place
   run what was gathered before they do anything else, and keep the lock.

   How much. The pages that are gathered and those that run are together no more than a commit may take. So there is place for the pages of a run that fails.

   Why a leader waits. Threads that come back at once with their next start would find the next commit running that others had begun, and two halves of them would
   take turns, each with half as many. So a leader waits for as many as the last run let go, an eighth of the time at most that it took; and where none of them
   came, the next eight do not wait. */
#include "internal.h"
#include <errno.h>
#include <string.h>
#include <time.h>

enum { SHARE = 8, MOST_PAUSE = 5000 }; /* a leader's wait is this part of a run, and this many have none after one in vain; and so many microseconds at most */

void begin_starts(struct kefs_image *image) {
  pthread_condattr_t monotonic;
  pthread_condattr_init(&monotonic);
  pthread_condattr_setclock(&monotonic, CLOCK_MONOTONIC);
  pthread_cond_init(&image->starts.over, &monotonic);
  pthread_condattr_destroy(&monotonic);
}

/* Room */

static void drop_started(struct kefs_image *image, struct started *started) {
  drop_taken(&started->taken, image->places.room);
  drop_memory(started->copies, image->places.room * PAGE);
  *started = (struct started){0};
}

static int new_started(struct kefs_image *image, struct started *started) {
  int number = new_taken(&started->taken, image->places.room);
  started->copies = new_memory(image->places.room * PAGE);
  return started->copies == NULL ? ENOMEM : number;
}

void drop_starts(struct kefs_image *image) { drop_started(image, &image->starts.gathered), drop_started(image, &image->starts.running); }

/* The first start makes room for all: it is touched by the pages that are started alone. */
static int make_rooms_once(struct kefs_image *image) {
  struct starts *starts = &image->starts;
  if (starts->gathered.copies != NULL) return KEFS_OK;
  if (new_started(image, &starts->gathered) == KEFS_OK && new_started(image, &starts->running) == KEFS_OK) return KEFS_OK;
  drop_starts(image);
  return fail(image, ENOMEM, "room for pages that are started");
}

/* Pages */

/* Whether a page is among some, which are in their order, and where, or where it would be. */
static int find_page(const struct taken *among, const struct famsync_page *page, size_t *at) {
  size_t low = 0, high = among->count;
  while (low < high) {
    size_t middle = low + (high - low) / 2;
    if (order_of(&among->pages[middle]) < order_of(page)) low = middle + 1;
    else high = middle;
  }
  *at = low;
  return low < among->count && order_of(&among->pages[low]) == order_of(page);
}

const unsigned char *started_bytes(const struct kefs_image *image, const struct mapping *mapping, size_t k) {
  const struct taken *gathered = &image->starts.gathered.taken;
  struct famsync_page page = {(uint16_t)file_number(mapping), (uint32_t)k};
  size_t at;
  return find_page(gathered, &page, &at) ? gathered->bytes[at].at : NULL;
}

static void copy_page(const unsigned char *to, const struct famsync_bytes *from) { memcpy((void *)(uintptr_t)to, from->at, PAGE); }

/* Gives those that are there the newer bytes, where they are: how many others there are. */
static size_t renew(struct taken *there, const struct taken *more, int is_newer) {
  size_t others = 0, at;
  for (size_t i = 0; i < more->count; i++)
    if (!find_page(there, &more->pages[i], &at)) others++;
    else if (is_newer) copy_page(there->bytes[at].at, &more->bytes[i]);
  return others;
}

/* Adds pages to those that were started, from the last one on: what comes behind a new one moves up. */
static void add_pages(struct started *to, const struct taken *more, int is_newer) {
  struct taken *there = &to->taken;
  size_t used = there->count, left = used, others = renew(there, more, is_newer), at = used + others;
  there->count = at;
  for (size_t i = more->count; i-- > 0 && others > 0;) {
    uint64_t order = order_of(&more->pages[i]);
    for (; left > 0 && order_of(&there->pages[left - 1]) > order; left--) at--, there->pages[at] = there->pages[left - 1], there->bytes[at] = there->bytes[left - 1];
    if (left > 0 && order_of(&there->pages[left - 1]) == order) continue;
    unsigned char *copy = to->copies + PAGE * used++;
    copy_page(copy, &more->bytes[i]);
    at--, others--, there->pages[at] = more->pages[i], there->bytes[at] = (struct famsync_bytes){copy};
  }
}

/* Runs */

void await_run(struct kefs_image *image) {
  struct starts *starts = &image->starts;
  int cancel = image->cancel;
  if (!starts->is_running) return;
  starts->kept_out++;
  while (starts->is_running) pthread_cond_wait(&starts->over, &image->lock);
  starts->kept_out--;
  image->cancel = cancel;
  if (starts->others > 0 && --starts->others == 0) pthread_cond_broadcast(&starts->over);
}

static void begin_run(struct starts *starts) {
  struct started free = starts->running;
  starts->running = starts->gathered;
  starts->gathered = free;
  starts->gathered.waiters = 0;
}

void end_running(struct kefs_image *image, int done) {
  struct starts *starts = &image->starts;
  struct started *running = &starts->running, *gathered = &starts->gathered;
  if (running->taken.count == 0) return;
  if (done) starts->durable = running->last;
  else add_pages(gathered, &running->taken, 0);
  if (gathered->last < running->last) gathered->last = running->last;
  running->taken.count = 0;
  starts->pages = gathered->taken.count;
}

/* What became of it is told to those that wait, and whom the next run may wait for. */
static void tell(struct kefs_image *image, int result) {
  struct starts *starts = &image->starts;
  struct attempt *tried = &starts->tried;
  tried->number++, tried->last = starts->running.last, tried->result = result;
  strcpy(tried->message, kefs_errmsg(image));
  starts->hoped = starts->running.waiters + starts->gathered.waiters;
  starts->running.waiters = 0;
  if (image->halted) starts->gathered.waiters = 0;
  starts->others = starts->kept_out;
  pthread_cond_broadcast(&starts->over);
}

/* Lets others in while it runs, or keeps the lock. */
static int run(struct kefs_image *image, int lets_in) {
  struct starts *starts = &image->starts;
  int cancel = image->cancel;
  long begin = microseconds();
  begin_run(starts);
  int result = make_room_for(image, starts->running.taken.count);
  starts->is_running = lets_in;
  if (result == KEFS_OK) result = commit_taken(image, &starts->running.taken);
  starts->is_running = 0;
  image->cancel = cancel;
  if (image->halted) result = go_on(image, result);
  if (!image->halted) end_commit(image, result == KEFS_OK);
  long pause = (microseconds() - begin) / SHARE;
  starts->pause = pause < MOST_PAUSE ? pause : MOST_PAUSE;
  tell(image, result);
  return result;
}

int commit_started(struct kefs_image *image) { return image->starts.gathered.taken.count == 0 ? KEFS_OK : run(image, 0); }

/* Waiting */

/* Waits until something is over: whether it was before `end`, in microseconds, which is 0 where there is none. */
static int await_over(struct kefs_image *image, long end) {
  int cancel = image->cancel, number = 0;
  struct timespec time = {end / 1000000, end % 1000000 * 1000};
  if (end == 0) pthread_cond_wait(&image->starts.over, &image->lock);
  else number = pthread_cond_timedwait(&image->starts.over, &image->lock, &time);
  image->cancel = cancel;
  return number == 0;
}

static void await_companions(struct kefs_image *image) {
  struct starts *starts = &image->starts;
  if (starts->patience > 0) {
    starts->patience--;
    return;
  }
  long end = microseconds() + starts->pause;
  size_t before = starts->gathered.waiters;
  for (int in_time = 1; in_time && starts->gathered.waiters < starts->hoped;) in_time = await_over(image, end);
  int was_in_vain = before < starts->hoped && starts->gathered.waiters == before;
  starts->patience = was_in_vain ? SHARE : 0;
}

/* Meanwhile another call may have made all of it durable. */
static void lead(struct kefs_image *image) {
  struct starts *starts = &image->starts;
  starts->is_led = 1;
  await_companions(image);
  if (!image->halted && starts->gathered.taken.count > 0) run(image, 1);
  starts->is_led = 0;
  pthread_cond_broadcast(&starts->over);
}

static void note_waiter(struct starts *starts, uint64_t ticket) {
  struct started *with = starts->is_running && ticket <= starts->running.last ? &starts->running : &starts->gathered;
  with->waiters++;
  if (starts->is_led && !starts->is_running && with->waiters >= starts->hoped) pthread_cond_broadcast(&starts->over);
}

/* Of a run that ended since a thread began to wait, after `before` others. */
static int failure_of(const struct kefs_image *image, uint64_t ticket, uint64_t before) {
  const struct attempt *tried = &image->starts.tried;
  if (tried->number != before && tried->result != KEFS_OK && ticket <= tried->last) return fail(image, tried->result, "%s", tried->message);
  return image->halted ? KEFS_HALTED : KEFS_OK;
}

static int wait_for(struct kefs_image *image, uint64_t ticket) {
  struct starts *starts = &image->starts;
  uint64_t before = starts->tried.number;
  int result = image->halted && ticket > starts->durable ? KEFS_HALTED : KEFS_OK;
  if (result == KEFS_OK && ticket > starts->durable) note_waiter(starts, ticket);
  while (result == KEFS_OK && ticket > starts->durable) {
    if (starts->is_led || starts->is_running || starts->others > 0) await_over(image, 0);
    else lead(image);
    if (ticket > starts->durable) result = failure_of(image, ticket, before);
  }
  return result;
}

int kefs_commit_wait(kefs_image *image, uint64_t ticket) {
  int result = enter_beside(image);
  if (result != KEFS_OK) return result;
  int is_ticket = ticket <= image->starts.last;
  return leave(image, is_ticket ? wait_for(image, ticket) : fail(image, EINVAL, "ticket %llu", (unsigned long long)ticket));
}

/* Starting */

static size_t count_new(const struct starts *starts, const struct taken *taken) {
  size_t pages = 0, at;
  for (size_t i = 0; i < taken->count; i++)
    pages += !find_page(&starts->gathered.taken, &taken->pages[i], &at) && !find_page(&starts->running.taken, &taken->pages[i], &at);
  return pages;
}

/* Takes pages for which there is place beside those that are started. Where these are none, a page that is as it is durable need no commit. */
static int take_beside(struct kefs_image *image, const struct kefs_range *ranges, size_t count) {
  int result = take_pages(image, ranges, count, image->starts.pages == 0);
  size_t pages = image->starts.pages + count_new(&image->starts, &image->taken);
  return result == KEFS_OK && pages > image->places.room ? are_too_many(image) : result;
}

/* Where there is no place beside those that are started, these are made durable first. */
static int take_to_start(struct kefs_image *image, const struct kefs_range *ranges, size_t count) {
  int result = take_beside(image, ranges, count);
  if (result != KEFS_TOO_MANY || image->starts.pages == 0) return result;
  let_all_go(image, 0);
  await_run(image);
  result = image->halted ? KEFS_HALTED : commit_started(image);
  return result == KEFS_OK ? take_beside(image, ranges, count) : result;
}

static int start(struct kefs_image *image, const struct kefs_range *ranges, size_t count, size_t *taken, uint64_t *ticket) {
  struct starts *starts = &image->starts;
  int result = make_rooms_once(image);
  if (result != KEFS_OK) return result;
  ignore_reads(1);
  result = take_to_start(image, ranges, count);
  if (result == KEFS_OK && image->taken.count > 0) {
    starts->pages += count_new(starts, &image->taken);
    add_pages(&starts->gathered, &image->taken, 1);
    starts->gathered.last = ++starts->last;
  }
  ignore_reads(0);
  if (result == KEFS_OK && taken != NULL) *taken = image->taken.count;
  if (result == KEFS_OK) *ticket = starts->last;
  let_all_go(image, result == KEFS_OK);
  return result;
}

/* A commit that makes lengths durable takes new pages from where they are in memory. So it is made at once, and has the ticket of all that was started before. */
static int commit_instead(struct kefs_image *image, const struct kefs_range *ranges, size_t count, size_t *taken, uint64_t *ticket) {
  await_run(image);
  int result = image->halted ? KEFS_HALTED : commit_started(image);
  if (result == KEFS_OK) result = commit(image, ranges, count, taken);
  if (result == KEFS_OK) *ticket = image->starts.last;
  return result;
}

int kefs_commit_start(kefs_image *image, const struct kefs_range *ranges, size_t count, size_t *taken, uint64_t *ticket) {
  int result = enter_beside(image);
  if (result != KEFS_OK) return result;
  if (image->halted) return leave(image, KEFS_HALTED);
  if (image->read_only) return leave(image, fail(image, KEFS_READ_ONLY, "kefs_commit_start"));
  result = ticket == NULL ? fail(image, KEFS_BAD_ARGUMENT, "no place for the ticket") : check_ranges(image, ranges, count);
  if (result != KEFS_OK) return leave(image, result);
  return leave(image, (has_sizes(image, ranges, count) ? commit_instead : start)(image, ranges, count, taken, ticket));
}
