/* Waits for locks of files that have a bound.

   Why locks are looked at again and again. A wait of the system's own for a lock, by flock(2) or F_OFD_SETLKW, has no bound: nothing but a signal ends it,
   and a library has none to send, nor may it cancel a thread that it made for the wait. So an opening waits by flock itself where it has no limit
   (lock_to_write, lock_to_read), and else looks. A futex needs a page that both sides map, and a page of the image that is mapped can't be dropped from what the
   system has cached (settle in open.c); and no futex tells that its owner was killed. What tells that a file was closed, inotify, takes one of the user's
   128 instances, and some 16 ms to let it go.

   Why that costs little. The pauses between two looks begin at 20 us, and double up to 2 ms, by when most commits are over. From then on one is a sixteenth of
   what was waited, so that a wait ends late by no more than that, and from 4 s on a quarter of a second. A second takes some 110 looks, a minute 360, each
   of a few calls of the system: 5 ms of a processor in 30 s (tests/costs.c). */
#define _GNU_SOURCE
#include "internal.h"
#include <errno.h>
#include <limits.h>
#include <poll.h>
#include <signal.h>
#include <time.h>

enum { SHORTEST = 20, SHORT = 2000, LONGEST = 250000 }; /* microseconds between two looks: at first, at most by doubling, and at most */

long microseconds(void) {
  struct timespec now;
  clock_gettime(CLOCK_MONOTONIC, &now);
  return now.tv_sec * 1000000 + now.tv_nsec / 1000;
}

long milliseconds(void) { return microseconds() / 1000; }

struct wait wait_of(long limit) {
  long now = milliseconds();
  return (struct wait){now, limit < 0 ? LONG_MAX : now + limit, SHORTEST};
}

/* Microseconds until the next look, and not beyond the end of the wait. */
static long next_pause(struct wait *wait, long now) {
  long pause = wait->pause, part = (now - wait->begin) * 1000 / 16, left = wait->end - now;
  if (pause < SHORT) wait->pause *= 2;
  else if (pause < part) pause = part < LONGEST ? part : LONGEST;
  return left < LONGEST / 1000 && pause > left * 1000 ? left * 1000 : pause;
}

int rest(struct wait *wait, const sigset_t *blocked) {
  long now = milliseconds();
  if (now >= wait->end) return EWOULDBLOCK;
  struct timespec pause = {0, next_pause(wait, now) * 1000};
  return ppoll(NULL, 0, &pause, blocked) == 0 ? KEFS_OK : errno;
}

/* A signal that comes between two sleeps ends the next one. */
int look_until(int (*look)(void *), void *of, struct wait *wait) {
  sigset_t all, before;
  int number = look(of);
  if (number != EWOULDBLOCK) return number;
  sigfillset(&all);
  pthread_sigmask(SIG_BLOCK, &all, &before);
  while ((number = look(of)) == EWOULDBLOCK && (number = rest(wait, &before)) == KEFS_OK) continue;
  pthread_sigmask(SIG_SETMASK, &before, NULL);
  return number;
}
