/* What the parts share that read an image beside a writer: readers.c takes turns, views.c reads in them, snapshots.c keeps what was read. */
#ifndef KEFS_READING_H
#define KEFS_READING_H
#include "internal.h"
#include <sys/stat.h>
#include <time.h>

enum { CHUNK = 4 << 20, PART = 1 << 18 }; /* bytes that are read in a turn, beside the journal; and in a call */
static const off_t MOST_BYTES = (off_t)1 << 62; /* of a file */
enum { CALM = 3000 };                     /* milliseconds: no file system's times are coarser */
enum { RESTARTS = 3 };                    /* of a reading whose wait is over */
enum { MOST_TOLD = 2048, MOST_CHANGED = 4096 }; /* pages that are read in one turn by LISTS; and by other slots of a pool */

struct snapshot {
  long limit;            /* milliseconds of a wait, or -1: for ever */
  int memory;            /* a memfd, which is the copy, or -1 */
  unsigned char *at;     /* all of it, mapped shared */
  size_t length, before; /* of it, and how many bytes of it come before the image, so that home pages are pages of the memory */
  struct places places;  /* of a pool: where pages stood in the file */
  struct places ends;    /* the homes of last pages that are not full, each with how many bytes its file has there */
  off_t state;           /* what it is as of, or 0 */
  struct timespec time;  /* of the file's last change before it was made, */
  int is_calm;           /* and whether a later change is sure to have another one */
};

/* What a reading goes by. `state` is that of its turn, 0 in one without a writer. */
struct reading {
  struct kefs_image *image;
  unsigned char *view;    /* of the memory that is read into, */
  size_t length;          /* so many bytes */
  unsigned char *altered; /* a bit for each page of it that was changed; NULL at the opening, when the view is the copy itself */
  unsigned char *part;    /* room for what is compared with the view */
  struct wait wait;
  off_t state, before;    /* of this turn; and of the one before it, as of which the view is as far as it goes, or 0 */
  int is_alone;           /* what was read counts without a writer, */
  struct timespec time;   /* as of this time of change */
  unsigned file;          /* the pages of this file were read as far as this many bytes */
  off_t done;
  off_t begin, data, hole; /* the file has a hole between the first two, in this turn, and none between the last two; */
  size_t clear, used;     /* and the copy's memory one in the pages from the first of these on up to the other one */
  int restarts;
  struct stat facts;      /* of the host file, in this turn */
  struct timespec began;
  struct places now, was; /* of a pool: where pages stand in this turn, and stood in the one before */
  unsigned char *map;     /* and room for a map of it */
  int has_files;          /* the image's files are those of the view's directory, */
  int has_new_files;      /* which are not those of the snapshot, */
  int is_looked_at;       /* and the proved part has looked at it */
};

/* readers.c */

/* The image's result, after a wait that was in vain. */
int is_busy_reading(struct kefs_image *image);
/* A turn, in which no writer that tells changes the file: KEFS_OK or the image's result. Where the file was changed just now and no writer tells, it begins some
   milliseconds later. */
int begin_turn(struct reading *reading);
/* Whether what was read in the turn is of one state. Where there is more to read, one commit comes between at most. */
int end_turn(struct reading *reading, int is_over);
int is_same_time(const struct timespec *one, const struct timespec *other);
/* The state of the file now, or 0; and whether the writer names pages of the directory that commits have changed. */
off_t state_now(const struct kefs_image *image);
int tells_directory(const struct kefs_image *image);
/* Where LISTS begins to tell of a state's commit: the homes of pages that were pages before, and those of new ones. And how far such a list goes: the homes
   of one run from `at` on, or none, where `count` is 0. */
off_t list_of(off_t state);
off_t new_list_of(off_t state);
off_t next_run(const struct reading *reading, off_t list, off_t at, off_t *count);
/* How many homes the commits after `before` and before this turn's state changed, and new pages this turn's has, or -1 where that is not told of each. */
off_t count_told(const struct reading *reading);

/* views.c */

/* Reads in a turn: what commits since the turn before have changed, and a chunk. KEFS_OK or the image's result. */
int use_turn(struct reading *reading);
/* Has all be read from the beginning: KEFS_OK, or KEFS_BUSY where that was done again and again and the wait is over. */
int begin_anew(struct reading *reading);
/* Whether all was read. */
int is_read(struct reading *reading);
/* Puts bytes into the view, within one page of its memory. */
void put(struct reading *reading, size_t offset, const unsigned char *from, size_t length);
/* Which page of the memory a byte of the image is in. */
size_t page_of(const struct reading *reading, size_t offset);
/* Whether a home has another place than in a list of others, which it is looked for in from `i` on: homes are asked for in their order. */
int has_other_place(const struct places *was, size_t *i, const struct place *now);
/* Of a refresh the first page of the memory from `k` on that was altered, or `end`. */
size_t next_altered(const struct reading *reading, size_t k, size_t end);
/* Of the view the first page from `k` on that may hold other bytes than zeros, or `end`, or a later one. Others take no memory as long as nobody touches them. */
size_t next_used(struct reading *reading, size_t k, size_t end);

#endif
