/* What the files of an image are to kefsrun and to kefsrun.so.

   File 1 says how long the data file may get: 8 bytes, or 4 of an older kefsrun. The data file is file 0, 2 or 3: a file that is renamed to it becomes the next one
   of these, 0 after 3, and is durable in one commit beside the one before, which a later commit removes. So of two of them the next one is the data file. File 4 says
   that there is no data file, though one of these may be left. File 5, 6 or 7 is a mark that the names of the host may not be changed yet as the image has it: where the
   empty file has bytes they were renamed to it, and are in the image.

   The first kefsruns made images of fixed lengths: file 0 is as long as the data file may get, and file 1 a page, whose first 8 bytes are the length of the data
   file now. */
#ifndef BRIDGE_CONTENTS_H
#define BRIDGE_CONTENTS_H
#include "kefs.h"

#pragma GCC visibility push(hidden)

enum { LIMIT_FILE = 1, GONE_FILE = 4, MARK_FILE = 5, MARKS_END = 8 };

/* The greatest length that the library has for a file. */
#define LENGTH_MOST ((uint64_t)1 << 42)

struct contents {
  unsigned number;  /* of the data file, or of the last one where there is none */
  int is_there, is_unfinished;
  uint64_t length, most; /* how long it is, and may get */
  uint64_t *kept;   /* where an image of a fixed length has the length; else NULL */
};

/* Reads them: KEFS_OTHER_FILES where the image is none of kefsrun's. It maps file 1. */
int read_contents(kefs_image *image, struct contents *to);

/* The number of the data file that comes after one. */
unsigned next_number(unsigned number);

/* Whether a data file has just the bytes of a file of the host. */
int is_content(kefs_image *image, const struct contents *of, int fd);

/* Of an image that is unfinished: empties the stand-in at `path`, where it has the bytes of the data file; where it has others, gives it another name, makes an
   empty one, and says so. 1 where it is another file then, else 0, or -1 and errno. */
int settle_stand_in(kefs_image *image, const struct contents *of, const char *path);

#pragma GCC visibility pop
#endif
