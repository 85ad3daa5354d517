/* What libfamsync.a exports (crates/famsync): plans of device calls for an image that the caller has in memory. The
   library touches no file. Every pointer must be valid for its count; only `image` may be shared. It takes memory by the
   calls rattle_alloc, rattle_realloc and rattle_dealloc, which whoever links it gives: those of the kit's liblibc_c.a are
   malloc, realloc and free. It gives back all of it before it returns. */
#ifndef FAMSYNC_H
#define FAMSYNC_H
#include <stddef.h>
#include <stdint.h>

/* Results. */
enum {
  FAMSYNC_OK = 0,
  FAMSYNC_TURN = 1,        /* another call's turn: see the states */
  FAMSYNC_BAD_LAYOUT = 2,  /* the image has no layout of a store */
  FAMSYNC_BAD_JOURNAL = 3, /* its journal is open with a map that no commit writes */
  FAMSYNC_BAD_PAGES = 4,   /* no page, more than the store takes (1,023, or of layout 4 as many as its pool has slots), one twice, one outside
                              of its file; of famsync_length: no such file */
  FAMSYNC_READ_ONLY = 5,   /* the file of a page, or of a size, may only be read */
  FAMSYNC_NO_ROOM = 6,     /* the plan has more calls than the smallest of the rooms that were lent */
  FAMSYNC_NO_MEMORY = 7,   /* rattle_alloc or rattle_realloc had none */
  FAMSYNC_NO_POOL = 8,     /* of famsync_resize: the image is of layout 2, whose lengths are fixed */
  FAMSYNC_NO_HOMES = 9     /* of famsync_resize: a file that grows finds no free homes in a row for what it lacks, or has 30 extents already */
};

/* States of a handle, which begins as zeros. */
enum { FAMSYNC_CLOSED = 0, FAMSYNC_READY = 1, FAMSYNC_PENDING = 2 };
struct famsync_handle { uint32_t state; };

/* Call k of a plan, of kind
     FAMSYNC_WRITE: write row k of the plan to `sector`, which has 512 bytes;
     FAMSYNC_SYNC: sync;
     FAMSYNC_LENT: write page `from` of those that famsync_commit was given to the eight sectors from `sector` on;
     FAMSYNC_COPY: write to them what the eight sectors from `from` on of the image hold. No call of the plan before this one
     writes there, so the image as it was lent and the file have the same bytes;
     FAMSYNC_ZERO: write zeros to the sectors of `from` pages, eight each, from `sector` on.
   The row of a call of another kind than FAMSYNC_WRITE is not written to. */
enum { FAMSYNC_WRITE = 1, FAMSYNC_SYNC = 2, FAMSYNC_LENT = 3, FAMSYNC_COPY = 4, FAMSYNC_ZERO = 5 };
struct famsync_call { uint64_t kind, sector, from; };

/* Page `page`, of 4,096 bytes, of file `file`. */
struct famsync_page { uint16_t file; uint32_t page; };
struct famsync_bytes { const unsigned char *at; };
/* What becomes of a file: where `is_there` is not 0 it has this length in bytes from then on, and else it goes. */
struct famsync_size { uint32_t file, is_there; uint64_t length; };

/* `image` is `sectors` sectors, what the file holds. `calls` and `rows` are room for the plan, `calls_room` calls and `rows_room` rows
   of 512 bytes, as `scratch_calls` and `scratch_rows` are room to work in. FAMSYNC_ROOM of each suffice for layout 2, and
   FAMSYNC_ROOM_OF_BLOCK for each block of a map of layout 4, also where all pages are written sector by sector, as one that is
   stored to meanwhile may be; mostly an eighth of that does. After the result 0 the caller makes the first *used calls in their
   order, and then calls famsync_done, or famsync_failed where one failed. Until then the pages of a commit stay where they are, since
   calls name them; of one that is stored to meanwhile any mix may become durable. No order of the pages makes a plan longer; pages in
   rising order of file and page are looked through in linear time, others in a square. */
enum { FAMSYNC_ROOM = 16384, FAMSYNC_ROOM_OF_BLOCK = 8192 };
uint32_t famsync_open(struct famsync_handle *handle, const void *image, size_t sectors, struct famsync_call *scratch_calls,
                      size_t scratch_calls_room, void *scratch_rows, size_t scratch_rows_room, size_t *used,
                      struct famsync_call *calls, size_t calls_room, void *rows, size_t rows_room);
/* Brings home all pages that stand in slots of a pool, so that all slots are free; a commit for which too few are free does so itself. */
uint32_t famsync_tidy(struct famsync_handle *handle, const void *image, size_t sectors, struct famsync_call *scratch_calls,
                      size_t scratch_calls_room, void *scratch_rows, size_t scratch_rows_room, size_t *used,
                      struct famsync_call *calls, size_t calls_room, void *rows, size_t rows_room);
uint32_t famsync_commit(struct famsync_handle *handle, const void *image, size_t sectors, struct famsync_call *scratch_calls,
                        size_t scratch_calls_room, void *scratch_rows, size_t scratch_rows_room, size_t *used,
                        struct famsync_call *calls, size_t calls_room, void *rows, size_t rows_room,
                        const struct famsync_page *pages, size_t page_count, const struct famsync_bytes *bytes,
                        size_t byte_count);
/* A commit after which files of an image of layout 4 have other lengths. `sizes` rise by file; a file that is there then, and was not before, comes into being.
   New pages are those behind the last one that their file has before, up to the last one that it has then. `fresh` are those of them that are more than zeros,
   `pages` others, which their files have before and then; both rise by file and page; where a file gets longer whose last page is not full, that one has to be among
   `pages`. `bytes` are first those of `fresh` and then those of `pages`, and no others; FAMSYNC_LENT names a page by its number among all of these. Each becomes
   zeros past its file's end then, and each other new page zeros, a row of homes by one call. FAMSYNC_BAD_PAGES too where `pages`, and one page for each 16 files of
   which one is in `sizes`, are more than the pool has slots; new pages need none. Beside the room of a commit there have to be 8 calls and rows for each of `fresh`,
   mostly one of the calls is used, and a call for each extent that has new pages. A file that lacks homes gets one more extent, of as many as it has, 64 at least, or of
   just those that it lacks. Of `fresh` 128 take slots, where these are free, as `pages` do; where they are more, and where there are new pages beside them, new pages are
   durable before a file has them, for which a plan takes one sync more than a commit. */
uint32_t famsync_resize(struct famsync_handle *handle, const void *image, size_t sectors, struct famsync_call *scratch_calls,
                        size_t scratch_calls_room, void *scratch_rows, size_t scratch_rows_room, size_t *used,
                        struct famsync_call *calls, size_t calls_room, void *rows, size_t rows_room,
                        const struct famsync_size *sizes, size_t size_count, const struct famsync_page *fresh, size_t fresh_count,
                        const struct famsync_page *pages, size_t page_count, const struct famsync_bytes *bytes, size_t byte_count);
uint32_t famsync_done(struct famsync_handle *handle);
void famsync_failed(struct famsync_handle *handle);

/* Nothing is to be carried out after these. `to` is 4,096 bytes; the length is in bytes. */
uint32_t famsync_read(const struct famsync_handle *handle, const void *image, size_t sectors,
                      struct famsync_call *scratch_calls, size_t scratch_calls_room, void *scratch_rows,
                      size_t scratch_rows_room, uint16_t file, uint32_t page, unsigned char *to);
uint32_t famsync_length(const struct famsync_handle *handle, const void *image, size_t sectors,
                        struct famsync_call *scratch_calls, size_t scratch_calls_room, void *scratch_rows,
                        size_t scratch_rows_room, uint16_t file, uint64_t *to);
#endif
