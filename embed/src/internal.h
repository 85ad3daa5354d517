/* What the parts of libkefs share. None of it is for programs that use the library. */
#ifndef KEFS_INTERNAL_H
#define KEFS_INTERNAL_H
/* The calls of kefs.h alone are seen from outside of the library. */
#pragma GCC visibility push(default)
#include "kefs.h"
#pragma GCC visibility pop
#include "famsync.h"
#include "numbers.h"
#include <pthread.h>
#include <signal.h>
#include <stdint.h>
#include <sys/types.h>

enum { PAGE = KEFS_PAGE, SECTOR = 512 };

/* A home page that stands elsewhere, in a journal or in a slot of a pool: the first of the eight sectors that it has there. */
struct place { uint32_t home, sector; };
/* Such pages, by their homes where they are sorted, and how many places of journal or pool they take, `most` at the most: there a home may have two. */
struct places {
  struct place *list, *spare; /* both with room for all places that an image has */
  size_t room, count, taken, most;
  int is_listed, is_sorted;
};

/* What a failed commit has left: nothing has failed; it is not known whether the files are before or after; or which of them stands. */
enum outcome { NO_FAILURE, IN_DOUBT, IS_BEFORE, IS_AFTER };

enum { KIND_SECTOR = 1, MAP_SECTORS = 8, MOST_HOMES = 1 << 30, JOURNAL_PAGES = 1023 };
/* Of layout 4 a file's most bytes, and a directory's most pages; and how many files layout 2 has. */
#define LONGEST_FILE ((uint64_t)1 << 42)
enum { MOST_DIRECTORY = 256, OLDER_FILES = 64 };

/* Where an image has its parts, by their first sectors. Behind a journal's map is its body; a pool has two maps, each of some blocks of 8 sectors and with a body
   behind it. `number` is 0 where nothing is known yet. */
struct layout {
  uint32_t number;
  const char *mark; /* eight bytes */
  uint32_t directory, gate;
  uint32_t maps[2]; /* the one that a gate of other bytes names, or 0: none; and the one that an open gate names */
  uint32_t homes;
  uint32_t blocks, directory_pages; /* of a pool, else 0: the blocks of a map; and the first homes, which are the directory then */
};

/* How the dirty pages of an image are found (kefs.h says what each tracker does). */
enum tracker { TRACKER_NONE, TRACKER_SCAN, TRACKER_SIGNAL, TRACKER_CALLER };

/* The mark of a page. A commit takes a page by turning DIRTY into TAKEN. A store that is noted from then on adds DIRTY
   again, so that the page stays dirty after the commit. */
enum { DIRTY = 1, TAKEN = 2, AREA = 512 };

/* Homes one after the other. */
struct extent { uint32_t first, count; };
/* An entry of the image's directory. The homes of its extents are those of its pages, in their order. */
enum { EXTENTS = 30, PAGE_ENTRIES = 16 }; /* of a file, and entries of a page of the directory */
struct file { int present, read_only; uint64_t length; uint32_t extent_count; struct extent extents[EXTENTS]; };

/* A mapped file. Its first `pages` pages are memory; of the others for which addresses are kept a touch is a SIGBUS. Signal handlers may read `pages` and
   `late` while kefs_resize changes them. */
struct mapping {
  struct kefs_image *image;
  unsigned char *at; /* NULL: the file is not mapped */
  size_t pages, kept; /* that it has now, and for how many there are addresses */
  size_t bare;        /* pages from this one on may not be watched as long as nobody has touched them (trackers.c) */
  size_t late;        /* pages in front that are read when they are first touched. All others were read, or began as zeros */
  unsigned char *marks; /* one a page, changed by atomic operations alone; */
  unsigned char *areas; /* and behind them one of each AREA pages: 0 where the mark of none of them is DIRTY */
  uint32_t *slots; /* of a pool's page that is read when it is touched: the first sector of the slot that it had when the file was mapped, or 0; NULL: no page has one */
  int has_unread;  /* some of these may not be read yet */
  struct file file; /* as it was durable when it was mapped. A page that is late has the home that it had then, for as long as the file has the page */
  struct region *region;
};

/* The pages `first` to `end` of a mapped file, `end` not included. */
struct span { struct mapping *mapping; size_t first, end; };

/* What a writer tells readers (readers.c). */
struct turns {
  int shares;  /* the file system has the locks for it */
  int changes; /* the file is being changed, or may be half made */
  int hurries; /* it has waited for readers in vain, */
  long patient_from; /* and from this millisecond on it waits a little again */
  int is_new;  /* the next state is not one commit after `state` */
  off_t state; /* the byte that says so, or 0 */
};

/* What kefs_resize has made of a file, and no commit has made durable yet (sizes.c): its length; and how many of its durable bytes are left. Of a mapped file
   these are all: its pages tell what became of them. A file that is new is not durable, and one that is gone still is (files.c); `made` is the length that a new
   one was made with. For its length a file lacks so many homes, and gets an extent of as many as it wants where it can; a row of homes lends them (growing.c). */
struct size { int is_new, is_gone; uint32_t lacks, wants, row; uint64_t length, left, made; };

/* Homes that no file has, in rows, by their order; the last row goes up to MOST_HOMES (growing.c). */
struct homes { struct extent *rows; size_t count, room; int is_listed; };

/* The names of files (names.c): file 0 of an image that has them. Record f is the name of file f, zeros where it has none, and record 0 says that these are names.
   Names are found by chains of files whose names have the same remainder, from `first` over `next`. */
enum { NAME = 256 };
struct names {
  size_t count; /* of records */
  char (*records)[NAME], (*durable)[NAME]; /* as they are now, and as they are durable in pages of them that have changed */
  struct numbers changed; /* these pages */
  uint16_t *first, *next;
};

/* Memory that the calls of libfamsync.a cut their blocks from (heap.c): `used` bytes are, the last block from `last` on. */
struct heap { unsigned char *at; size_t length, used, last; };

/* Pages that a commit takes, and where their bytes lie: in the mapped files, or in copies. */
struct taken { struct famsync_page *pages; struct famsync_bytes *bytes; size_t count; };

/* What a commit makes of the lengths of files (sizes.c): nothing, where `count` is 0. */
struct resizing {
  struct famsync_size *sizes;     /* room for one of each file */
  size_t count, added, directory; /* sizes; new pages of their files; and pages of the directory that change */
  int has_names;                  /* the pages of the names that have changed go with it */
  struct famsync_page *fresh;     /* the new pages that are listed, */
  size_t listed;                  /* so many. The others become zeros */
  struct taken lent;              /* the pages that are taken, and the bytes of those that are listed with those of these behind them */
  unsigned char *edges;           /* room for pages of edges, */
  size_t edge_room, edge_count;   /* for so many, and so many are used */
  size_t room, planned_room;      /* how many new pages there is room for, in these lists and in plans. Other commits find it there */
};

/* What stood in the place of the image's bytes and bits before its host file got longer (growing.c). Signal handlers may still read it. */
struct former { const unsigned char *bytes; unsigned char *roomless; size_t sectors; struct former *next; };

/* Those of commits that were started (starts.c), each once, in the order of files and pages: the last of these commits, the copies, and how many threads wait for
   them. */
struct started { struct taken taken; uint64_t last; unsigned char *copies; size_t waiters; };

/* What became of the last try to make started commits durable: the last of them, and the result with its message. */
enum { MESSAGE = 320 }; /* bytes of kefs_errmsg */
struct attempt { uint64_t number, last; int result; char message[MESSAGE]; };

/* Commits that were started. `gathered` are not in a commit yet, `running` are in the one that is made now or has failed. Commits have the numbers of their
   tickets. */
struct starts {
  pthread_cond_t over; /* a commit of them is over, or something else that a thread waits for */
  struct started gathered, running;
  uint64_t last, durable; /* the last one that was started, and the last one that is durable with all before it */
  size_t pages;           /* in `gathered` or in `running` */
  int is_led, is_running; /* a thread leads the next commit of them; and makes its device calls, with the image's lock let go */
  size_t kept_out, others; /* threads whose calls wait for these; and how many of them come before the next commit */
  size_t hoped;           /* how many threads may wait for the next commit soon, */
  long pause, patience;   /* for which its leader waits so many microseconds; and how many commits have none, since it waited in vain */
  struct attempt tried;
};

/* Room that is lent to them for a plan: for `room` calls, of which the first `used` are to be made, and for as many rows. */
struct plan { size_t used, room; struct famsync_call *calls; unsigned char (*rows)[SECTOR]; };

/* Who has an image open, in the list of all handles of this process that keep others out. */
struct owner { dev_t device; ino_t number; uint64_t thread; struct kefs_image *next; };

struct kefs_image {
  pthread_mutex_t lock;
  int cancel; /* the cancel state of the thread that has the lock */
  uint64_t generation; /* of the process that opened it */
  int fd;
  int read_only; /* opened with KEFS_RDONLY or KEFS_SNAPSHOT */
  int takes_layout_3; /* opened by kefscheck, which makes one of layout 4 of it */
  struct turns turns;
  struct snapshot *snapshot; /* with KEFS_SNAPSHOT, or NULL */
  int halted;    /* a device call of a plan failed, */
  size_t failed; /* which had this number in the plan, */
  enum outcome outcome; /* and this became of the commit, whose pages are still taken */
  enum tracker tracker;
  int lazy;
  int faults, pagemap; /* the userfaultfd and /proc/self/pagemap, or -1 */
  int nothing; /* an empty file in memory, or -1: a touch of a mapping of it is a SIGBUS */
  const unsigned char *bytes; /* the host file, mapped shared and never written here; of a snapshot, the copy */
  size_t sectors;
  struct former *former;
  struct layout layout;
  unsigned char *roomless; /* a bit for each eight sectors that may have no room on the device yet, or NULL: all have */
  int way_of_zeros;        /* how bytes of the host file are made zeros (device.c) */
  struct famsync_handle handle;
  struct plan scratch, plan;
  struct heap heap;
  unsigned entries; /* how many files the directory has places for: of each file */
  struct file *files; /* as they are durable; `present` are there */
  struct size *sizes; /* for those that `changed` has */
  struct mapping *mappings;
  uint16_t *in_order; /* the `mapped_count` files that are mapped, in the order of their addresses */
  struct numbers present, changed, mapped;
  size_t mapped_count;
  uint64_t lacks, wants; /* sums of those of all sizes */
  struct homes homes;
  struct names *names; /* of an image that has names; of one that was opened to read since they were asked for. Or NULL */
  struct taken taken; /* what a commit takes of the mapped files */
  struct resizing resizing;
  struct taken *planned; /* what the plan is of: these, or those that are lent with lengths, the started pages that are running, */
  struct taken none;     /* or no page: it tidies the pool */
  struct starts starts;
  struct places places; /* what the journal or the pool has now; where it is not listed it is to be read anew */
  pthread_mutex_t backups; /* one backup at a time */
  unsigned char *late;     /* a bit for each home that a backup has to copy yet, or NULL */
  struct kefs_stat stat;
  uint64_t serial;  /* of all images that this process opened */
  struct owner owner;
  const char *path; /* while it is being opened, or NULL */
};

/* process.c: what belongs to the whole process. */

/* A number that this process has, and no child that inherits its handles: KEFS_OK or ENOMEM. */
int this_generation(uint64_t *generation);
/* Whether a number is not that of this process; and whether an image is of a parent process. */
int is_of_parent(uint64_t generation);
int is_forked(const struct kefs_image *image);
void lock_process(void);
void unlock_process(void);
/* Notes that this thread has the image open by this handle, or no longer. */
void add_owner(struct kefs_image *image);
void remove_owner(struct kefs_image *image);
/* Whether this thread has this file open by a handle that keeps others out: to wait for that would never end. */
int is_own(int fd);

/* regions.c: which addresses of the process are mapped files. */

/* Makes a mapping, with all its addresses, known to mapping_at: KEFS_OK or ENOMEM. */
int add_region(struct mapping *mapping);
void remove_region(struct mapping *mapping);
/* The mapped file of this process that has, or may come to have, the byte at this address, or NULL. Signal handlers may call it. */
struct mapping *mapping_at(const void *address);

/* heap.c */

/* From here on this thread's calls of libfamsync.a take memory from this, all of which is free; or none any more. */
void begin_heap(struct heap *heap);
void end_heap(void);

/* results.c */

/* Writes this thread's message of the image, or that of its openings where there is no image, and returns the result. */
int fail(const struct kefs_image *image, int result, const char *format, ...) __attribute__((format(printf, 3, 4)));
/* Makes the message of the image that of this thread's openings. */
void keep_message(const struct kefs_image *image);
/* A number that no image had before. */
uint64_t new_serial(void);
/* The result that an errno value of a device call gives: ENOSPC and EDQUOT as they are, else KEFS_DEVICE. */
int device_result(int number);

/* layout.c: what docs/FORMATS.md says of an image. */

/* The bytes are mapped anew where the host file gets longer, and signal handlers read them. */
static inline const unsigned char *sector_at(const struct kefs_image *image, size_t sector) {
  return __atomic_load_n(&image->bytes, __ATOMIC_ACQUIRE) + SECTOR * sector;
}

static inline uint32_t number_at(const unsigned char *at) {
  return at[0] | (uint32_t)at[1] << 8 | (uint32_t)at[2] << 16 | (uint32_t)at[3] << 24;
}

/* Of a file of so many bytes. */
static inline uint64_t pages_of(uint64_t length) { return (length + PAGE - 1) / PAGE; }

static inline size_t home_sector(const struct layout *layout, uint32_t home) { return layout->homes + (size_t)PAGE / SECTOR * home; }
static inline off_t home_offset(const struct layout *layout, uint32_t home) { return (off_t)(SECTOR * home_sector(layout, home)); }

/* The layout that an image has by its kind, whether or not its mark is that of it. */
struct layout layout_of(const struct kefs_image *image);
/* Layout 4 with a pool of so many blocks, and with so many pages of directory. */
struct layout pool_layout(uint32_t blocks, uint32_t directory_pages);
int is_same_layout(const struct layout *one, const struct layout *other);
/* How many sectors a host file of this layout has at least. */
static inline size_t least_sectors(const struct layout *layout) { return home_sector(layout, layout->directory_pages); }
/* How many places there are for pages outside of their homes, in one journal or in the pool: so many pages every commit may take. */
size_t places_of(const struct layout *layout);
/* How many home pages the host file has. */
uint64_t home_pages(const struct kefs_image *image);
/* Entry `f` of the directory: KEFS_OK, or KEFS_NOT_IMAGE where it is none, and the reason. */
int read_entry(struct kefs_image *image, unsigned f, struct file *to, const char **why);
/* How many entries the directory has. */
unsigned entries_of(const struct layout *layout);
void read_directory(struct kefs_image *image);
/* Of an image of layout 4 the entries of these files alone, which a commit has changed. */
void read_entries(struct kefs_image *image, const struct famsync_size *sizes, size_t count);
/* Room for what is known of each file: KEFS_OK or ENOMEM. */
int make_tables(struct kefs_image *image);
void drop_tables(struct kefs_image *image);
/* The home of page `k` of a file, and how many of its pages from that one on have their homes one after the other; none where it has no more homes. */
size_t homes_from(const struct file *file, size_t k, uint32_t *home);
uint32_t home_of_page(const struct file *file, size_t k);
/* Whether a sector that is the journal's gate has it open. */
int is_open_gate(const unsigned char *sector);
int has_open_gate(const struct kefs_image *image);
/* Whether the image's gate says what this row of a plan, which was to be written there, says. */
int gate_says(const struct kefs_image *image, const unsigned char *row);
/* The first sector of the map that the gate names, or 0: it names none. */
uint32_t named_map(const struct kefs_image *image);
/* How many pages the journal has by its map, or blocks of a pool's map count: 0 where there is none. */
uint32_t count_of_map(const struct kefs_image *image);
/* The home of page `i` of the journal: not of a pool. */
uint32_t journal_home(const struct kefs_image *image, uint32_t i);
/* Copies the durable bytes of a home page. */
void copy_durable_page(struct kefs_image *image, uint32_t home, unsigned char *to);
/* Page `k` of a file as it is durable, with zeros past the end that it has so. The file has such a page. */
void copy_durable(struct kefs_image *image, unsigned f, size_t k, unsigned char *to);
/* How many homes from one on, of so many, are a hole of what the image's bytes are read from, and stand in no slot: zeros. */
uint64_t count_empty(struct kefs_image *image, uint32_t home, uint64_t most);
static inline size_t durable_pages(const struct kefs_image *image, unsigned f) { return (size_t)pages_of(image->files[f].length); }
/* Whether sector 0, which has to be there, is these eight bytes again and again. */
int has_mark(const struct kefs_image *image, const char *mark);

/* places.c: where pages stand that are not in their homes. */

/* Room for the places of an image of this layout: KEFS_OK or ENOMEM. */
int new_places(const struct layout *layout, struct places *places);
void drop_places(struct places *places);
/* Lists the places of a map, `map` being its bytes and `first` its first sector, in a store of so many homes. */
void list_places(const struct layout *layout, uint64_t homes, const unsigned char *map, uint32_t first, struct places *places);
/* Puts places into the order of their homes, each of these once: those of one home stay in their order, and the first of them counts. */
void sort_places(struct places *places);
/* Puts places into the order of their homes, and those of one home leaves in theirs. They are in the spare room then. */
void order_places(struct places *places);
/* Of sorted places the number of the first whose home is `home` or a later one, or how many they are. */
size_t first_place(const struct places *places, uint32_t home);
/* The image's own, as its gate and maps are now. */
const struct places *image_places(struct kefs_image *image);
/* After a plan of so many pages: these are to be read anew, but so many more are taken at the most. */
void change_places(struct kefs_image *image, size_t pages);
/* Whether the next commit may take so many pages before any is brought home. */
int has_free_places(struct kefs_image *image, size_t pages);
size_t free_places(struct kefs_image *image);
/* The first sector of what stands for a home. */
size_t standing_sector(struct kefs_image *image, uint32_t home);
/* Of a pool's image those of the first homes, so many of them, found without a list of all places. */
void first_sectors(const struct kefs_image *image, uint32_t count, size_t *sectors);
/* Has the places read anew, after calls of a plan. */
void forget_places(struct kefs_image *image);

/* format.c: new images. They are of layout 4. */

/* Of a new image, where nothing else is asked. */
enum { DIRECTORY_PAGES = OLDER_FILES / PAGE_ENTRIES, POOL_BLOCKS = 4 };
/* Where a new image takes room from the first: up to its homes and directory, or where its pool takes its own later up to the map that its gate names. */
int take_first_room(int fd, const struct layout *layout, int has_pool);
/* Writes the directory of these files, so many in the order of their numbers, of one extent each, where the layout has it. KEFS_OK or an errno value. */
int write_directory(int fd, const struct layout *layout, const struct file *files, size_t count);
/* What comes last: a sync of all that was written, kind and mark, each with a sync of its own. KEFS_OK or an errno value. */
int finish_image(int fd, const struct layout *layout);
/* Makes an image as options say: kefs_format with some more. And how many files its directory has places for. */
int format_as(const char *path, const struct kefs_options *options);
unsigned places_asked(const struct kefs_options *options);

/* findings.c */

/* What is wrong with an image: KEFS_OK, or the result that an opening gives, and the reason in words. */
struct finding { int result; char words[160]; };
struct finding check_image(struct kefs_image *image);
/* As it, but that layout 3 is none that is wrong. */
struct finding check_store(struct kefs_image *image);
/* What is wrong with layout 3. */
extern const char OF_LAYOUT_3[];

/* device.c */

/* Opens a file as open(2), at a descriptor over those of the standard streams, which programs write to though they are closed. */
int open_high(const char *path, int flags, mode_t mode);
/* Moves a descriptor there, where it is one: the new one, or -1 and errno. */
int move_high(int fd);
/* A file in memory that has no name, or -1 and errno. */
int new_memory_file(void);
/* Each returns KEFS_OK or an errno value. */
int set_length(int fd, off_t length);
int write_all(int fd, const void *bytes, size_t length, off_t offset);
int read_all(int fd, void *to, size_t length, off_t offset);
/* As read_all, of memory of zeros: what is a hole of the file is left as it is, and takes no memory. How many bytes are none is added to *read. */
int read_data(int fd, void *to, size_t length, off_t offset, size_t *read);
int sync_data(int fd);
/* Where the next bytes from `at` on begin that are no hole, or `end`, and in *hole where these end. Where the file system does not say, all are none. */
off_t next_data(int fd, off_t at, off_t end, off_t *hole);
/* Takes room on the device for these bytes of a file: KEFS_OK, also where the file system can't do so, or an errno value. */
int take_room(int fd, off_t offset, off_t length);
/* Whether some of the eight sectors from this one on may have no room on the device: they are read by calls then (open.c says why). Signal handlers may call it. */
int may_lack_room(const struct kefs_image *image, size_t sector);
/* Takes room for these sectors, as far as the image has them and they may have none: KEFS_OK, or the image's result. */
int take_sectors(struct kefs_image *image, size_t first, size_t end);
/* Takes room for what the plan writes, before any call of it, and in layout 2 for the homes of the pages that are taken: KEFS_OK, or the image's result. */
int take_rooms(struct kefs_image *image);
/* Makes the calls of the image's plan: KEFS_OK, or a result; then the image is halted. The lock is let go for each call where started commits are running. */
int carry_out(struct kefs_image *image);

/* create.c: new files that get their names when they are whole. */

struct new_file { const char *path; char *unfinished; int fd; };
/* Makes a file without a name, or with one of its own in the same folder: KEFS_OK or an errno value. */
int begin_file(struct new_file *file, const char *path, unsigned permissions);
/* Gives it its name, durably; where something has it, EEXIST. After EIO it may have its name, which is then not known to be durable. */
int name_file(struct new_file *file);
/* Makes the name that a path gives to an open file durable: KEFS_OK or an errno value. */
int sync_name(const char *path, int file);
/* Lets it go: without its name it is gone. */
void end_file(struct new_file *file);
/* The result that an errno value of a new file gives. */
int new_file_result(int number);

/* open.c */

/* The process that took a lock of this file, as /proc/locks says, or 0. It may have ended, and a child of it have the lock. */
int holder_of(int fd);
/* Syncs the host file, and has what is cached of it read anew: a plan begins on an image that the device holds, and a reader gives
   out nothing that a power cut could take back. KEFS_OK or the image's result. */
int settle(struct kefs_image *image);
/* The layout that the host file has by its kind, which is read by a call: KEFS_OK or the image's result. */
int read_kind(struct kefs_image *image);
/* KEFS_NOT_IMAGE where an image is of layout 3, which is read to be made anew alone, else KEFS_OK. */
int refuse_layout_3(const struct kefs_image *image);
/* Opens an image of any layout to read, and waits for nobody: for kefscheck. Of layout 3 its pages are read, and no more is done. */
int open_older(kefs_image **to, const char *path);
/* So many sectors of the host file, mapped to read, or NULL. */
const unsigned char *map_sectors(const struct kefs_image *image, size_t sectors);
/* Puts a copy of what an opening reads of an image in the place of its mapping, for a reader: KEFS_OK or the image's result. */
int copy_head(struct kefs_image *image);
/* Room for plans of this layout, and for what its commits take, which takes none before it is touched: KEFS_OK or ENOMEM. */
int make_rooms(struct kefs_image *image);
/* Room for a plan of so many new pages besides, more or fewer than before, each of which takes so many calls at the most: KEFS_OK or ENOMEM. */
enum { ROWS_OF_PAGE = PAGE / SECTOR };
int set_plan_rooms(struct kefs_image *image, size_t added);
/* Carries out the journal of a host file that is settled: KEFS_OK or a result. A reader makes no call of the plan: it reads through the
   journal, and commits nothing. */
int recover(struct kefs_image *image);
/* Room for so many pages that are taken: KEFS_OK or ENOMEM. */
int new_taken(struct taken *taken, size_t room);
void drop_taken(struct taken *taken, size_t room);
/* Lets go the room that plans had. */
void drop_rooms(struct kefs_image *image);
/* Settles and recovers a halted image, ends the commit that failed, and lets readers in: KEFS_OK, or the image's result. */
int recover_in_place(struct kefs_image *image);

/* waits.c */

/* Of a clock that is never set back. */
long microseconds(void);
long milliseconds(void);
/* A wait that ends at some millisecond, and how many microseconds it sleeps next. */
struct wait { long begin, end, pause; };
/* A wait of so many milliseconds from now on, or -1: for ever. */
struct wait wait_of(long limit);
/* Sleeps until the next look, with these signals blocked, or NULL for those that are. EWOULDBLOCK: the wait is over. EINTR: a signal came. */
int rest(struct wait *wait, const sigset_t *blocked);
/* Looks until there is another answer than EWOULDBLOCK, or the wait ends as `rest` says. */
int look_until(int (*look)(void *), void *of, struct wait *wait);

/* readers.c */

/* Locks the host file for a writer, in so many milliseconds, -1 for no limit, and begins a change of it: KEFS_OK, EWOULDBLOCK or an errno value. */
int lock_to_write(struct kefs_image *image, long limit);
/* Locks it for a reader that is no snapshot, against writers. */
int lock_to_read(struct kefs_image *image, long limit);
/* Waits for readers' turns, and keeps others from them: KEFS_OK, or the image's result, when nothing was done. It does nothing where a change was
   begun. */
int begin_change(struct kefs_image *image);
/* Whether the image's plan copies pages from slots to homes. */
int has_dropped(const struct kefs_image *image);
/* Lets readers in, but to a halted image: the file is as after a commit, and synced. */
void end_change(struct kefs_image *image);
/* In a change: waits until no reader is reading, a second at most. */
void await_readers(struct kefs_image *image);
/* Lets all these locks go. */
void end_turns(struct kefs_image *image);

/* Gives an image a snapshot, which waits so many milliseconds: KEFS_OK or ENOMEM. */
int begin_snapshot(struct kefs_image *image, long limit);
void end_snapshot(struct kefs_image *image);
/* Reads the used pages of the host file into it, with the journal carried out: KEFS_OK or the image's result. ESTALE: the file has no name any
   more. */
int read_snapshot(struct kefs_image *image);
/* The file that has an image's bytes as they are read, and how many bytes it has before them. */
int file_of_bytes(const struct kefs_image *image, off_t *before);
/* Maps the pages of a file of it to read, at the addresses that are kept for them: KEFS_OK or an errno value. */
int map_snapshot(struct mapping *mapping);

/* trackers.c */

/* Chooses the tracker that the flags of an opening ask for: KEFS_OK, KEFS_NO_TRACKER or an errno value. */
int begin_tracking(struct kefs_image *image, unsigned flags);
void end_tracking(struct kefs_image *image);
/* Reads the pages of a new mapping, or has them read later, and tracks it from here on: KEFS_OK or an errno value. */
int load(struct mapping *mapping);
/* Has the kernel note the stores to these pages of new memory from here on, where the tracker is the scan: KEFS_OK or an errno value. */
int watch_new(const struct span *span);
/* Finds the pages of new memory that were touched, among them all that were stored to, and gives each row of them to `take`, in their order: KEFS_OK or an errno
   value. It is for trackers that do not note stores to new pages. */
typedef void take_row(struct mapping *mapping, size_t first, size_t end);
int find_touched(const struct span *span, take_row *take);
/* Marks the pages that were stored to since the last look: KEFS_OK or an errno value. */
int note_dirty(const struct span *span);
/* Has the next store to each of these pages noted, where note_dirty has not done so. It comes after their marks were taken. */
int seal(const struct span *span);
/* Has stores to new pages go unnoted again, as before they were sealed. */
void unseal(const struct span *span);
/* Forgets the stores to these pages that no mark names yet. */
int forget_stores(const struct span *span);
/* Marks the pages as dirty, and lets system calls store to them. */
int open_pages(const struct span *span);
/* Reads those of the pages that were not read yet: KEFS_OK or an errno value. */
int fill_missing(const struct span *span);
/* Reads those that had slots of a pool, before these may be given to others: KEFS_OK or an errno value. */
int fill_slotted(struct kefs_image *image);

/* commits.c */

static inline uint64_t order_of(const struct famsync_page *page) { return (uint64_t)page->file << 32 | page->page; }
int check_ranges(struct kefs_image *image, const struct kefs_range *ranges, size_t count);
/* Whether a range has a byte of the addresses that are kept for a file, where it is mapped. */
int has_byte_of(struct mapping *mapping, const struct kefs_range *ranges, size_t count);
/* The first page from `k` on whose mark is not 0, in an area that is not clean, or `end`. */
size_t next_marked(const struct mapping *mapping, size_t k, size_t end);
/* Page `k` of a mapped file as the last commit has it that was started or made. */
void copy_committed(struct mapping *mapping, size_t k, unsigned char *to);
/* Whether a page of a file is taken. Where the file is not mapped none is. */
static inline int is_taken(const struct mapping *mapping, size_t k) {
  return mapping->at != NULL && (__atomic_load_n(&mapping->marks[k], __ATOMIC_SEQ_CST) & TAKEN) != 0;
}
/* Takes the dirty pages of these ranges, but new ones, and the edges of the lengths that are taken, in the order of files and pages: KEFS_OK or the image's
   result. Where `may_compare`, pages that are as they are durable are left out if that makes them few enough. */
int take_pages(struct kefs_image *image, const struct kefs_range *ranges, size_t count, int may_compare);
int are_too_many(struct kefs_image *image);
/* Adds a page to those that are taken: whether it found place there. */
int put_taken(struct kefs_image *image, unsigned f, size_t k);
/* Lets the pages go that are taken, dirty again where it is not done. */
void let_all_go(struct kefs_image *image, int done);
/* Makes these pages durable: KEFS_OK or the image's result. It may be halted then. */
int commit_taken(struct kefs_image *image, struct taken *taken);
/* kefs_commit, behind what was started. */
int commit(struct kefs_image *image, const struct kefs_range *ranges, size_t count, size_t *taken);
/* Makes the calls of the image's plan, which this handle is of: KEFS_OK or the image's result. It may be halted then. */
int make_plan_calls(struct kefs_image *image, const struct famsync_handle *handle);
/* Brings all pages of a pool home: KEFS_OK, also where it has none, or the image's result. It may be halted then. */
int tidy(struct kefs_image *image);
/* Does so where fewer places are free than a commit has pages. */
int make_room_for(struct kefs_image *image, size_t pages);
/* Of a commit after which the image is halted: recovers at once where the device had no room. KEFS_OK where the commit is durable, or the result. */
int go_on(struct kefs_image *image, int result);
/* Ends a commit: lets its pages go, and counts it where it is done. */
void end_commit(struct kefs_image *image, int done);

/* sizes.c: what files are to be. */

/* The length of a file as kefs_resize has left it, in bytes, and how many of its durable bytes it has still, of a file that is not mapped. */
uint64_t length_of(const struct kefs_image *image, unsigned f);
uint64_t left_of(const struct kefs_image *image, unsigned f);
/* Has a file be what this says, which is another than the durable one. */
void put_size(struct kefs_image *image, unsigned f, const struct size *size);
/* Gives a file the length again that is durable. */
void forget_size(struct kefs_image *image, unsigned f);
/* Brings a new mapping, of the pages that are left of what is durable, to the length that the file has: KEFS_OK or an errno value. */
int fit_new_mapping(struct mapping *mapping);
/* Notes that there is such a mapping: its pages tell what became of durable bytes. */
void settle_size(struct kefs_image *image, unsigned f);
/* Whether a commit of these ranges makes a length durable. */
int has_sizes(struct kefs_image *image, const struct kefs_range *ranges, size_t count);
/* Takes the lengths of a commit of these ranges, and the new pages: KEFS_OK or the image's result. */
int take_sizes(struct kefs_image *image, const struct kefs_range *ranges, size_t count);
/* Adds the edges of the lengths that are taken to the pages that are: KEFS_OK, or KEFS_TOO_MANY. And the bytes of a page of an edge. */
int take_edges(struct kefs_image *image);
const unsigned char *edge_bytes(struct kefs_image *image, unsigned f, size_t k);
/* Makes these lengths durable, with the pages that are taken: KEFS_OK or the image's result. It may be halted then. */
int commit_sizes(struct kefs_image *image);
/* The homes of the new pages of such a commit, whose directory the image has already and `files` has not, in rows: whether there is one more. It begins as
   the image and zeros. */
struct new_homes { struct kefs_image *image; size_t size, page; };
int next_new_homes(struct new_homes *it, struct extent *homes);
/* Ends a commit of lengths, or does nothing where it is of none. */
void end_sizes(struct kefs_image *image, int done);
/* Lets the room go that such commits have left for the next ones. */
void drop_sizes(struct kefs_image *image);
/* How many pages a commit of these ranges takes for the sake of lengths. The dirty pages that it takes are taken. */
size_t count_sized(struct kefs_image *image, const struct kefs_range *ranges, size_t count);
/* Takes the lengths back that belong to these ranges: KEFS_OK or an errno value. */
int roll_back_sizes(struct kefs_image *image, const struct kefs_range *ranges, size_t count);

/* files.c: files that come and go. */

/* Whether a file is there now; whether it is there, and no commit has taken that; and whether it was not, or not to be, at the last commit. */
int is_there(const struct kefs_image *image, unsigned f);
int is_new(const struct kefs_image *image, unsigned f);
int comes_or_goes(const struct kefs_image *image, unsigned f);
uint32_t count_files(const struct kefs_image *image);
/* Whether a call of these ranges is of the files that come and go, and of the names. They all go together. */
int means_files(struct kefs_image *image, const struct kefs_range *ranges, size_t count);
/* What becomes of a file that is unmapped: it has its durable length again, or that with which it was made. */
void lose_size(struct kefs_image *image, unsigned f);
/* Why no file of this number and length can be made now, or KEFS_OK; and makes it: KEFS_OK or the image's result. */
int check_new(struct kefs_image *image, unsigned f, size_t length);
int make_new(struct kefs_image *image, unsigned f, uint64_t length);
/* Why a file can't go now, or KEFS_OK; and has it go. */
int check_going(struct kefs_image *image, unsigned f);
void let_file_go(struct kefs_image *image, unsigned f);
/* The answer to a call that would change the files of an image that is open to read, or of layout 2, or KEFS_OK. */
int check_files_change(const struct kefs_image *image, const char *call);

/* names.c: names of files. */

/* Makes an image with names, and no other file than these, as format_as does. */
int format_with_names(const char *path, const struct kefs_options *options);
/* Takes the names of an image into memory, where it has them: KEFS_OK or ENOMEM. */
int begin_names(struct kefs_image *image);
void end_names(struct kefs_image *image);
/* Whether this is the file of the names of an image that is open to write. */
int is_names_file(const struct kefs_image *image, unsigned f);
/* The name of a file, or NULL. */
const char *name_of(const struct kefs_image *image, unsigned f);
/* The first page of them from `k` on that has other bytes than it has durably, or KEFS_FILES; and how many have. */
size_t next_changed_name_page(const struct kefs_image *image, size_t k);
size_t count_changed_name_pages(const struct kefs_image *image);
/* Page `k` of them. */
const unsigned char *names_page(const struct kefs_image *image, size_t k);
/* Makes what is durable of them, or notes that all that have changed are durable now. */
void roll_back_names(struct kefs_image *image);
void settle_names(struct kefs_image *image);
/* Takes the name of a file away. */
void clear_name(struct kefs_image *image, unsigned f);

/* addresses.c: the memory of mapped files, and the addresses that are kept behind it. */

/* Keeps addresses for a mapping, at those that are wanted where these are not NULL, and no memory: KEFS_OK or an errno value, as the next ones. */
int keep_addresses(struct mapping *mapping, void *wanted);
/* Puts memory of zeros at the addresses of these pages. It may be stored to. */
int put_memory(const struct span *span);
/* Takes what is there away, so that a touch is a SIGBUS. */
int take_memory(const struct span *span);
/* Takes the marks of these pages away. */
void clear_marks(const struct span *span);
/* Gives a mapping more pages, of zeros. Those that the file has durably are dirty, and new ones are when they are stored to, */
int lengthen_mapping(struct mapping *mapping, size_t pages);
/* or more that are as the last commit has them, and clean, */
int restore_mapping(struct mapping *mapping, size_t pages);
/* or fewer. */
int shorten_mapping(struct mapping *mapping, size_t pages);
/* Lists a mapping among those of its image in the order of addresses, or no longer; and the place there of the first that ends behind an address. */
void note_order(struct mapping *mapping);
void forget_order(struct mapping *mapping);
size_t first_mapped(const struct kefs_image *image, uintptr_t address);

/* growing.c: homes for files that grow. */

/* How many homes a file lacks for a length, beside those that it has durably; and how many an extent should have that brings them. */
void find_lacks(const struct kefs_image *image, unsigned f, struct size *size);
/* Sees to it that there are homes for the files as they are to be, of which file `f` has got longer, in a longer host file where they are too few: KEFS_OK, or
   the image's result. */
int make_homes(struct kefs_image *image, unsigned f);
/* Makes the host file longer, so that each file finds the homes that it lacks in a row: KEFS_OK, or the image's result. */
int lengthen_image(struct kefs_image *image);
/* A commit has made `after` of what a file was durably. */
void change_homes(struct kefs_image *image, const struct file *before, const struct file *after);
void drop_homes(struct kefs_image *image);
void drop_former(struct kefs_image *image);

/* tidy.c */

/* A plan that leaves no page in the pool: KEFS_OK or the image's result. */
int plan_tidy(struct kefs_image *image, struct famsync_handle *handle);

/* starts.c */

void begin_starts(struct kefs_image *image);
/* Lets the room for started pages go. */
void drop_starts(struct kefs_image *image);
/* Waits until the calls of the commit that is running are over. */
void await_run(struct kefs_image *image);
/* Makes all that was started durable, while no other call comes: KEFS_OK or the image's result. */
int commit_started(struct kefs_image *image);
/* Says what became of the started pages that are running, or does nothing where none are. */
void end_running(struct kefs_image *image, int done);
/* The bytes of a page as it was started last, if it is not durable yet, or NULL. */
const unsigned char *started_bytes(const struct kefs_image *image, const struct mapping *mapping, size_t k);
/* Lets other threads start commits while started ones are running, and no longer. */
static inline void let_in(struct kefs_image *image) { if (image->starts.is_running) pthread_mutex_unlock(&image->lock); }
static inline void keep_out(struct kefs_image *image) { if (image->starts.is_running) pthread_mutex_lock(&image->lock); }

/* backup.c */

/* Notes homes that a commit has changed, for a backup that has copied them before. Of a commit of lengths it comes before its directory is read. */
void note_homes(struct kefs_image *image);

/* kefs.c */

/* Memory of zeros that takes room only where it is touched, or NULL. */
void *new_memory(size_t length);
void drop_memory(const void *at, size_t length);

/* KEFS_NO_FILE where the image has no such file. */
int file_of(struct kefs_image *image, unsigned file);

/* Takes the image's lock for a call: KEFS_OK, or the reason why there can be no call. `enter_halted` takes a halted image too, and `enter_beside` does so while
   started commits are running. */
int enter(struct kefs_image *image);
int enter_halted(struct kefs_image *image);
int enter_beside(struct kefs_image *image);
/* Lets the lock go, and returns the result. */
int leave(struct kefs_image *image, int result);

/* A byte that other threads and signal handlers change. */
static inline unsigned char add_mark(unsigned char *mark, unsigned char bits) {
  return __atomic_fetch_or(mark, bits, __ATOMIC_SEQ_CST);
}

static inline unsigned char drop_mark(unsigned char *mark, unsigned char bits) {
  return __atomic_fetch_and(mark, (unsigned char)~bits, __ATOMIC_SEQ_CST);
}

static inline void set_area(struct mapping *mapping, size_t k, unsigned char mark) { __atomic_store_n(&mapping->areas[k / AREA], mark, __ATOMIC_SEQ_CST); }

/* A commit clears the mark of an area before it looks at those of its pages: so one that is set meanwhile is seen by it, or the area's mark stays. */
static inline void mark_dirty(struct mapping *mapping, size_t k) {
  add_mark(&mapping->marks[k], DIRTY);
  set_area(mapping, k, 1);
}

static inline size_t areas_of(const struct mapping *mapping) { return mapping->kept / AREA + 1; }

static inline unsigned file_number(const struct mapping *mapping) { return (unsigned)(mapping - mapping->image->mappings); }

/* What signal handlers, and calls that take no lock, see of a mapping's pages. */
static inline size_t pages_now(const struct mapping *mapping) { return __atomic_load_n(&mapping->pages, __ATOMIC_SEQ_CST); }
static inline size_t late_now(const struct mapping *mapping) { return __atomic_load_n(&mapping->late, __ATOMIC_SEQ_CST); }

/* Of so many sectors. */
static inline size_t mapped_bytes(size_t sectors) { return SECTOR * sectors + 1; }
static inline size_t room_bytes(size_t sectors) { return sectors / 64 + 1; }
/* Of a bit for each home that the image may ever have: of layout 4 the host file gets longer where files grow. */
static inline size_t bits_bytes(const struct kefs_image *image) { return (image->layout.blocks > 0 ? MOST_HOMES : (size_t)image->stat.pages) / 8 + 1; }

static inline int bit_of(const unsigned char *bits, size_t k) { return bits[k / 8] >> k % 8 & 1; }
static inline void set_bit(unsigned char *bits, size_t k) { bits[k / 8] |= (unsigned char)(1 << k % 8); }
static inline void clear_bit(unsigned char *bits, size_t k) { bits[k / 8] &= (unsigned char)~(1 << k % 8); }

/* For the time between, ThreadSanitizer notes no read of this thread: a page may be stored to while a commit reads it, and then it
   stays dirty. In a program without it these are no calls. */
extern void AnnotateIgnoreReadsBegin(const char *file, int line) __attribute__((weak));
extern void AnnotateIgnoreReadsEnd(const char *file, int line) __attribute__((weak));
static inline void ignore_reads(int on) {
  if (on && AnnotateIgnoreReadsBegin != NULL) AnnotateIgnoreReadsBegin(__FILE__, __LINE__);
  if (!on && AnnotateIgnoreReadsEnd != NULL) AnnotateIgnoreReadsEnd(__FILE__, __LINE__);
}

#endif
