/* kefs.h, version 2.0: failure-atomic msync on a program's own memory (Park, Kelly and Shen, "Failure-Atomic msync()",
   EuroSys 2013), over the proved plans of libfamsync.a. An image is one host file that holds up to 4,096 files of up to 2^42 bytes
   each (docs/FORMATS.md). A program maps some of them, stores to the memory, gives them other lengths, makes and removes some, and
   commits what it has done. New images are of layout 4. Those of layout 2 are opened too, and have up to 64 files of fixed lengths of under 2^32 bytes; one of
   layout 3 is KEFS_NOT_IMAGE, and `kefscheck upgrade OLD NEW` makes one of layout 4 of it.

   After a commit has returned KEFS_OK each page and each length that it took is durable, in all files at once. After a crash or a
   power cut at any moment the files are as after some prefix of the commits, each of them whole, and no commit that
   returned KEFS_OK is missing. That a plan of device calls does so is proved; that this library makes the calls of
   the plan and finds each dirty page is C, and tested. All of it rests on a host file that no other program writes
   or maps while it is open here, and on a device that keeps what was synced. Of what was not synced a cut may leave any
   bytes in each sector of 512 bytes that was written, and, but for layout 2, in each block of 4,096 bytes that has such a
   sector; in no other. (In an image of layout 2 a block that is torn in all its sectors may be one that had other parts.)

   Results. A call that can fail returns an int: KEFS_OK (0), an errno value (over 0), or one of enum kefs_result (under
   0). Errno itself is not part of the interface. An out-pointer is written only with KEFS_OK, but for the handle of an
   opening. Strings that are returned are not freed. Any call may return KEFS_BAD_ARGUMENT, any on an image KEFS_FORKED, and any but
   kefs_close, kefs_recover, kefs_mark_dirty and kefs_touch KEFS_HALTED; a call's own comment names its other results.
   The library maps the host file to read it: where the device fails such a read, the process gets a SIGBUS, as with any
   mapped file. Of a sparse host file it reads by calls what may have no room on the device.

   Stores that nothing notes. Under every tracker, bytes that the system puts into mapped memory past the page cache are noted when the
   system call begins: those of read(2) and its like from a file that was opened with O_DIRECT, and with io_uring's fixed buffers
   those of every read after the first commit. Where a commit runs meanwhile, or comes between, such bytes may never become durable.
   Call kefs_mark_dirty on them after each such read has returned, and under KEFS_TRACK_SIGNAL before it too. Nothing else does so:
   not ordinary reads, and not stores of the program's own.

   Pages are of 4,096 bytes (KEFS_PAGE), from a file's byte 0 on. A dirty page is one that was stored to since it
   was mapped, last committed or rolled back.

   Threads. Calls on one image may come from any threads: a lock of the image takes them one after the other;
   kefs_commit_start, and a kefs_commit_wait that joins it, come while another kefs_commit_wait makes its device calls.
   kefs_mark_dirty and kefs_touch do not wait for it, and come only while their bytes are mapped. Calls on different
   images do not wait for each other. Stores to mapped memory may go on during any call but kefs_rollback of the same
   bytes, a kefs_resize that cuts them off, and the kefs_close or kefs_unmap of their file; no call may run beside the kefs_close of its image. Of a page
   that is stored to while kefs_commit runs, any mix of older and newer bytes becomes durable, and the page stays dirty:
   the next commit takes it again. So a program that wants whole transactions holds its own lock over its stores and
   over kefs_commit. No call may be made in a signal handler. No call is a cancellation point of pthread_cancel, and
   each takes up to 128 KiB of its thread's stack.

   Fork. A child has no image and no mapping: an access of the memory is a SIGSEGV there, and each call on an inherited
   handle returns KEFS_FORKED and does nothing. Only kefs_close in a child lets go the handle and the file descriptors
   that the child inherited; the parent's image stays as it is. A child may open images of its own. Where the parent is
   killed, the image can be opened at once, but while a child lives that has inherited the descriptor and neither closed it, nor called
   exec or kefs_close.

   Who may read the host file. A program with no more than the right to read it changes nothing of it and of what others read. But by
   locks it can keep openings and refreshes out, and take a tenth of a writer's time. So give 0600 where nobody else shall read.

   Trackers. How the dirty pages are found, by the flags of kefs_open:
   - scan: PAGEMAP_SCAN and an asynchronous userfaultfd, of Linux 6.7 or later. The kernel notes stores, those of
     read(2) and other system calls included, but those above.
   - signal: dirty pages alone may be stored to, and a handler of SIGSEGV notes the first store to each other page.
     Where the process has so many mappings that the kernel allows no more (some 65,000), pages beside it count as dirty
     too. A system call that stores to a page that is not dirty, as read(2) into mapped memory, fails with EFAULT: call
     kefs_mark_dirty on the bytes before. The handler passes a fault that is not of a mapped file on to the handler that
     was there before, with the mask and the flags that this one asked for, but on the alternate stack where there is one; it has to
     stay installed, and no thread may block the signal while it stores.
   - caller: nothing is noted but what kefs_mark_dirty names. The fastest one; a store that was not named may or may not
     become durable. */
#ifndef KEFS_H
#define KEFS_H
#include <stddef.h>
#include <stdint.h>
#ifdef __cplusplus
extern "C" {
#endif

#define KEFS_VERSION_MAJOR 2
#define KEFS_VERSION_MINOR 0
#define KEFS_VERSION_PATCH 0
/* 1,000,000 * major + 1,000 * minor + patch. */
#define KEFS_VERSION_NUMBER (KEFS_VERSION_MAJOR * 1000000 + KEFS_VERSION_MINOR * 1000 + KEFS_VERSION_PATCH)

enum {
  KEFS_PAGE = 4096,       /* bytes of a page */
  KEFS_FILES = 4096,      /* files of an image at most, numbered from 0 on; its directory may have places for fewer */
  KEFS_MOST_PAGES = 1023  /* pages of one commit at most, of layout 2; kefs_stat says how many of any image */
};

enum kefs_result {
  KEFS_OK = 0,
  KEFS_NOT_IMAGE = -31001,   /* the host file has no layout of a store: never an image, of layout 1 or 3, or damaged */
  KEFS_BAD_JOURNAL = -31002, /* the image's journal has a map that no commit writes */
  KEFS_BUSY = -31003,        /* another process or handle has the image open, and the wait for it is over */
  KEFS_NO_FILE = -31004,     /* the image has no file of this number, or the file is not mapped where it has to be */
  KEFS_TOO_MANY = -31005,    /* more dirty pages in one commit than it may take */
  KEFS_READ_ONLY = -31006,   /* the image was opened with KEFS_RDONLY or KEFS_SNAPSHOT, or the file may only be read */
  KEFS_BAD_RANGE = -31007,   /* bytes that do not lie in one mapped file */
  KEFS_DEVICE = -31008,      /* a read, write or sync of the host file failed */
  KEFS_HALTED = -31009,      /* a commit before this call returned KEFS_DEVICE: kefs_recover or kefs_close has to follow */
  KEFS_NO_TRACKER = -31010,  /* the system has not the tracker that the flags ask for */
  KEFS_FORKED = -31011,      /* the handle is of a parent process */
  KEFS_BAD_ARGUMENT = -31012, /* an image, a path, an out-pointer or a list is NULL that may not be; nothing was done */
  KEFS_OTHER_FILES = -31013  /* KEFS_CREATE, and the image that is there has not the files of the options */
};

/* An open image. */
typedef struct kefs_image kefs_image;

/* The KEFS_VERSION_NUMBER of the library that runs. Never fails. */
int kefs_version(void);

/* One line of English that says what a result means, errno values too; never NULL. */
const char *kefs_strerror(int result);

/* The name of a result, as "KEFS_BUSY"; "errno" for an errno value, and "unknown" for anything else. Never NULL. */
const char *kefs_name(int result);

/* What went wrong in the last call on this image of this thread's that failed, as "pwrite of 4096 bytes at sector 16408: Input/output
   error". Where `image` is NULL: in this thread's last kefs_open, kefs_open_with or kefs_format that failed; of a file that is no
   image its path and the reason that kefscheck gives. "" where none has failed, or where calls on eight other images have failed since;
   never NULL. It holds until this thread's next call that fails. kefs_mark_dirty, kefs_touch and a call that returns KEFS_FORKED, or
   KEFS_BAD_ARGUMENT for its image, leave none. */
const char *kefs_errmsg(const kefs_image *image);

/* Making an image */

/* Flags of a file. */
enum {
  KEFS_FILE_READ_ONLY = 1, /* no program may store to it */
  KEFS_FILE_SPARSE = 2,    /* its length is a bound: a page takes room on the device as commits need it, and so does the
                              pool of an image that has such a file */
  KEFS_FILE_GROWS = 4      /* of KEFS_CREATE: an image that is there may have the file with any length */
};

/* A file of a new image. */
struct kefs_file {
  uint64_t length;     /* in bytes, up to 2^42; kefs_resize changes it */
  uint32_t flags;      /* some of KEFS_FILE_READ_ONLY, KEFS_FILE_SPARSE and KEFS_FILE_GROWS, or 0 */
  const void *content; /* `length` bytes, or NULL: zeros */
};

/* Makes an image at `path`, where nothing may be, of `count` files, 0 to 4,096, that get the numbers from 0 on, with these
   access permissions (as 0640, less the umask; 0 is 0600). It is durable when the call returns. Its directory has places for 64 files, or for
   `count`, rounded up to a multiple of 16, where that is more, and never gets others; kefs_options may say how many. It has 16,572,416 bytes
   beside its files, and 4,096 more for each 16 places more: most of them are a pool of 4,032 slots, in which pages stay that were committed. Its
   room on the device is taken, where the file system can do so, but where a file is sparse that of 24,576 bytes, the directory and the other files:
   the rest follows as commits need it. A stop at any moment, and a failure, leave the whole image at `path`, or nothing there, and once it is there it
   is not taken away: another process may have it. (Where the file system has no unnamed files, a stop may leave a file `path`.new-PID-NUMBER,
   which may be removed.)
   EINVAL: over 4,096 files, or a flag that is none. EEXIST: something is at `path`. EFBIG: a file has over 2^42 bytes, or the files and the
   directory, of a page for each 16 places, need over 2^30 pages; or the file system, or the process (ulimit -f), has no files so large. ENOSPC,
   EDQUOT: there is no room. ENOMEM. KEFS_DEVICE: a write or a sync failed; if that of the folder, the image is at `path`, and an opening with
   KEFS_CREATE tries that sync again. Other errno values as of open(2) and linkat(2). */
int kefs_format(const char *path, unsigned permissions, const struct kefs_file *files, size_t count);

/* Opening and closing */

/* Flags of an opening. At most one tracker: with none it is scan, or else signal where the system has no scan;
   kefs_stat says which. */
enum {
  KEFS_RDONLY = 1,        /* reads only, beside other readers, and writes nothing: a journal or a pool with pages is read through */
  KEFS_NOWAIT = 2,        /* KEFS_BUSY at once, where the call would wait until another one lets the image go, or a reader has had its turn */
  KEFS_TRACK_SCAN = 4,
  KEFS_TRACK_SIGNAL = 8,
  KEFS_TRACK_CALLER = 16,
  KEFS_LAZY = 32,         /* reads a page when it is first touched */
  KEFS_CREATE = 64,       /* of kefs_open_with: makes the image where nothing is at the path */
  KEFS_SNAPSHOT = 128,    /* reads only, beside one writer and any readers: the files as after some commit */
  KEFS_NAMES = 256        /* with KEFS_CREATE: makes an image whose files have names, and has none yet */
};

/* KEFS_LAZY. kefs_map reads no page, but of layout 2 those of the journal, and memory is taken for the pages that are touched
   alone, and where a commit writes all other pages of a pool home for those that were in it. A system
   call that touches a page that was not read yet fails with EFAULT: kefs_touch reads it before. A handler of SIGBUS
   is installed as that of SIGSEGV is. Where the system has no userfaultfd, and under KEFS_TRACK_SIGNAL,
   the flag changes nothing. */

/* KEFS_SNAPSHOT. The image's used pages are copied into memory, and the mapped files show them as they were after the newest
   commit, all of it, until kefs_refresh brings a newer one. KEFS_RDONLY, KEFS_LAZY and trackers change nothing then. The image is
   not kept from others: a process may have it open to write meanwhile, and be killed or open it again. An opening, and a refresh,
   waits for the commit or the opening that is under way, and these wait for readers that are copying, in turns of at most 4 MiB, and
   4 MiB of the journal, or 24 MiB that commits have changed. For one that makes no progress openings, commits and kefs_recover wait a
   second, and then go on and it copies again; from then on they wait for such ones in a tenth of their time at most. Where nobody has the
   image open to write, a copy begins 20 milliseconds after the last change of it, or three seconds where the file system's times
   have no parts of milliseconds, and keeps nobody out. A writer that is none of this library's version 1.1 or later (pagesync, pagerun) is
   KEFS_BUSY. */

/* Opens the image at `path` and locks it by flock(2): against every other opening but those with KEFS_SNAPSHOT, or with KEFS_RDONLY
   against those without. It waits for the lock, without a limit unless kefs_open_with gives one, but not for a handle that this thread
   has opened: that is KEFS_BUSY at once. Openings with KEFS_RDONLY that overlap without end keep one to write waiting. It carries
   out what a stop or the last commit left in the journal, or, of layout 4, writes anew what says where pages are in the pool, and
   copies none; but not with KEFS_RDONLY or KEFS_SNAPSHOT. Of what it reads it lets the system drop its cached copy first, so that
   it sees what the device holds, after a sync that failed too. *image is NULL where it fails; kefs_errmsg(NULL) tells more.
   EINVAL: a flag that is none, two trackers, or KEFS_CREATE. ENOMEM. ENOSYS: the system's pages are not of 4,096 bytes.
   EINTR: a signal came while it waited; without a limit, one whose handler is not of SA_RESTART.
   ENOSPC, EDQUOT: there is no room to carry the journal out, or for the map of a pool, or to read a sparse file on a
   memory file system. ESTALE: with KEFS_SNAPSHOT, the file has no name any more, though `path`, of /proc, leads to it; or `path` leads
   to another file each of a hundred times. EFBIG: with KEFS_SNAPSHOT, the process may have no file as large (ulimit -f). KEFS_BUSY,
   KEFS_NOT_IMAGE, KEFS_BAD_JOURNAL, KEFS_NO_TRACKER, KEFS_DEVICE. Other errno values as of open(2), of userfaultfd(2)
   too (EMFILE). */
int kefs_open(kefs_image **image, const char *path, unsigned flags);

/* What an opening may be given besides. Zeros, but for `size`, change nothing. */
struct kefs_options {
  size_t size;                  /* sizeof (struct kefs_options), so that a later version may have more fields; that of version 1.0 ends before `pool` */
  uint32_t wait;                /* milliseconds to wait for the lock at most, then KEFS_BUSY; 0: no limit. With KEFS_SNAPSHOT
                                   of each kefs_refresh too. With less than 1,000 a reader that is stopped is KEFS_BUSY */
  uint32_t permissions;         /* with KEFS_CREATE these, as of kefs_format: access permissions, */
  const struct kefs_file *files; /* files */
  size_t count;                 /* how many they are; */
  uint32_t pool;                /* how many slots the pool of the image has, rounded up to a multiple of 1,008, 2,064,384 at most; 0:
                                   4,032. A slot takes 4,104 bytes. A commit after which over a half of them would have a page writes
                                   all other pages home: twice as many slots as a program has pages that it changes again and again
                                   keep commits short; */
  uint32_t places;              /* and for how many files its directory has places, that of the names among them: 1 to 4,096, rounded up to a
                                   multiple of 16, and `count` at least; 0: 64. Commits read all of them: one of a page takes 10 us with 64
                                   places, and 90 with 4,096, or 150 with as many files, besides its syncs */
};

/* kefs_open with options. With KEFS_CREATE, where nothing is at `path`, the image is made first, as kefs_format does
   it; an image that is there has to have these files, of these lengths, but for those with KEFS_FILE_GROWS. It may have more, of the numbers
   from `count` on, which kefs_add_file made, and any number of places. With KEFS_NAMES besides
   `count` is 0; a new image has no file but that of the names, and one that is there has to have names, and may have any files.
   EINVAL: as of kefs_open and of kefs_format, KEFS_CREATE to read or without options, KEFS_NAMES without KEFS_CREATE or with files, a pool of over
   2,064,384 pages, over 4,096 places, or a `size` that is less than that of version 1.0. KEFS_OTHER_FILES: the image that is there lacks one of these
   files, has another length of it or another right to write it, or has no names. Other results as of kefs_open and, with KEFS_CREATE, of kefs_format. */
int kefs_open_with(kefs_image **image, const char *path, unsigned flags, const struct kefs_options *options);

/* Unmaps all files and lets the image go; NULL does nothing. What was not committed or started is lost. The handle is gone
   whatever is returned: KEFS_OK, KEFS_FORKED in a child of the process that opened it, or, where commits were started that are not durable yet, what
   kefs_commit_wait of them returns. */
int kefs_close(kefs_image *image);

/* Mapping */

/* Maps a file, whole, at the address `wanted` (NULL: anywhere), and says where it is and how many bytes it has. Past
   its end the last page reads as zeros, and stores there are dropped by a commit. The memory may be stored to, but
   not of a read-only file or of an image that was opened to read. *at is NULL for an empty file. Of a mapped file the mapping that is
   there is given. `length` may be NULL.
   KEFS_NO_FILE: no such file. EINVAL: `wanted` is no multiple of 4,096. EEXIST: something is mapped there, or the
   file is mapped elsewhere. EBUSY: the file of an image's names, where that is open to write.
   ENOMEM. KEFS_DEVICE: a read failed. */
int kefs_map(kefs_image *image, unsigned file, void *wanted, void **at, size_t *length);

/* kefs_map, with addresses that are kept for `most` bytes of the file: so far it may grow while it is mapped, and stays where it is. (kefs_map
   keeps those of the pages that the file has. Where it has more durably, since kefs_resize made it shorter, either call keeps those of all of
   these, which a roll back brings back.) They take no memory, and a touch where the file has no page is a SIGBUS, as past the end of any mapped
   file. No file gets longer than 2^42 bytes, and for more no addresses are kept. Of an empty file *at is not NULL then, unless `most`
   is 0.
   EEXIST: as of kefs_map, or the file is mapped with addresses for fewer bytes. Other results as of kefs_map. */
int kefs_map_growing(kefs_image *image, unsigned file, void *wanted, size_t most, void **at, size_t *length);

/* Unmaps a file. What was not committed of it is lost, its length too: a new one is as it was made (kefs_add_file). KEFS_NO_FILE: it is not mapped. */
int kefs_unmap(kefs_image *image, unsigned file);

/* The length of a file in bytes, as kefs_resize has left it. KEFS_NO_FILE: no such file. */
int kefs_length(kefs_image *image, unsigned file, size_t *length);

/* Gives a file another length, as ftruncate(2) does: for this handle at once, and durably with the next commit that takes it, together with all
   else that this commit takes. That is one of all mapped files, or one with a range that has a byte of the addresses that are kept for the
   file's mapping. A file that is not mapped may get another length too.

   Where the file gets longer the bytes are zeros, also where some were cut off before, and of a mapped file the memory is there when the call
   returns. Where it gets shorter pages are gone from the memory. No other thread may use these bytes meanwhile, nor those of the last page
   behind the shorter length. An image that has no room for the file gets a longer host file, sparse, and keeps it.

   A commit that takes a length takes all *new* pages of the file, those behind the last one that is durable, whatever the ranges. They may be
   any number: slots are not needed for them, and without these it takes a sync more. (Over 128 of them are written only where they are more than zeros. The
   rest becomes a hole of the host file, takes neither time nor memory nor room, and gets that as later commits need it; where the file system has no holes, zeros are
   written over bytes that are there.) Of the other pages it takes
   the dirty ones of its ranges; and the last one, where that is not full and the file gets longer, as it is durable if no range has it; and of a
   file that is not mapped those that were cut off and are zeros now. kefs_count_dirty counts all of these. kefs_commit_start of a length makes it durable before it
   returns, after all that was started, and may have any result of kefs_commit. kefs_rollback of all, or of such a range, takes the length back,
   and what was cut off is as the last commit has it. kefs_unmap and kefs_close lose a length that was not committed.

   KEFS_NO_FILE: no such file. KEFS_READ_ONLY: the image was opened to read, or the file may only be read. EOPNOTSUPP: the image is of layout 2.
   EFBIG: over 2^42 bytes; over 2^30 pages of all files and the directory; a host file that is longer than its file system or the process (ulimit -f) may
   have; or the file lies in 30 parts, and gets no more. (It gets one more each time it doubles.) ENOMEM: the mapping keeps addresses for fewer
   bytes, or there is no memory. ENOSPC, EDQUOT, KEFS_DEVICE: the host file could not get longer, or a page not be read. Nothing was done then. */
int kefs_resize(kefs_image *image, unsigned file, size_t length);

/* Files that come and go */

/* Makes a file of zeros, of a number that the image has not; and removes one. For this handle both are so at once. They are durable, all at once, with
   the next commit of all mapped files and with all else that this takes: all that came and went since the last one, and the names. So they are
   with a commit of a range that has a byte of a new file's mapping; it takes all pages of each new file, mapped or not.

   A new file may be mapped and get other lengths before that. kefs_unmap leaves it as it was made, kefs_close loses it. kefs_rollback of all, or of
   such a range, takes back all that came and went. A new file that is mapped then has no page any more: its mapping stays, each touch of it
   a SIGBUS, and its number is not free, until kefs_unmap. The number of a file that was removed is free when a commit has taken that.
   kefs_commit_start of all, or of such a range, makes all of it durable before it returns, as of a length (kefs_resize).

   kefs_add_file: EINVAL: a number over 4,095, or for which the image's directory has no place. EEXIST: the image has the file. EBUSY: the number is not
   free yet. EFBIG, ENOSPC, EDQUOT, ENOMEM: as of kefs_resize. kefs_remove_file: KEFS_NO_FILE. EBUSY: it is mapped. EINVAL: it is that of the
   names. KEFS_READ_ONLY: it may only be read. Both: KEFS_READ_ONLY: the image was opened to read. EOPNOTSUPP: it is of layout 2. Nothing was done
   then. */
int kefs_add_file(kefs_image *image, unsigned file, size_t length);
int kefs_remove_file(kefs_image *image, unsigned file);

/* Names. The files of an image that was made with KEFS_NAMES may have names, of 1 to 255 bytes, any but zero; no two files have the same. They are the
   bytes of file 0 (docs/FORMATS.md), which these calls alone change: kefs_map of it is EBUSY, but where the image was opened to read, and
   kefs_resize EINVAL. For this handle names change at once; and they become durable, or are taken back, with the files that come and go (kefs_add_file), in one commit
   with its pages. A file that kefs_add_file makes has no name. An image that was opened to read has the names that are durable, and a
   snapshot those of its commit. Where another program has damaged them, a name that has no end, or is of no file, or of a second one, is none,
   and the next commit that takes names writes it so.

   All of them: EOPNOTSUPP: the image has no names. EINVAL: an empty name. ENAMETOOLONG: one of over 255 bytes. ENOMEM. Those that change names:
   KEFS_READ_ONLY: the image was opened to read. Nothing was done then. */

/* The number of the file with this name. KEFS_NO_FILE: there is none. */
int kefs_lookup(kefs_image *image, const char *name, unsigned *file);

/* Makes a file of zeros with this name, as kefs_add_file does, of the least number that is free. EEXIST: a file has the name. ENFILE: no
   number is free for which the image's directory has a place. EFBIG, ENOSPC, EDQUOT, ENOMEM: as of kefs_resize. */
int kefs_create_file(kefs_image *image, const char *name, size_t length, unsigned *file);

/* Gives a file another name, as rename(2) does: a file that has it is removed, as kefs_unlink does it. The file that gets it keeps its number, and may be
   mapped. Where both names are the same nothing is done. KEFS_NO_FILE: no file has the old name. EBUSY, KEFS_READ_ONLY: the file that has the
   new one is mapped, or may only be read. */
int kefs_rename(kefs_image *image, const char *old_name, const char *new_name);

/* Removes a file and its name. (So does kefs_remove_file.) KEFS_NO_FILE: no file has the name. EBUSY: it is mapped. KEFS_READ_ONLY: it may only be read. */
int kefs_unlink(kefs_image *image, const char *name);

/* The name of a file, for a list of all. It stays until this thread's next call of this. KEFS_NO_FILE: it has none, or there is no such file. */
int kefs_name_at(kefs_image *image, unsigned file, const char **name);

/* Commits */

/* `length` bytes of mapped memory from `at` on, which need not lie in one file. A page belongs to a range that has a
   byte of it. Where a call takes ranges, NULL stands for all mapped files; a list of no ranges that is not NULL is of
   no page. */
struct kefs_range { const void *at; size_t length; };

/* Makes the dirty pages of `count` ranges durable, in all files at once, or all dirty pages where `ranges` is NULL.
   How many they were goes to *taken, where it is not NULL. Bytes of a range that lie in no mapping count for nothing. Lengths become durable
   with them (kefs_resize), where `ranges` is NULL those of files that are not mapped too, and files come and go, and names change (kefs_add_file).
   Where there is neither a page nor any of these no device call is made.
   KEFS_TOO_MANY: over 1,023 pages, or of layout 4 more than the pool has slots; nothing was done. Where more pages are taken than slots are free, the others
   are brought home first, as by kefs_tidy. The way on is to commit fewer ranges at a time, or kefs_rollback. With scan and
   signal, and of one range or all, pages that are as they are durable are not counted here, though kefs_count_dirty counts them. Nor are new pages; but
   one page is for each 16 files of which one has another length. EFBIG: as of kefs_resize, and nothing was done.
   KEFS_READ_ONLY: opened with KEFS_RDONLY or KEFS_SNAPSHOT. EINVAL: `ranges` is NULL and `count` is not 0. ENOMEM: nothing was done.
   ENOSPC, EDQUOT: there is no room on the device, where a file is sparse or has grown mostly; nothing was done, the pages are dirty
   still, and the image goes on. KEFS_NOT_IMAGE, KEFS_BAD_JOURNAL: another program has written over the host file; nothing was
   done.
   KEFS_DEVICE: a device call failed, and the commit is durable, whole, or it is not: kefs_recover says which, and so
   do kefs_close and kefs_open. */
int kefs_commit(kefs_image *image, const struct kefs_range *ranges, size_t count, size_t *taken);

/* Group commit, of threads that each wait for their own: kefs_commit_start takes the pages, and kefs_commit_wait returns when they are durable. All that was
   started meanwhile goes as one commit.

   kefs_commit_start copies the dirty pages of these ranges, as kefs_commit takes them, before it returns, and makes no device call; then they are not dirty, and any
   thread may store to them. Of a page that is stored to during the call, any mix is copied, and the page stays dirty. A program that
   wants whole transactions holds its own lock over its stores and this call, and not over the wait. *ticket says for what kefs_commit_wait waits: all that was
   started up to here. Where no page was dirty, that is what was started before. A ticket may be waited for by any thread, by several, more than once, or never.

   After a crash or a power cut at any moment the files are as after some prefix of the commits in the order of their starts, each of them
   whole, and none is missing whose wait returned KEFS_OK. (A kefs_commit counts as one that is started and waited for.) A page that was started twice goes in its
   newest form. No thread is made for it: one of those that wait makes the device calls, the others sleep, and starts go on meanwhile. What is started and not
   waited for becomes durable with the next wait of any ticket of a later start, kefs_commit, kefs_msync, kefs_close, or kefs_map of a file that is not mapped; these
   commit first what was started. kefs_unmap loses none of it, kefs_count_dirty does not count it, and kefs_rollback goes back to it: to the page
   as it was started last. Other calls wait until the calls of a commit are over that runs.

   KEFS_TOO_MANY of the start: more pages than kefs_commit may take; they are dirty still. Where they, and those that are started and not durable yet, are together
   more pages than every commit may take, the start waits for the commit that runs, and makes the others durable itself, before it takes them: then it may have any
   result of the wait. ENOMEM: nothing was done. Other results of the start as of kefs_commit, but that no device call fails. KEFS_BAD_ARGUMENT: `ticket` is NULL.

   A wait has the results of kefs_commit, and those that went as one have the same one. ENOSPC, EDQUOT, ENOMEM, KEFS_NOT_IMAGE,
   KEFS_BAD_JOURNAL: none of them is durable, all stay started, and the next wait or commit tries them again, before later ones. KEFS_DEVICE: the image is halted for all
   threads, and waits for later starts return KEFS_HALTED. kefs_recover says then whether all that went as one is durable (KEFS_AFTER), or nothing of it
   (KEFS_BEFORE), and it stays started; what was started later stays so too. kefs_close of a halted image loses what is not durable. EINVAL of the wait: a ticket that
   this image has not given. KEFS_OK also of a halted image, where it is durable. */
int kefs_commit_start(kefs_image *image, const struct kefs_range *ranges, size_t count, size_t *taken, uint64_t *ticket);
int kefs_commit_wait(kefs_image *image, uint64_t ticket);

/* The form of msync(2): kefs_commit of one range, or of everything where `at` is NULL. KEFS_BAD_RANGE: the bytes do not
   lie in one mapped file. Other results as of kefs_commit. */
int kefs_msync(kefs_image *image, const void *at, size_t length);

/* Which files stand after a commit that failed. */
enum { KEFS_BEFORE = 0, KEFS_AFTER = 1 };

/* Recovery in place, after KEFS_DEVICE: syncs the host file, reads the journal anew as an opening does, and carries it
   out. All mappings stay where they are, with what was stored to them. *stands says what became of the commit that
   failed: KEFS_AFTER, it is durable, and of its pages those alone are dirty that were stored to since; or KEFS_BEFORE,
   it is not, its pages are dirty, and its lengths are not durable. KEFS_BEFORE too where no commit had failed; then nothing is done. `stands` may be
   NULL.
   ENOSPC, EDQUOT, KEFS_DEVICE: the device failed again, and the image stays halted: kefs_recover may be called again.
   KEFS_NOT_IMAGE, KEFS_BAD_JOURNAL: what the device holds is no image any more. ENOMEM. */
int kefs_recover(kefs_image *image, int *stands);

/* Brings the pages of the image's pool home, where that is of use: at idle, so that the commits that follow write none home. It makes device calls, two syncs among
   them, and returns when they are over. Dirty pages stay dirty, and what was started stays so. KEFS_OK too where no page is in a slot, and of an image of layout 2; then
   nothing was done. KEFS_READ_ONLY: opened with KEFS_RDONLY or KEFS_SNAPSHOT. ENOMEM, ENOSPC, EDQUOT, KEFS_NOT_IMAGE: nothing was done, and the image goes on.
   KEFS_DEVICE: as of kefs_commit; no commit is in doubt. */
int kefs_tidy(kefs_image *image);

/* How many pages kefs_commit of these ranges would take now: for a program that ends a transaction before it grows too
   large. More than a commit may take is an answer like any other. Of an image that was opened to read it is 0.
   EINVAL: as of kefs_commit. */
int kefs_count_dirty(kefs_image *image, const struct kefs_range *ranges, size_t count, size_t *pages);

/* Brings the dirty pages of these ranges back to what is durable, all dirty pages where `ranges` is NULL: a
   transaction that is given up. Lengths that belong to them are taken back (kefs_resize), and so are files that came or went, and names
   (kefs_add_file). No store may be made to them meanwhile.
   EINVAL: as of kefs_commit. ENOMEM: some pages may be back and others not. */
int kefs_rollback(kefs_image *image, const struct kefs_range *ranges, size_t count);

/* Says that these bytes were or will be stored to: their pages count as dirty, none where `length` is 0. It has to be
   called with KEFS_TRACK_CALLER, after the store, or before it with no commit in between. Under KEFS_TRACK_SIGNAL
   system calls may store to the bytes after it, until the next commit or roll back that takes them.
   KEFS_BAD_RANGE: the bytes do not lie in one mapped file. KEFS_READ_ONLY: the file or the image may only be read.
   Nothing was done then. ENOMEM and
   KEFS_DEVICE: as of kefs_touch. */
int kefs_mark_dirty(kefs_image *image, const void *at, size_t length);

/* Reads the pages of these bytes where KEFS_LAZY left them unread, so that a system call may touch them; else it does
   nothing.
   KEFS_BAD_RANGE: the bytes do not lie in one mapped file. ENOMEM. KEFS_DEVICE: a read failed. */
int kefs_touch(kefs_image *image, const void *at, size_t length);

/* Readers beside a writer */

/* Of an image that was opened with KEFS_SNAPSHOT: brings its files, where they are mapped, to what the newest commit has left, and
   all of them at once, with their lengths: a commit that returned before this call is in it. *changed, which may be NULL, is 1
   where a byte or a length of them may differ from before, else 0. No other thread may use the mapped memory meanwhile. After any
   result but KEFS_OK they are as they were. Where the writer has not committed since, it waits for nobody and copies nothing;
   after up to 16 commits it copies the pages of these, where each of them but the last was of at most 32 runs of neighbouring
   pages, and all of at most 2,048 pages, the new ones of the last among them, which were of at most 32 runs too, as were the places of
   files that came, went or got other lengths, 16 a page; and else it compares all used pages.

   A mapped file stays where it is. Pages that it has got are there as far as its mapping keeps addresses (kefs_map_growing;
   kefs_map keeps those of the pages that it had), and a touch of those that were cut off is a SIGBUS. kefs_length tells the whole
   length. Where it is more than addresses are kept for, the pages in front are mapped, and kefs_map is EEXIST: the way on is
   kefs_unmap and kefs_map. Of a file that is there no longer no page is left, kefs_map and kefs_length are KEFS_NO_FILE, and its
   pages are there again if it comes again.
   EINVAL: the image was not opened so. KEFS_BUSY: the wait of the opening's options, or with KEFS_NOWAIT any wait, is over. EINTR:
   a signal came while it waited. ESTALE: the image was replaced or removed, and no name leads to it any more: the way on is
   kefs_close and kefs_open. ENOMEM. EFBIG: the image has got longer, and the process may have no file as large (ulimit -f).
   KEFS_NOT_IMAGE, KEFS_BAD_JOURNAL: another program has cut the file or written over it. ENOLCK: the file system has no locks of
   byte ranges. ENOSPC, EDQUOT, KEFS_DEVICE: a read or a sync failed. */
int kefs_refresh(kefs_image *image, int *changed);

/* Backup */

/* Makes an image at `path`, where nothing may be, as kefs_format does, whose files are as the last commit left them,
   also where this image was opened to read. It is of layout 4, whatever that of this one, and has as large a pool as an image of
   layout 4 that it is made of. Other threads may store and commit meanwhile: a commit waits for a part of the copy, a MiB
   mostly, and the copy has all commits that returned before some moment of the call, and no later one. (A copy that is made
   without this call, beside a program that commits, may be torn.)
   EEXIST, ENOSPC, EDQUOT, EFBIG, ENOMEM, other errno values: as of kefs_format. KEFS_DEVICE: a read, a write or a sync
   failed, of either file. No failure halts this image. */
int kefs_backup(kefs_image *image, const char *path, unsigned permissions);

/* Facts */

struct kefs_stat {
  size_t size;              /* in: sizeof (struct kefs_stat), so that a later version may have more fields */
  uint32_t files;           /* how many files the image has */
  uint32_t most_pages;      /* that every commit may take: 1,023, or of layout 4 as many as the pool has slots, 4,032 */
  uint64_t pages;           /* home pages of the image, those of no file included */
  uint64_t recovered;       /* pages that the opening brought from the journal to their homes: of layout 4 none */
  uint64_t commits;         /* since the opening, as are the next three: commits that took a page or a length, and returned KEFS_OK; those that went
                               as one count once */
  uint64_t committed_pages; /* pages that they took */
  uint64_t written_bytes;   /* bytes written to the host file */
  uint64_t syncs;           /* syncs of the host file */
  const char *tracker;      /* "scan", "signal" or "caller"; "none" of an image that was opened to read */
  uint32_t lazy;            /* 1 where pages are read when they are first touched, else 0 */
  uint32_t layout;          /* 2 or 4, of docs/FORMATS.md */
};

/* Says facts of the image. EINVAL: `size` is less than that of version 1.0. */
int kefs_stat(kefs_image *image, struct kefs_stat *to);

#ifdef __cplusplus
}
#endif
#endif
