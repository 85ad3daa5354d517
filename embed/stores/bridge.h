/* What the parts of kefsrun.so share. bridge.c has the image, bridge_contents.c its files, bridge_changes.c how they come and go, bridge_names.c the names, as rename
   changes them, bridge_aside.c what becomes of a file that had one, bridge_lent.c one that stays with the host for a while, bridge_files.c descriptors and facts,
   bridge_bytes.c the bytes, and bridge_stdio.c the streams of stdio.h. No name of these is seen by the program. */
#ifndef BRIDGE_H
#define BRIDGE_H
#define _GNU_SOURCE
#include "bridge_contents.h"
#include "next.h"
#include <errno.h>
#include <fcntl.h>
#include <pthread.h>
#include <stdio.h>
#include <sys/stat.h>

_Static_assert(sizeof(off_t) == 8 && sizeof(struct stat) == sizeof(struct stat64), "calls and their forms of 64 bits are the same");

#pragma GCC visibility push(hidden)

/* The image, where this process has it open to write, else NULL; and what its files are. */
extern kefs_image *image;
extern struct contents contents;

/* The data file, where this process has it mapped: else `base` is NULL. */
extern struct data {
  unsigned char *base; /* its bytes */
  size_t room;         /* how many may be mapped: addresses from `base` on that nothing else gets */
  size_t kept;         /* how many of these the library keeps */
  size_t most;         /* how many bytes there may be */
  uint64_t *length;    /* how many they are */
  int grows;           /* the memory has as many; of an image that an older kefsrun made it has as many as they may be */
  size_t mapped;       /* of the program's mapping from byte 0 on */
  size_t in_use, end;  /* of all its mappings: how many bytes, and where the last one has ended */
  int is_stored_to;    /* one of them may be stored to */
  int is_lent;         /* the bytes are in the stand-in, as the last sync left them here (bridge_lent.c) */
} data;

/* Which syncs commit, as KEFS_COMMIT_AT says. */
extern enum commit_at { EVERY, AT_FSYNC, AT_PART } commit_at;

/* Held to open the image, to change the length and the names, and by calls at a descriptor's place. A thread may take it twice. */
extern pthread_mutex_t lock;

/* Shared by calls while they copy bytes, and held alone to take memory away: a copy beside that would end the program. With both, `lock` comes first. */
extern pthread_rwlock_t copying;

/* Shared by commits, and held alone while a file comes that is not whole yet. `lock` comes first, and `copying` before it. */
extern pthread_rwlock_t changing;

/* This thread is in a call of the library, whose own calls on the memory of the data file are let through. */
extern __thread int is_inside;

/* This thread changes files of the host, whose calls are the system's own, also where another library that is preloaded makes one of them by another. */
extern __thread int is_changing;

/* -1 and errno. */
int fail(int number);

/* Says in a line that this is not done to the data file, and why: -1 and errno. */
int refuse(const char *what, int number);

/* Tells what failed in a call on the image, and gives -1 and errno; 0 for KEFS_OK. */
int told(int result);

/* The path of the data file; NULL where the program runs without an image. */
const char *data_path(void);

/* The *stand-in*: the empty file of the host that has the data file's name and locks. It comes and goes with the data file. A descriptor is one of the data file
   where it is one of the stand-in: the system is asked each time, since a descriptor's number goes to other files by calls that are not seen here. These keep errno. A
   file that is lent is the stand-in, and its descriptors are not the data file's. */
int is_stand_in_file(const struct stat *st);
int is_stand_in(int fd);
int is_data_file(const struct stat *st);
int is_data(int fd);
int is_synced(int fd); /* a sync by it is one of the data file, lent or not */

/* Whether these, of this path, are facts of the data file, which another process may have made anew since this one began. */
int is_named_data(const struct stat *st, const char *path);

/* Whether a path leads to the data file, or would if that was there. */
int is_data_path(const char *path);

/* The part of a path behind the last slash. */
const char *last_name(const char *path);

/* Takes `lock` where a path has the data file's last name, so that no other thread is about to change what has that name: whether it did. */
int has_data_name(const char *path);
int hold_name(const char *path);
void let_name_go(int is_held);

/* This file is the stand-in from now on; NULL: there is none. */
void set_stand_in(const struct stat *st);

/* A thread that has asked whether a descriptor is the data file's may find, when it has a lock, that another one has meanwhile removed the data file or given its name
   to another file. is_another says so; a call that failed for it, with ESTALE, is made again. */
int is_another(void);
int is_to_repeat(ssize_t result);

/* Opens the image to write where it is not yet open: 1 where it did, 0 where it is open already, or -1 and errno. */
int take_image(void);

/* Lets the image go. */
void let_go(void);

/* Maps the data file of a descriptor, and opens the image before, where that is to be done. `flags` are those of open: with O_CREAT the data file is made where it is
   not there, else that is ENOENT. ESTALE: the descriptor is of one that was there before. 0, or -1 and errno. */
int attach(int fd, int flags);

/* Maps a data file by its number, which may get `to->most` bytes: a result of the library. */
int map_bytes(unsigned number, struct data *to);

/* Has the program see this one as the data file, of so many bytes. */
void set_data(const struct data *to, uint64_t length);

/* As attach, for a descriptor that is there already: one that a child has of its parent fails with EIO, since the image is the parent's. */
int answers(int fd);

/* Commits all that is written: 0, or -1 and errno. */
int commit(void);

/* As commit, where this process has the image open; 0 where it has not, or only shares the memory of one that has, as a child of vfork. */
int commit_own(void);

/* At the end of the program: commits, and says in a line that the empty file has bytes. */
void end_program(void);

/* The length of the data file: read from the image, which is let go at once where this process has not opened it. 0, or -1 and errno, ENOENT where there is no data
   file. */
int length_now(uint64_t *to);

/* Removes a stand-in that was left where there is no data file, as by a process that was killed. */
void remove_left_over(void);

/* The data file shrinks or grows: 0, or -1 and errno. */
int resize(off_t to);

/* For a thread that holds `lock`, of at most data.most bytes. make_room has memory for so many, of which those behind the length are zeros, and from `reach`
   on the length is at least that; lengthen does both. 0, or -1 and errno. */
int make_room(uint64_t end);
void reach(uint64_t end);
int lengthen(uint64_t end);

/* Says that it would be longer than it may be: -1 and EFBIG. */
int too_long(void);

/* Files that come and go, for a thread that holds `lock` and has the image (bridge_changes.c). Those with a result give 0, or -1 and errno, and then nothing is
   done. */
extern int is_new_data;                                           /* no commit has taken yet that the data file came */
int create_data(void);                                            /* one that is not there comes, empty */
int stage_data(struct data *next, int from, uint64_t length);     /* the next one, of the bytes of a file of the host, becomes durable, and is mapped for set_data */
int unstage_data(const struct data *next);                        /* it is not to come: so the one before is there again */
void take_staged(void);                                           /* it is the data file */
int remove_data(void);                                            /* that there is none becomes durable */
int restore_data(void);                                           /* it is there again */
void take_removed(void);                                          /* there is none, and none is mapped */
void forget_files(void);                                          /* has the next commit remove what counts for nothing any more */
void unmap_data(unsigned number, const struct data *of);          /* unmaps one that the program never saw */
void drop_data(int fd);                                           /* unmaps that of the program, whose mappings go on as such of the file by this descriptor, if not -1 */
int unmap_former(const void *at, size_t bytes);                   /* munmap of a mapping that goes on so; 0 where it is none */
int is_shared_former(const void *at, size_t bytes);               /* this is one of several that go on so, at the same addresses; else it is the system's from now on */

/* The files of the host (bridge_aside.c). An aside is a stand-in that has got the data file's bytes and another name in its folder, since the program has it open: its
   descriptors go on with it. An empty one has its name. Where it has no descriptor (-1) there is none. */
struct aside { int fd, folder; const char *name; char other[4096]; };
void folder_of(const char *name, char path[4096]);                /* that a path's last name is in */
int sync_folder(int folder, const char *name, int fd);            /* `fd` is of a file there. 0, or -1 and errno */
int has_descriptor(const struct stat *st, int besides);           /* the program has one of this file, besides one that is not its own */
int has_threads(void);                                            /* besides this one */
int has_stand_in_open(void);                                      /* the program has a descriptor of the stand-in (bridge.c) */
int is_in_use(void);                                              /* or a mapping of the data file */
int put_aside(struct aside *aside, int folder, const char *name); /* 0, or -1 and errno */
void take_back(const struct aside *aside);                        /* as if it had not been put aside */
void end_aside(const struct aside *aside);                        /* removes the other name, if it has it still */
int replace_stand_in(void);                                       /* by an empty file: 0, or -1 and errno */

/* A file of the host that has the data file's name and keeps its bytes, since the program may go on to use it by what is not answered here: by a mapping, or a stream of the C
   library, that it had before, or in a call of another thread (bridge_lent.c). So it is read and written by the system, and each sync brings what differs into the image. */
int is_to_lend(int fd);
int bring_lent(void);       /* 0, or -1 and errno */
void end_lent(int is_over); /* where the program does not use it any more, or it ends, what was brought is the data file, and the stand-in is empty */

/* The streams of stdio.h. Where the descriptor of stdin or stdout has become the data file's, or is no more, the program gets another stream in its place. */
void begin_streams(void);      /* as the program begins, and in a child */
void before_change(int fd);    /* before a descriptor becomes another file's */
int after_change(int fd);      /* after that; gives the descriptor */
void flush_streams(void);      /* has the bytes of all streams written */
int has_stream(const struct stat *st); /* the C library has one of this file, which reads and writes by calls of its own */

#pragma GCC visibility pop
#endif
