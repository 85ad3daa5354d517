/* How pages are read when they are first touched, and how stores are noted. */
#define _GNU_SOURCE
#include "internal.h"
#include <errno.h>
#include <fcntl.h>
#include <linux/userfaultfd.h>
#include <signal.h>
#include <string.h>
#include <sys/ioctl.h>
#include <sys/mman.h>
#include <sys/syscall.h>
#include <ucontext.h>
#include <unistd.h>

/* PAGEMAP_SCAN of Linux 6.7 and later, and the features of userfaultfd that go with it, for older headers. A page IS_ZEROS for which the system has its one page of
   zeros. */
struct scanned { uint64_t start, end, categories; };
struct scan { uint64_t size, flags, start, end, walk_end, vec, vec_len, max_pages, inverted, mask, anyof, returned; };
#define SCAN _IOWR('f', 16, struct scan)
enum { IS_WRITTEN = 1 << 1, IS_PRESENT = 1 << 3, IS_SWAPPED = 1 << 4, IS_ZEROS = 1 << 5, PROTECT_MATCHING = 1, CHECK_ASYNC = 2 };
enum { WP_UNPOPULATED = 1 << 13, WP_ASYNC = 1 << 15, SIGBUS_ON_MISSING = 1 << 7, USER_MODE_ONLY = 1 };

static unsigned char *page_at(const struct mapping *mapping, size_t k) { return mapping->at + k * PAGE; }

/* Pages that are read when they are first touched.

   The durable bytes of a page lie in its home for as long as it was not read: `load` reads each page that the journal
   holds, and a page gets into the journal by a commit alone, which takes pages that were read. So its home is never written while the
   image is open: a late home is that of a page of the journal. Of a pool's page they lie in the slot that `load` has noted: it is given to no other home before
   a plan copies its page home, and no plan does so before `fill_slotted` has read all of these. No other program writes it, since the image is locked. A read
   of the home at any moment gives the same bytes, and one after the page was stored to never comes, since UFFDIO_COPY leaves a
   page alone that is there. A host file that is cut meanwhile fails the copy, and the fault is passed on as that of any mapped
   file that was cut. */
enum { AROUND = 16, AT_ONCE = 512 };

/* Gives unread pages these bytes: how many, or 0 and errno. */
static size_t copy_pages(const struct mapping *mapping, size_t first, size_t end, const unsigned char *from) {
  uint64_t mode = mapping->image->tracker == TRACKER_SCAN ? UFFDIO_COPY_MODE_WP : 0;
  struct uffdio_copy copy = {.dst = (uintptr_t)page_at(mapping, first), .src = (uintptr_t)from, .len = (end - first) * PAGE, .mode = mode};
  if (ioctl(mapping->image->faults, UFFDIO_COPY, &copy) == 0) return end - first;
  if (copy.copy > 0) return (size_t)copy.copy / PAGE;
  if (copy.copy < 0) errno = (int)-copy.copy;
  return 0;
}

/* A page whose home may have no room on the device, read by a call. */
static size_t copy_by_call(const struct mapping *mapping, size_t k, off_t at) {
  unsigned char bytes[PAGE];
  int number = read_all(mapping->image->fd, bytes, PAGE, at);
  if (number != KEFS_OK) return errno = number, 0;
  return copy_pages(mapping, k, k + 1, bytes);
}

/* Where an unread page lies. */
static size_t unread_sector(const struct mapping *mapping, size_t k) {
  if (mapping->slots != NULL && mapping->slots[k] != 0) return mapping->slots[k];
  return home_sector(&mapping->image->layout, home_of_page(&mapping->file, k));
}

/* Reads the pages from `first` on that follow each other unread, in the file too, up to `end`, or fewer: how many, or 0 and errno. */
static size_t copy_unread(const struct mapping *mapping, size_t first, size_t end) {
  const struct kefs_image *image = mapping->image;
  size_t sector = unread_sector(mapping, first), stop = first + 1;
  if (may_lack_room(image, sector)) return copy_by_call(mapping, first, (off_t)(SECTOR * sector));
  for (size_t next = sector + PAGE / SECTOR; stop < end && stop < first + AT_ONCE; stop++, next += PAGE / SECTOR)
    if (unread_sector(mapping, stop) != next || may_lack_room(image, next)) break;
  return copy_pages(mapping, first, stop, sector_at(image, sector));
}

/* EAGAIN: the process's memory was being changed; again. */
int fill_missing(const struct span *span) {
  size_t late = late_now(span->mapping), end = span->end < late ? span->end : late;
  for (size_t k = span->first; k < end;) {
    size_t read = copy_unread(span->mapping, k, end);
    if (read > 0) k += read;
    else if (errno == EEXIST) k++;
    else if (errno != EAGAIN) return errno == ENOMEM ? ENOMEM : EIO;
  }
  return KEFS_OK;
}

static int fill_around(const struct mapping *mapping, size_t k) {
  size_t end = (k / AROUND + 1) * AROUND, late = late_now(mapping);
  if (end > late) end = late;
  return k < end && (copy_unread(mapping, k, end) > 0 || errno == EEXIST || errno == EAGAIN);
}

static int fill_slots_of(struct mapping *mapping) {
  int number = KEFS_OK;
  for (size_t k = 0; k < mapping->late && mapping->has_unread && number == KEFS_OK; k++)
    if (mapping->slots[k] != 0) number = fill_missing(&(struct span){mapping, k, k + 1});
  if (number == KEFS_OK) mapping->has_unread = 0;
  return number;
}

int fill_slotted(struct kefs_image *image) {
  int number = KEFS_OK;
  for (unsigned f = image->lazy ? first_number(&image->mapped) : KEFS_FILES; f < KEFS_FILES && number == KEFS_OK; f = next_number(&image->mapped, f + 1))
    number = fill_slots_of(&image->mappings[f]);
  return number;
}

/* Signals */

static struct sigaction before_store, before_missing;

/* The mask under which the kernel would run the handler that was there before. The one of the code that was interrupted comes back when our handler returns. */
static void take_mask(const struct sigaction *before, int number) {
  sigset_t own;
  sigemptyset(&own);
  sigaddset(&own, number);
  pthread_sigmask(SIG_BLOCK, &before->sa_mask, NULL);
  if ((before->sa_flags & SA_NODEFER) != 0 && !sigismember(&before->sa_mask, number)) pthread_sigmask(SIG_UNBLOCK, &own, NULL);
}

/* By default the access is made again, and ends the process. What another process sent does not come again by itself. */
static void do_default(int number, const siginfo_t *info) {
  signal(number, SIG_DFL);
  if (info->si_code <= 0) raise(number);
}

/* Does what would be done without us. The kernel ignores no fault, only what was sent. A handler for one signal is forgotten before it runs; of two threads that
   fault at once both may still find it. */
static void pass_on(struct sigaction *before, int number, siginfo_t *info, void *context) {
  struct sigaction now = *before;
  int has_handler = (now.sa_flags & SA_SIGINFO) != 0 || (now.sa_handler != SIG_DFL && now.sa_handler != SIG_IGN);
  if (!has_handler && now.sa_handler == SIG_IGN && info->si_code <= 0) return;
  if (!has_handler) return do_default(number, info);
  if ((now.sa_flags & SA_RESETHAND) != 0) *before = (struct sigaction){.sa_handler = SIG_DFL};
  take_mask(&now, number);
  if ((now.sa_flags & SA_SIGINFO) != 0) now.sa_sigaction(number, info, context);
  else now.sa_handler(number);
}

/* The pages are opened first and marked then. A commit takes the marks, closes the pages and writes them, in this order; so a
   store that follows this comes before the close, and the mark that is set here stays for the next commit, or it faults again.
   Were the mark set first, a commit could take it, write the page, and let the store through after that with no mark. Each page
   that is open alone is a mapping of the kernel, of which there are some 65,000. When there can be no more, the pages between
   these and the nearest one that is open are opened too, which takes no further mapping; or, where none is, all of the file. */
static int open_span(const struct span *span) {
  return mprotect(page_at(span->mapping, span->first), (span->end - span->first) * PAGE, PROT_READ | PROT_WRITE) == 0 ? KEFS_OK : errno;
}

static int is_dirty(const struct mapping *mapping, size_t k) { return (__atomic_load_n(&mapping->marks[k], __ATOMIC_SEQ_CST) & DIRTY) != 0; }

static struct span up_to_open_page(const struct span *span) {
  size_t below = span->first, above = span->end, pages = pages_now(span->mapping);
  while (below > 0 && !is_dirty(span->mapping, below - 1)) below--;
  while (above < pages && !is_dirty(span->mapping, above)) above++;
  int has_below = below > 0, has_above = above < pages;
  if (has_below && (!has_above || span->first - below <= above - span->end)) return (struct span){span->mapping, below, span->end};
  return has_above ? (struct span){span->mapping, span->first, above} : (struct span){span->mapping, 0, pages};
}

/* Opens these pages, or more: which ones. */
static int open_some(const struct span *span, struct span *opened) {
  *opened = *span;
  if (span->mapping->image->tracker != TRACKER_SIGNAL || span->first == span->end || open_span(opened) == KEFS_OK) return KEFS_OK;
  *opened = up_to_open_page(span);
  if (open_span(opened) == KEFS_OK) return KEFS_OK;
  *opened = (struct span){span->mapping, 0, pages_now(span->mapping)};
  return open_span(opened);
}

int open_pages(const struct span *span) {
  struct span opened;
  int number = open_some(span, &opened);
  if (number != KEFS_OK) return number;
  for (size_t k = opened.first; k < opened.end; k++) mark_dirty(span->mapping, k);
  return KEFS_OK;
}

/* Whether the access was a store: a jump into mapped memory would fault again for ever. */
static int is_store(const siginfo_t *info, const void *context) {
  const mcontext_t *machine = &((const ucontext_t *)context)->uc_mcontext;
#if defined __x86_64__
  return (void)info, (machine->gregs[REG_ERR] & 2) != 0;
#elif defined __aarch64__
  return (uintptr_t)info->si_addr != machine->pc; /* a load does not fault: what is mapped may be read */
#else
#error "how the processor tells a store from a jump"
#endif
}

/* The first store to a page that is not dirty. */
static void on_store(int number, siginfo_t *info, void *context) {
  int kept = errno;
  struct mapping *mapping = info->si_code == SEGV_ACCERR ? mapping_at(info->si_addr) : NULL;
  int ours = mapping != NULL && mapping->image->tracker == TRACKER_SIGNAL && !mapping->file.read_only && is_store(info, context);
  size_t k = ours ? (size_t)((unsigned char *)info->si_addr - mapping->at) / PAGE : 0;
  if (!ours || k >= pages_now(mapping) || open_pages(&(struct span){mapping, k, k + 1}) != KEFS_OK) pass_on(&before_store, number, info, context);
  errno = kept;
}

/* The first touch of a page that is read late. Past the last page it is the program's own fault, as in any mapped file. */
static void on_missing(int number, siginfo_t *info, void *context) {
  int kept = errno;
  struct mapping *mapping = info->si_code == BUS_ADRERR ? mapping_at(info->si_addr) : NULL;
  int ours = mapping != NULL && mapping->image->lazy;
  if (!ours || !fill_around(mapping, (size_t)((unsigned char *)info->si_addr - mapping->at) / PAGE)) pass_on(&before_missing, number, info, context);
  errno = kept;
}

static int installed_store = ENOSYS, installed_missing = ENOSYS;

static int install(int number, void (*handler)(int, siginfo_t *, void *), struct sigaction *before) {
  struct sigaction ours = {.sa_sigaction = handler, .sa_flags = SA_SIGINFO | SA_ONSTACK};
  return sigaction(number, &ours, before) == 0 ? KEFS_OK : errno;
}

static void install_store(void) { installed_store = install(SIGSEGV, on_store, &before_store); }
static void install_missing(void) { installed_missing = install(SIGBUS, on_missing, &before_missing); }

/* Choosing */

/* A descriptor, or -1 and errno. */
static int open_faults(uint64_t features) {
  int fd = move_high((int)syscall(SYS_userfaultfd, O_CLOEXEC | USER_MODE_ONLY));
  struct uffdio_api api = {.api = UFFD_API, .features = features};
  if (fd >= 0 && ioctl(fd, UFFDIO_API, &api) == 0) return fd;
  int number = errno;
  if (fd >= 0) close(fd);
  errno = number;
  return -1;
}

/* Whether a system that has not the scan, or does not grant it, fails so. Any other failure is none of that. */
static int has_no_scan(int number) {
  return number == ENOSYS || number == EPERM || number == EINVAL || number == ENOTTY || number == ENOENT || number == EACCES;
}

static int open_pagemap(struct kefs_image *image) {
  if (image->pagemap < 0) image->pagemap = open_high("/proc/self/pagemap", O_RDONLY | O_CLOEXEC, 0);
  return image->pagemap < 0 ? errno : KEFS_OK;
}

static int try_scans(struct kefs_image *image, uint64_t features) {
  struct scan none = {.size = sizeof none};
  image->faults = open_faults(WP_ASYNC | WP_UNPOPULATED | features);
  if (image->faults < 0) return errno;
  int number = open_pagemap(image);
  if (number != KEFS_OK) return number;
  return ioctl(image->pagemap, SCAN, &none) >= 0 ? KEFS_OK : errno;
}

static int begin_scans(struct kefs_image *image, uint64_t features) {
  int number = try_scans(image, features);
  if (number == KEFS_OK) return image->tracker = TRACKER_SCAN, KEFS_OK;
  end_tracking(image);
  return has_no_scan(number) ? KEFS_NO_TRACKER : number;
}

static int begin_signals(void) {
  static pthread_once_t once = PTHREAD_ONCE_INIT;
  pthread_once(&once, install_store);
  return installed_store;
}

static int begin_laziness(void) {
  static pthread_once_t once = PTHREAD_ONCE_INIT;
  pthread_once(&once, install_missing);
  return installed_missing;
}

static int begin_caller(struct kefs_image *image, enum tracker tracker) {
  image->tracker = tracker;
  if (image->lazy) image->faults = open_faults(SIGBUS_ON_MISSING);
  if (image->faults < 0 && image->lazy && !has_no_scan(errno)) return errno;
  if (image->faults < 0) image->lazy = 0;
  return KEFS_OK;
}

int begin_tracking(struct kefs_image *image, unsigned flags) {
  image->lazy = (flags & KEFS_LAZY) != 0 && begin_laziness() == KEFS_OK;
  if (image->read_only) return begin_caller(image, TRACKER_NONE);
  if ((flags & KEFS_TRACK_CALLER) != 0) return begin_caller(image, TRACKER_CALLER);
  int result = (flags & KEFS_TRACK_SIGNAL) == 0 ? begin_scans(image, image->lazy ? SIGBUS_ON_MISSING : 0) : KEFS_NO_TRACKER;
  if (result != KEFS_NO_TRACKER || (flags & KEFS_TRACK_SCAN) != 0) return result;
  image->tracker = TRACKER_SIGNAL;
  image->lazy = 0;
  return begin_signals();
}

void end_tracking(struct kefs_image *image) {
  if (image->faults >= 0) close(image->faults);
  if (image->pagemap >= 0) close(image->pagemap);
  image->faults = image->pagemap = -1;
}

/* Noting stores. A page is watched by a protection that the kernel takes away when it is stored to. One that nobody has touched has it too, by an entry of the kernel's
   tables, which takes memory, and time in each look. So of much new memory, and where most of a file is a hole, those alone are protected that are there. From these
   pages on the mapping is *bare*: a page that is there without protection was stored to, but for the system's page of zeros, which a read brings, where the page is
   zeros durably. To look so takes twice as long for a page that is there. Huge pages are none there, of which older kernels do not say that they are zeros. */

enum { MOST_WATCHED = 4096 }; /* pages of new memory that are not touched */

static struct uffdio_range range_of(const struct span *span) {
  return (struct uffdio_range){(uintptr_t)page_at(span->mapping, span->first), (span->end - span->first) * PAGE};
}

static int register_faults(const struct span *span, uint64_t mode) {
  struct uffdio_register all = {.range = range_of(span), .mode = mode};
  return ioctl(span->mapping->image->faults, UFFDIO_REGISTER, &all) == 0 ? KEFS_OK : errno;
}

static int protect(const struct span *span) {
  struct uffdio_writeprotect all = {.range = range_of(span), .mode = UFFDIO_WRITEPROTECT_MODE_WP};
  return ioctl(span->mapping->image->faults, UFFDIO_WRITEPROTECT, &all) == 0 ? KEFS_OK : errno;
}

/* How many pages from one on, up to `end`, are zeros durably since their homes are a hole, or 0 where that is not known. */
static size_t empty_pages(const struct mapping *mapping, size_t k, size_t end) {
  struct kefs_image *image = mapping->image;
  uint32_t home = 0;
  size_t run = image->starts.pages > 0 ? 0 : homes_from(&image->files[file_number(mapping)], k, &home);
  return run == 0 ? 0 : (size_t)count_empty(image, home, run < end - k ? run : end - k);
}

/* Of pages for which the system has its page of zeros those that are other bytes durably: a system may bring it in the place of zeros that were stored, too. */
static void take_zeros(struct mapping *mapping, size_t first, size_t end, take_row *take) {
  static const unsigned char zeros[PAGE];
  unsigned char page[PAGE];
  size_t durable = durable_pages(mapping->image, file_number(mapping));
  if (end > durable) end = durable;
  for (size_t k = first, empty; k < end; k += empty > 0 ? empty : 1) {
    empty = empty_pages(mapping, k, end);
    if (empty > 0) continue;
    copy_committed(mapping, k, page);
    if (memcmp(page, zeros, PAGE) != 0) take(mapping, k, k + 1);
  }
}

/* Gives each row of pages that a scan finds to `take`, where it is not NULL. */
static int scan_span(const struct span *span, struct scan scan, take_row *take) {
  uintptr_t begin = (uintptr_t)span->mapping->at;
  struct scanned found[128];
  scan.size = sizeof scan, scan.vec = (uintptr_t)found, scan.vec_len = sizeof found / sizeof *found;
  scan.walk_end = begin + span->first * PAGE, scan.end = begin + span->end * PAGE;
  while (scan.walk_end < scan.end) {
    scan.start = scan.walk_end;
    int count = ioctl(span->mapping->image->pagemap, SCAN, &scan);
    if (count < 0) return errno;
    for (int i = 0; i < count && take != NULL; i++) {
      size_t first = (found[i].start - begin) / PAGE, end = (found[i].end - begin) / PAGE;
      if ((found[i].categories & IS_ZEROS) != 0) take_zeros(span->mapping, first, end, take);
      else take(span->mapping, first, end);
    }
  }
  return KEFS_OK;
}

/* Gives the pages that the kernel says were stored to since the last look to `take`, and begins anew. A page that was not read yet has no protection, as a dirty one,
   but is neither present nor swapped. Where all pages were read the kernel is not asked for that, which takes it twice as long. */
static int look_at(const struct span *span, int is_bare, take_row *take) {
  uint64_t there = is_bare || span->mapping->image->lazy ? IS_PRESENT | IS_SWAPPED : 0, told = IS_WRITTEN | (is_bare ? IS_ZEROS : 0);
  return scan_span(span, (struct scan){.flags = PROTECT_MATCHING | CHECK_ASYNC, .mask = IS_WRITTEN, .anyof = there, .returned = told}, take);
}

static int look(const struct span *span, take_row *take) {
  struct span front = *span, bare = *span;
  if (front.end > span->mapping->bare) front.end = span->mapping->bare;
  if (bare.first < span->mapping->bare) bare.first = span->mapping->bare;
  int number = front.first < front.end ? look_at(&front, 0, take) : KEFS_OK;
  return number == KEFS_OK && bare.first < bare.end ? look_at(&bare, 1, take) : number;
}

static int watch_all(const struct span *span) {
  if (span->mapping->image->tracker != TRACKER_SCAN || span->first == span->end) return KEFS_OK;
  int number = register_faults(span, UFFDIO_REGISTER_MODE_WP);
  return number == KEFS_OK ? protect(span) : number;
}

/* What was put there so far is no store. */
static int watch_touched(const struct span *span) {
  struct mapping *mapping = span->mapping;
  if (mapping->image->tracker != TRACKER_SCAN) return KEFS_OK;
  madvise(page_at(mapping, span->first), (span->end - span->first) * PAGE, MADV_NOHUGEPAGE);
  int number = register_faults(span, UFFDIO_REGISTER_MODE_WP);
  if (mapping->bare > span->first) mapping->bare = span->first;
  return number == KEFS_OK ? look(span, NULL) : number;
}

int watch_new(const struct span *span) { return (span->end - span->first > MOST_WATCHED ? watch_touched : watch_all)(span); }

static void mark_row(struct mapping *mapping, size_t first, size_t end) {
  for (size_t k = first; k < end; k++) mark_dirty(mapping, k);
}

int note_dirty(const struct span *span) { return span->mapping->image->tracker == TRACKER_SCAN ? look(span, mark_row) : KEFS_OK; }

/* A scan has protected the pages already. */
int seal(const struct span *span) {
  if (span->mapping->image->tracker != TRACKER_SIGNAL) return KEFS_OK;
  return mprotect(page_at(span->mapping, span->first), (span->end - span->first) * PAGE, PROT_READ) == 0 ? KEFS_OK : errno;
}

/* Where the system makes no more mappings they stay as they are, and are opened one by one. */
void unseal(const struct span *span) {
  if (span->mapping->image->tracker == TRACKER_SIGNAL) open_span(span);
}

int forget_stores(const struct span *span) { return span->mapping->image->tracker == TRACKER_SCAN ? look(span, NULL) : seal(span); }

/* Pages that were touched */

/* By a word for each page, whose highest bits say that it is present or swapped. Where these can't be read all pages may have been touched. */
static int read_touched(const struct span *span, take_row *take) {
  struct mapping *mapping = span->mapping;
  uint64_t words[PAGE / sizeof(uint64_t)];
  for (size_t k = span->first, count; k < span->end; k += count) {
    count = span->end - k < sizeof words / sizeof *words ? span->end - k : sizeof words / sizeof *words;
    int number = read_all(mapping->image->pagemap, words, count * sizeof *words, (off_t)((uintptr_t)page_at(mapping, k) / PAGE * sizeof *words));
    if (number != KEFS_OK) return k > span->first ? number : (take(mapping, span->first, span->end), KEFS_OK);
    for (size_t i = 0; i < count; i++)
      if (words[i] >> 62 != 0) take(mapping, k + i, k + i + 1);
  }
  return KEFS_OK;
}

int find_touched(const struct span *span, take_row *take) {
  if (open_pagemap(span->mapping->image) != KEFS_OK) return take(span->mapping, span->first, span->end), KEFS_OK;
  int number = scan_span(span, (struct scan){.mask = IS_ZEROS, .inverted = IS_ZEROS, .anyof = IS_PRESENT | IS_SWAPPED, .returned = IS_PRESENT}, take);
  return has_no_scan(number) ? read_touched(span, take) : number;
}

/* Reading a mapping */

static int put_page(struct mapping *mapping, size_t k) {
  unsigned char bytes[PAGE];
  copy_durable(mapping->image, file_number(mapping), k, bytes);
  if (!mapping->image->lazy) return memcpy(page_at(mapping, k), bytes, PAGE), KEFS_OK;
  uint64_t mode = mapping->image->tracker == TRACKER_SCAN ? UFFDIO_COPY_MODE_WP : 0;
  struct uffdio_copy copy = {.dst = (uintptr_t)page_at(mapping, k), .src = (uintptr_t)bytes, .len = PAGE, .mode = mode};
  while (ioctl(mapping->image->faults, UFFDIO_COPY, &copy) != 0)
    if (errno != EAGAIN) return errno == EEXIST ? KEFS_OK : errno;
  return KEFS_OK;
}

static int note_slot(struct mapping *mapping, size_t k, uint32_t sector) {
  if (mapping->slots == NULL) mapping->slots = new_memory(mapping->kept * sizeof *mapping->slots);
  if (mapping->slots == NULL) return ENOMEM;
  mapping->slots[k] = sector, mapping->has_unread = 1;
  return KEFS_OK;
}

/* Of the pages that have the homes of an extent, from page `first` on, those that stand elsewhere. */
static int put_others_of(struct mapping *mapping, const struct extent *extent, size_t first) {
  const struct kefs_image *image = mapping->image;
  const struct places *places = image_places(mapping->image);
  size_t count = extent->count < mapping->pages - first ? extent->count : mapping->pages - first;
  int number = KEFS_OK;
  for (size_t i = first_place(places, extent->first); i < places->count && places->list[i].home - extent->first < count && number == KEFS_OK; i++) {
    size_t k = first + (places->list[i].home - extent->first);
    number = image->lazy && image->layout.blocks > 0 ? note_slot(mapping, k, places->list[i].sector) : put_page(mapping, k);
  }
  return number;
}

/* Reads the pages whose bytes are not those of their homes: the pages of the journal or the pool, and a last page that zeros end. Of a pool, which may be large, they
   are read late too. */
static int put_others(struct mapping *mapping) {
  const struct file *file = &mapping->file;
  int number = file->length % PAGE == 0 ? KEFS_OK : put_page(mapping, mapping->pages - 1);
  size_t first = 0;
  for (unsigned i = 0; i < file->extent_count && first < mapping->pages && number == KEFS_OK; first += file->extents[i++].count)
    number = put_others_of(mapping, &file->extents[i], first);
  return number;
}

/* Large pages take fewer faults now, and fewer entries to look through in each scan. The first store to one splits it. In a sparse file each would take 2 MiB for
   a page that was ever written. How many bytes were no hole goes to *read. */
static int read_homes(struct mapping *mapping, size_t *read) {
  const struct kefs_image *image = mapping->image;
  int number = KEFS_OK, is_sparse = image->roomless != NULL;
  if (!is_sparse) madvise(mapping->at, mapping->pages * PAGE, MADV_HUGEPAGE);
  *read = is_sparse ? 0 : mapping->pages * PAGE;
  for (size_t k = 0, run; k < mapping->pages && number == KEFS_OK; k += run) {
    uint32_t home = 0;
    run = homes_from(&mapping->file, k, &home);
    if (run > mapping->pages - k) run = mapping->pages - k;
    off_t from = home_offset(&image->layout, home);
    number = is_sparse ? read_data(image->fd, page_at(mapping, k), run * PAGE, from, read) : read_all(image->fd, page_at(mapping, k), run * PAGE, from);
  }
  return number == KEFS_OK ? KEFS_OK : EIO;
}

/* Reads all pages, and has the stores to them noted from then on. */
static int load_now(const struct span *all) {
  size_t read;
  int number = read_homes(all->mapping, &read);
  if (number == KEFS_OK) number = put_others(all->mapping);
  if (number != KEFS_OK) return number;
  return read / PAGE < all->end / 2 ? watch_new(all) : watch_all(all);
}

static int load_late(const struct span *all) {
  struct mapping *mapping = all->mapping;
  uint64_t write_mode = mapping->image->tracker == TRACKER_SCAN ? UFFDIO_REGISTER_MODE_WP : 0;
  mapping->late = mapping->pages;
  int number = register_faults(all, UFFDIO_REGISTER_MODE_MISSING | write_mode);
  return number == KEFS_OK ? put_others(mapping) : number;
}

int load(struct mapping *mapping) {
  struct kefs_image *image = mapping->image;
  struct span all = {mapping, 0, mapping->pages};
  if (mapping->pages == 0) return KEFS_OK;
  mapping->late = 0;
  int number = (image->lazy ? load_late : load_now)(&all);
  int closed = image->tracker == TRACKER_SIGNAL || image->read_only || mapping->file.read_only;
  if (number == KEFS_OK && closed && mprotect(mapping->at, mapping->pages * PAGE, PROT_READ) != 0) number = errno;
  return number;
}
