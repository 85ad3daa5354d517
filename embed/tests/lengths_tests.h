/* What the tests of readers beside commits of lengths share: an image of which all lengths and bytes are known by the number of its last commit. */
#ifndef KEFS_LENGTHS_TESTS_H
#define KEFS_LENGTHS_TESTS_H
#include "readers_tests.h"

/* What commit number n leaves. File 0 has the number. Each other one has a length that changes each `period` commits, of up to `pages` pages, and each page
   the number of the commit that stored to it last, and a mark in its last byte, if the file was long enough for it ever since. A page is stored to by the
   commit that brings it, and by some of the others; but a file that is not mapped is zeros. */

enum { FILES = 5, MOST = 4096 * PAGE };
struct kind { unsigned long period, pages; int is_mapped; };
static const struct kind kinds[FILES] = {{1, 1, 1}, {2, 40, 1}, {3, 300, 1}, {23, 3000, 1}, {7, 900, 0}};

/* An open image, and where its files are. */
struct store { kefs_image *image; unsigned char *at[FILES]; size_t kept[FILES]; };

static inline unsigned long mixed(unsigned long number) {
  number = (number ^ number >> 31) * 0x9e3779b97f4a7c15ul;
  number = (number ^ number >> 29) * 0xbf58476d1ce4e5b9ul;
  return number ^ number >> 32;
}

static inline size_t length_at(unsigned f, unsigned long n) {
  unsigned long drawn = mixed(n / kinds[f].period * FILES + f), pages = drawn % (kinds[f].pages + 1), less = drawn >> 20 & 3 ? (drawn >> 24) % (PAGE - 64) : 0;
  if (f == 0) return PAGE;
  return n == 0 || pages == 0 ? 0 : pages * PAGE - less;
}

static inline size_t pages_at(unsigned f, unsigned long n) { return (length_at(f, n) + PAGE - 1) / PAGE; }

static inline int stores_to(unsigned f, size_t k, unsigned long n) {
  unsigned long each = f == 1 ? 1 + k % 6 : 16 + k % 50;
  return (n + k * 7) % each == 0 || k >= pages_at(f, n - 1);
}

static inline unsigned long word_of(unsigned f, size_t k, unsigned long n) { return n * 1000003 + f * 10007 + k; }

static inline unsigned char mark_of(unsigned f, size_t k, unsigned long n, unsigned long stored) {
  for (unsigned long m = stored; m <= n; m++)
    if (length_at(f, m) < (k + 1) * PAGE) return 0;
  return (unsigned char)(1 + stored % 255);
}

/* Page k of a file after commit n: 0, or the first byte that is another one, and one. */
static inline size_t first_wrong(const unsigned char *page, unsigned f, size_t k, unsigned long n) {
  unsigned char wanted[PAGE] = {0};
  unsigned long stored = n;
  while (!stores_to(f, k, stored)) stored--;
  unsigned long word = word_of(f, k, stored);
  if (kinds[f].is_mapped) memcpy(wanted, &word, sizeof word), wanted[PAGE - 1] = mark_of(f, k, n, stored);
  if (memcmp(page, wanted, PAGE) == 0) return 0;
  size_t wrong = 0;
  while (page[wrong] == wanted[wrong]) wrong++;
  return wrong + 1;
}

static inline unsigned long number_of(const struct store *store) { return *(const volatile unsigned long *)(const void *)store->at[0]; }

/* All lengths and bytes of an image are as after the commit that its number says, as far as addresses are kept: which it is. */
static inline unsigned long checked(const struct store *store) {
  unsigned long n = number_of(store);
  for (unsigned f = 1; f < FILES; f++) {
    size_t length, pages = pages_at(f, n);
    DONE(kefs_length(store->image, f, &length));
    if (length != length_at(f, n)) dprintf(2, "after commit %lu file %u has %zu bytes, and not %zu\n", n, f, length, length_at(f, n)), _exit(1);
    for (size_t k = 0; k < pages && k < store->kept[f]; k++) {
      size_t wrong = first_wrong(store->at[f] + k * PAGE, f, k, n);
      if (wrong > 0) dprintf(2, "after commit %lu byte %zu of page %zu of %zu of file %u is another one\n", n, wrong - 1, k, pages, f), _exit(1);
    }
  }
  return n;
}

static inline void map_file(struct store *store, unsigned f, size_t most) {
  void *at;
  size_t length;
  DONE(kefs_map_growing(store->image, f, NULL, most, &at, &length));
  store->at[f] = at, store->kept[f] = ((length > most ? length : most) + PAGE - 1) / PAGE;
}

static inline void map_files(struct store *store, size_t most) {
  for (unsigned f = 0; f < FILES; f++) map_file(store, f, most);
}

static inline void open_store(struct store *store, const char *path, unsigned flags) {
  DONE(kefs_open(&store->image, path, flags));
  map_files(store, MOST);
}

/* Writing */

static struct store written;

static inline void store_page(unsigned f, size_t k, unsigned long n) {
  unsigned long word = word_of(f, k, n);
  unsigned char *page = written.at[f] + k * PAGE;
  memcpy(page, &word, sizeof word);
  if (length_at(f, n) >= (k + 1) * PAGE) page[PAGE - 1] = (unsigned char)(1 + n % 255);
}

/* All that commit n does, but to commit. */
static inline void make_changes(unsigned long n) {
  for (unsigned f = 1; f < FILES; f++) {
    if (length_at(f, n) != length_at(f, n - 1)) DONE(kefs_resize(written.image, f, length_at(f, n)));
    for (size_t k = 0; k < pages_at(f, n) && kinds[f].is_mapped; k++)
      if (stores_to(f, k, n)) store_page(f, k, n);
  }
  *(unsigned long *)(void *)written.at[0] = n;
}

/* Some are started and waited for. */
static inline void make_commit(unsigned long n) {
  uint64_t ticket;
  make_changes(n);
  if (n % 4 != 0) DONE(kefs_commit(written.image, NULL, 0, NULL));
  else {
    DONE(kefs_commit_start(written.image, NULL, 0, NULL, &ticket));
    DONE(kefs_commit_wait(written.image, ticket));
  }
}

static inline unsigned long next_commit(void) {
  unsigned long n = number_of(&written) + 1;
  return make_commit(n), n;
}

static inline void open_written(unsigned flags) {
  DONE(kefs_open(&written.image, PATH, flags));
  for (unsigned f = 0; f < FILES; f++)
    if (kinds[f].is_mapped) map_file(&written, f, MOST);
}

/* An image after commit 1, open to write, with a pool from which commits drop pages often, or seldom. */
static inline void begin_written(void) {
  struct kefs_file files[FILES] = {{PAGE, 0, NULL}};
  struct kefs_options options = {.size = sizeof options, .permissions = 0600, .files = files, .count = FILES, .pool = random() % 2 == 0};
  unlink(PATH);
  DONE(kefs_open_with(&written.image, PATH, KEFS_CREATE, &options));
  DONE(kefs_close(written.image));
  open_written(0);
  make_commit(1);
}

static inline void commit_some(unsigned long commits) {
  for (; commits > 0; commits--) next_commit();
}

/* Touches past the end */

static sigjmp_buf elsewhere;

static inline void on_fault(int number) { siglongjmp(elsewhere, number); }

/* The library may have handlers of its own. */
static inline int fault_of(const unsigned char *at) {
  struct sigaction ours = {.sa_handler = on_fault}, before[2];
  sigaction(SIGBUS, &ours, &before[0]), sigaction(SIGSEGV, &ours, &before[1]);
  int seen = sigsetjmp(elsewhere, 1);
  if (seen == 0) (void)*(const volatile unsigned char *)at;
  sigaction(SIGBUS, &before[0], NULL), sigaction(SIGSEGV, &before[1], NULL);
  return seen;
}

/* Pages that the files have not are a SIGBUS as far as addresses are kept. */
static inline void check_ends(const struct store *store) {
  for (unsigned f = 0; f < FILES; f++) {
    size_t pages = pages_at(f, number_of(store)), kept = store->kept[f];
    if (pages >= kept) continue;
    CHECK(fault_of(store->at[f] + pages * PAGE) == SIGBUS && fault_of(store->at[f] + kept * PAGE - 1) == SIGBUS);
  }
}

static inline void check_backup(kefs_image *image, unsigned long least) {
  struct store copy;
  unlink("backup.img");
  DONE(kefs_backup(image, "backup.img", 0600));
  CHECK(system("../kefscheck backup.img > /dev/null") == 0);
  open_store(&copy, "backup.img", random() % 2 == 0 ? KEFS_RDONLY : 0);
  CHECK(checked(&copy) >= least);
  DONE(kefs_close(copy.image));
}

/* A file that is mapped anew keeps addresses for what it has, or for more. */
static inline void map_anew(struct store *store, unsigned f) {
  if (store->at[f] != NULL) DONE(kefs_unmap(store->image, f));
  map_file(store, f, random() % 2 == 0 ? 0 : MOST);
}
#endif
