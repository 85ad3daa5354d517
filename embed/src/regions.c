/* Which addresses of the process are mapped files, for signal handlers and for calls that take no lock: a tree by parts of the address, so that the way to a
   mapping is as long where there are thousands.

   Regions, of all addresses that are kept for a mapping, are never freed, but used again. A region's start is 0 while it is not in use, and is written last. A
   node's places are read and written one by one, and nodes are never freed, so that a look needs no lock: that of an address of a mapping which stays meanwhile
   finds its region. */
#include "internal.h"
#include <errno.h>

struct region { uintptr_t start, end; uint64_t generation; struct mapping *mapping; struct region *next; };
static struct region *unused; /* a list of those that are in no use */

/* A place of a node has nothing, a node for the addresses of the place, or a region that has all of these. */
enum { BITS = 9, PLACES = 1 << BITS, LEVELS = 5, PAGE_BITS = 12, IS_REGION = 1 }; /* of addresses of up to 57 bits */
struct node { uintptr_t places[PLACES]; };
static struct node root;

/* How many bits of an address say what is within a place of a node of this level: 0 for the lowest one, whose places are pages. */
static unsigned bits_below(unsigned level) { return PAGE_BITS + BITS * level; }
static size_t place_of(uintptr_t address, unsigned level) { return address >> bits_below(level) & (PLACES - 1); }

static uintptr_t look_in(const struct node *node, size_t place) { return __atomic_load_n(&node->places[place], __ATOMIC_SEQ_CST); }
static void put_in(struct node *node, size_t place, uintptr_t what) { __atomic_store_n(&node->places[place], what, __ATOMIC_SEQ_CST); }
static struct node *node_of(uintptr_t what) { return what == 0 || (what & IS_REGION) != 0 ? NULL : (struct node *)what; }

/* The node in a place: it is made where there is none, or a region that a parent process had there. NULL: there is no memory. */
static struct node *node_in(struct node *node, size_t place) {
  struct node *below = node_of(look_in(node, place));
  if (below != NULL) return below;
  below = new_memory(sizeof *below);
  if (below != NULL) put_in(node, place, (uintptr_t)below);
  return below;
}

/* Addresses from `start` up to `end`, which is not one of them, of one node. */
struct range { uintptr_t start, end; };

static int put_below(struct node *node, unsigned level, const struct range *range, uintptr_t what);

/* Puts something, or nothing, into what a place has of a range. */
static int put_place(struct node *node, unsigned level, size_t place, const struct range *part, uintptr_t what) {
  int is_whole = part->end - part->start == (uintptr_t)1 << bits_below(level);
  if (is_whole && node_of(look_in(node, place)) == NULL) return put_in(node, place, what), KEFS_OK;
  struct node *below = what == 0 ? node_of(look_in(node, place)) : node_in(node, place);
  if (below == NULL) return what == 0 ? KEFS_OK : ENOMEM;
  return put_below(below, level - 1, part, what);
}

static int put_below(struct node *node, unsigned level, const struct range *range, uintptr_t what) {
  uintptr_t size = (uintptr_t)1 << bits_below(level);
  int number = KEFS_OK;
  for (uintptr_t at = range->start, next; at < range->end && number == KEFS_OK; at = next) {
    next = at / size * size + size;
    if (next > range->end || next < at) next = range->end;
    number = put_place(node, level, place_of(at, level), &(struct range){at, next}, what);
  }
  return number;
}

static int put_range(const struct range *range, uintptr_t what) { return put_below(&root, LEVELS - 1, range, what); }

static void free_again(struct region *region) {
  __atomic_store_n(&region->start, 0, __ATOMIC_SEQ_CST);
  region->next = unused;
  unused = region;
}

/* They are made by the page. NULL: there is no memory. */
static struct region *free_region(void) {
  struct region *made = unused == NULL ? new_memory(PAGE) : NULL, *region;
  for (size_t i = 0; i < PAGE / sizeof *made && made != NULL; i++) free_again(&made[i]);
  region = unused;
  if (region != NULL) unused = region->next;
  return region;
}

/* The tree finds it from here on. Where memory ends it is taken out again. */
static int use_region(struct region *region, struct mapping *mapping) {
  struct range range = {(uintptr_t)mapping->at, (uintptr_t)mapping->at + mapping->kept * PAGE};
  __atomic_store_n(&region->end, range.end, __ATOMIC_SEQ_CST);
  __atomic_store_n(&region->generation, mapping->image->generation, __ATOMIC_SEQ_CST);
  __atomic_store_n(&region->mapping, mapping, __ATOMIC_SEQ_CST);
  __atomic_store_n(&region->start, range.start, __ATOMIC_SEQ_CST);
  int number = put_range(&range, (uintptr_t)region | IS_REGION);
  if (number == KEFS_OK) return mapping->region = region, KEFS_OK;
  put_range(&range, 0);
  free_again(region);
  return number;
}

int add_region(struct mapping *mapping) {
  lock_process();
  struct region *region = free_region();
  int number = region == NULL ? ENOMEM : use_region(region, mapping);
  unlock_process();
  return number;
}

void remove_region(struct mapping *mapping) {
  struct region *region = mapping->region;
  if (region == NULL) return;
  lock_process();
  put_range(&(struct range){region->start, region->end}, 0);
  free_again(region);
  mapping->region = NULL;
  unlock_process();
}

/* A region that another thread takes into use meanwhile is seen whole or not at all, since its start is read before and after. */
static struct mapping *mapping_of(const struct region *region, uintptr_t at) {
  uintptr_t start = __atomic_load_n(&region->start, __ATOMIC_SEQ_CST);
  if (start == 0 || at < start || at >= __atomic_load_n(&region->end, __ATOMIC_SEQ_CST)) return NULL;
  struct mapping *mapping = __atomic_load_n(&region->mapping, __ATOMIC_SEQ_CST);
  uint64_t generation = __atomic_load_n(&region->generation, __ATOMIC_SEQ_CST);
  return !is_of_parent(generation) && __atomic_load_n(&region->start, __ATOMIC_SEQ_CST) == start ? mapping : NULL;
}

struct mapping *mapping_at(const void *address) {
  const struct node *node = &root;
  uintptr_t at = (uintptr_t)address, what = 0;
  for (unsigned level = LEVELS; level-- > 0 && node != NULL;) {
    what = look_in(node, place_of(at, level));
    node = node_of(what);
  }
  return (what & IS_REGION) != 0 ? mapping_of((const struct region *)(what - IS_REGION), at) : NULL;
}
