/* Where pages stand that are not in their homes: in the journal that the gate names, or in the slots of a pool. */
#include "internal.h"
#include <errno.h>
#include <string.h>

enum { BLOCK_NUMBERS = 504, HEAD = 64, BODY_NUMBERS = 4 * BLOCK_NUMBERS }; /* of a block of a pool's map: numbers of a body; bytes before them, and of them */

int new_places(const struct layout *layout, struct places *places) {
  size_t room = places_of(layout), bytes = room * sizeof *places->list;
  *places = (struct places){.list = new_memory(bytes), .spare = new_memory(bytes), .room = room, .most = room};
  return places->list == NULL || places->spare == NULL ? ENOMEM : KEFS_OK;
}

void drop_places(struct places *places) {
  drop_memory(places->list, places->room * sizeof *places->list);
  drop_memory(places->spare, places->room * sizeof *places->spare);
  *places = (struct places){0};
}

/* Listing */

static void list_journal(const unsigned char *map, uint32_t first, struct places *places) {
  uint32_t count = number_at(map);
  if (count > JOURNAL_PAGES) count = JOURNAL_PAGES;
  for (uint32_t i = 0; i < count; i++) places->list[i] = (struct place){number_at(map + 4 + 4 * (size_t)i), first + MAP_SECTORS + PAGE / SECTOR * i};
  places->count = count;
}

/* What is looked for in a pool's map: a list of all places, or where the first homes stand, so many of them. */
struct look { uint64_t homes; struct places *places; size_t *sectors; };

/* Looks at the numbers of a block of one body, whose slots begin at a sector. */
typedef void look_at(const struct look *look, const unsigned char *numbers, uint32_t sector);

/* What names a home past the last one is not looked at. */
static void list_numbers(const struct look *look, const unsigned char *numbers, uint32_t sector) {
  struct places *places = look->places;
  for (uint32_t i = 0; i < BLOCK_NUMBERS; i++) {
    uint32_t number = number_at(numbers + 4 * i);
    if (number != 0 && number <= look->homes) places->list[places->count++] = (struct place){number - 1, sector + PAGE / SECTOR * i};
  }
}

/* The first slot that names a home counts, and 0 names none. */
static void find_numbers(const struct look *look, const unsigned char *numbers, uint32_t sector) {
  uint32_t homes = (uint32_t)look->homes;
  for (uint32_t i = 0; i < BLOCK_NUMBERS; i++) {
    uint32_t home = number_at(numbers + 4 * i) - 1;
    if (home < homes && look->sectors[home] == 0) look->sectors[home] = sector + PAGE / SECTOR * i;
  }
}

/* In the order of slots. The blocks of a map lie with the last one first. */
static void look_through(const struct layout *layout, const unsigned char *map, look_at *at, const struct look *look) {
  uint32_t blocks = layout->blocks, count = number_at(map + (size_t)PAGE * (blocks - 1));
  if (count > blocks) count = blocks;
  for (unsigned body = 0; body < 2; body++)
    for (uint32_t q = 0; q < count; q++) {
      uint32_t slots = layout->maps[body] + PAGE / SECTOR * (blocks + BLOCK_NUMBERS * q);
      at(look, map + (size_t)PAGE * (blocks - 1 - q) + HEAD + BODY_NUMBERS * body, slots);
    }
}

static void list_pool(const struct layout *layout, uint64_t homes, const unsigned char *map, struct places *places) {
  places->count = 0;
  look_through(layout, map, list_numbers, &(struct look){.homes = homes, .places = places});
}

void list_places(const struct layout *layout, uint64_t homes, const unsigned char *map, uint32_t first, struct places *places) {
  if (layout->blocks == 0) list_journal(map, first, places);
  else list_pool(layout, homes, map, places);
  places->taken = places->most = places->count;
  places->is_listed = 1, places->is_sorted = 0;
}

/* Sorting */

enum { DIGIT = 10, DIGITS = 1 << DIGIT }; /* a home is three of these */

static void sort_by_digit(const struct place *from, struct place *to, size_t count, unsigned digit) {
  size_t starts[DIGITS + 1] = {0};
  for (size_t i = 0; i < count; i++) starts[(from[i].home >> DIGIT * digit) % DIGITS + 1]++;
  for (size_t d = 1; d < DIGITS; d++) starts[d] += starts[d - 1];
  for (size_t i = 0; i < count; i++) to[starts[(from[i].home >> DIGIT * digit) % DIGITS]++] = from[i];
}

void order_places(struct places *places) {
  sort_by_digit(places->list, places->spare, places->count, 0);
  sort_by_digit(places->spare, places->list, places->count, 1);
  sort_by_digit(places->list, places->spare, places->count, 2);
}

void sort_places(struct places *places) {
  size_t count = 0;
  order_places(places);
  for (size_t i = 0; i < places->count; i++)
    if (i == 0 || places->spare[i].home != places->spare[i - 1].home) places->list[count++] = places->spare[i];
  places->count = count;
  places->is_sorted = 1;
}

size_t first_place(const struct places *places, uint32_t home) {
  size_t low = 0, high = places->count;
  while (low < high) {
    size_t middle = low + (high - low) / 2;
    if (places->list[middle].home < home) low = middle + 1;
    else high = middle;
  }
  return low;
}

/* The image's own */

void change_places(struct kefs_image *image, size_t pages) {
  struct places *places = &image->places;
  places->is_listed = places->is_sorted = 0;
  places->most = pages < places->room - places->most ? places->most + pages : places->room;
}

void forget_places(struct kefs_image *image) { change_places(image, image->places.room); }

static void list_own(struct kefs_image *image) {
  struct places *places = &image->places;
  uint32_t map = named_map(image);
  if (places->is_listed) return;
  if (map != 0) list_places(&image->layout, home_pages(image), sector_at(image, map), map, places);
  else places->count = places->taken = places->most = 0, places->is_listed = 1, places->is_sorted = 0;
}

const struct places *image_places(struct kefs_image *image) {
  list_own(image);
  if (!image->places.is_sorted) sort_places(&image->places);
  return &image->places;
}

size_t free_places(struct kefs_image *image) {
  if (image->layout.blocks == 0) return JOURNAL_PAGES;
  list_own(image);
  return image->places.room - image->places.taken;
}

/* A list of all places takes longer than all else that is done before a plan of one page, so it is made where what is known without it does not answer. */
int has_free_places(struct kefs_image *image, size_t pages) {
  const struct places *places = &image->places;
  return (image->layout.blocks > 0 && pages <= places->room - places->most) || pages <= free_places(image);
}

size_t standing_sector(struct kefs_image *image, uint32_t home) {
  const struct places *places = image_places(image);
  size_t i = first_place(places, home);
  return i < places->count && places->list[i].home == home ? places->list[i].sector : home_sector(&image->layout, home);
}

/* Each commit of lengths is followed by it, when the places are to be read anew: for a few homes a list of all, in their order, would take longer than the plan. */
void first_sectors(const struct kefs_image *image, uint32_t count, size_t *sectors) {
  const struct layout *layout = &image->layout;
  memset(sectors, 0, count * sizeof *sectors);
  look_through(layout, sector_at(image, named_map(image)), find_numbers, &(struct look){.homes = count, .sectors = sectors});
  for (uint32_t home = 0; home < count; home++)
    if (sectors[home] == 0) sectors[home] = home_sector(layout, home);
}
