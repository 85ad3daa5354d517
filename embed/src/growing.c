/* Homes for files that grow. Where an image has too few its host file gets longer, and sparse there: an image stands for the same files in a longer one. So
   nothing has to be taken back where a growth comes to nothing, and the first sync of a plan makes the length durable.

   The proved part gives a file that lacks homes one more extent: of as many as it has, 64, or what it lacks, whichever is most, behind all that are in use, or
   else in the first gap; and where there are not so many in a row, of what it lacks alone. A file of 30 extents gets no more. So there are to be homes for the
   larger extents, and where the host file may not get longer for the smaller ones. */
#include "internal.h"
#include <errno.h>
#include <string.h>

enum { LEAST_HOMES = 64 };

/* Homes that no file has */

static uint64_t end_of(const struct extent *row) { return (uint64_t)row->first + row->count; }

/* The first row that ends behind a home. */
static size_t row_behind(const struct homes *homes, uint64_t home) {
  size_t low = 0, high = homes->count;
  while (low < high) {
    size_t middle = low + (high - low) / 2;
    if (end_of(&homes->rows[middle]) <= home) low = middle + 1;
    else high = middle;
  }
  return low;
}

static void put_row(struct homes *homes, size_t i, uint64_t first, uint64_t end) {
  memmove(homes->rows + i + 1, homes->rows + i, (homes->count - i) * sizeof *homes->rows);
  homes->rows[i] = (struct extent){(uint32_t)first, (uint32_t)(end - first)};
  homes->count++;
}

static void drop_row(struct homes *homes, size_t i) {
  homes->count--;
  memmove(homes->rows + i, homes->rows + i + 1, (homes->count - i) * sizeof *homes->rows);
}

/* Takes homes out of the row that they are in. What is left of it stays, before them and behind them. */
static void take_out(struct homes *homes, const struct extent *extent) {
  size_t i = row_behind(homes, extent->first);
  uint64_t first = homes->rows[i].first, end = end_of(&homes->rows[i]);
  drop_row(homes, i);
  if (end > end_of(extent)) put_row(homes, i, end_of(extent), end);
  if (first < extent->first) put_row(homes, i, first, extent->first);
}

/* Puts homes in, as one row with those that they touch. */
static void put_in(struct homes *homes, const struct extent *extent) {
  uint64_t first = extent->first, end = end_of(extent);
  size_t i = row_behind(homes, first);
  if (i < homes->count && homes->rows[i].first == end) end = end_of(&homes->rows[i]), drop_row(homes, i);
  if (i > 0 && end_of(&homes->rows[i - 1]) == first) first = homes->rows[--i].first, drop_row(homes, i);
  put_row(homes, i, first, end);
}

/* Of the extents of both entries those that are not in the same place in the other one. */
void change_homes(struct kefs_image *image, const struct file *before, const struct file *after) {
  struct homes *homes = &image->homes;
  for (unsigned i = 0; i < EXTENTS && homes->is_listed; i++) {
    const struct extent *old = i < before->extent_count ? &before->extents[i] : NULL, *new = i < after->extent_count ? &after->extents[i] : NULL;
    if (old != NULL && new != NULL && old->first == new->first && old->count == new->count) continue;
    if (old != NULL && old->count > 0) put_in(homes, old);
    if (new != NULL && new->count > 0) take_out(homes, new);
  }
}

static void list_extents(const struct kefs_image *image, struct places *used) {
  for (unsigned f = first_number(&image->present); f < KEFS_FILES; f = next_number(&image->present, f + 1))
    for (unsigned i = 0; i < image->files[f].extent_count; i++)
      if (image->files[f].extents[i].count > 0) used->list[used->count++] = (struct place){image->files[f].extents[i].first, image->files[f].extents[i].count};
}

/* The rows between those that are used, which are in their order in the spare room. */
static void list_rows(const struct kefs_image *image, const struct places *used, struct homes *homes) {
  uint64_t end = image->layout.directory_pages;
  homes->count = 0;
  for (size_t i = 0; i < used->count; i++) {
    if (used->spare[i].home > end) put_row(homes, homes->count, end, used->spare[i].home);
    end = (uint64_t)used->spare[i].home + used->spare[i].sector;
  }
  if (end < MOST_HOMES) put_row(homes, homes->count, end, MOST_HOMES);
}

/* Once, where homes are first looked for: commits change the list then. Its room is for as many extents as files may have. */
static int list_homes(struct kefs_image *image) {
  struct homes *homes = &image->homes;
  if (homes->is_listed) return KEFS_OK;
  struct places used = {.room = (size_t)EXTENTS * image->entries};
  size_t bytes = used.room * sizeof *used.list;
  if (homes->rows == NULL) homes->room = used.room + 1, homes->rows = new_memory(homes->room * sizeof *homes->rows);
  used.list = new_memory(bytes), used.spare = new_memory(bytes);
  int has_memory = homes->rows != NULL && used.list != NULL && used.spare != NULL;
  if (has_memory) {
    list_extents(image, &used);
    order_places(&used);
    list_rows(image, &used, homes);
    homes->is_listed = 1;
  }
  drop_memory(used.list, bytes), drop_memory(used.spare, bytes);
  return has_memory ? KEFS_OK : ENOMEM;
}

void drop_homes(struct kefs_image *image) {
  drop_memory(image->homes.rows, image->homes.room * sizeof *image->homes.rows);
  image->homes = (struct homes){0};
}

/* The home behind all that files have. */
static uint64_t last_end(const struct homes *homes) {
  const struct extent *last = homes->count == 0 ? NULL : &homes->rows[homes->count - 1];
  return last != NULL && end_of(last) == MOST_HOMES ? last->first : MOST_HOMES;
}

/* What files lack */

static uint64_t homes_of(const struct file *file) {
  uint64_t homes = 0;
  for (unsigned i = 0; i < file->extent_count; i++) homes += file->extents[i].count;
  return homes;
}

void find_lacks(const struct kefs_image *image, unsigned f, struct size *size) {
  uint64_t pages = pages_of(size->length), homes = homes_of(&image->files[f]), most = homes > LEAST_HOMES ? homes : LEAST_HOMES;
  size->lacks = pages > homes ? (uint32_t)(pages - homes) : 0;
  size->wants = size->lacks == 0 ? 0 : size->lacks > most ? size->lacks : (uint32_t)most;
}

/* Finding */

static uint32_t amount_of(const struct size *size, int is_least) { return is_least ? size->lacks : size->wants; }

static int has_behind(const struct kefs_image *image, uint64_t amount) {
  uint64_t behind = last_end(&image->homes), homes = home_pages(image);
  return behind <= homes && amount <= homes - behind;
}

/* The row that a file gets so many homes of, or how many rows there are: the last one, which lies behind all that files have, where the host file has so many
   there, and else the first that has them. */
static size_t find_row(const struct kefs_image *image, uint32_t amount) {
  const struct homes *homes = &image->homes;
  size_t i = 0, end = homes->count - (last_end(homes) < MOST_HOMES);
  if (has_behind(image, amount)) return homes->count - 1;
  while (i < end && homes->rows[i].count < amount) i++;
  return i < end ? i : homes->count;
}

/* Lends a file homes in a row, if there are so many: whether there are. */
static int lend(struct kefs_image *image, struct size *size, int is_least) {
  uint32_t amount = amount_of(size, is_least);
  size_t i = amount == 0 ? 0 : find_row(image, amount);
  if (amount == 0 || i == image->homes.count) return amount == 0;
  image->homes.rows[i].first += amount, image->homes.rows[i].count -= amount;
  size->row = (uint32_t)i;
  return 1;
}

static void give_back(struct kefs_image *image, const struct size *size, int is_least) {
  uint32_t amount = amount_of(size, is_least);
  if (amount == 0) return;
  image->homes.rows[size->row].first -= amount, image->homes.rows[size->row].count += amount;
}

/* Whether each file finds so many homes in a row, as many as it wants or as it lacks, all of them together. Mostly there are enough behind all others. */
static int have_homes(struct kefs_image *image, int is_least) {
  const struct numbers *changed = &image->changed;
  unsigned end = first_number(changed);
  if (has_behind(image, is_least ? image->lacks : image->wants)) return 1;
  while (end < KEFS_FILES && lend(image, &image->sizes[end], is_least)) end = next_number(changed, end + 1);
  for (unsigned f = first_number(changed); f < end; f = next_number(changed, f + 1)) give_back(image, &image->sizes[f], is_least);
  return end == KEFS_FILES;
}

/* The host file */

/* Of so many sectors, which are more than before: new ones have no room yet, and all others have it where the file was whole. */
static unsigned char *longer_roomless(const struct kefs_image *image, size_t sectors) {
  enum { BIT = PAGE / SECTOR };
  unsigned char *roomless = new_memory(room_bytes(sectors));
  size_t first = image->sectors / BIT, last = sectors / BIT;
  if (roomless == NULL) return NULL;
  if (image->roomless != NULL) memcpy(roomless, image->roomless, room_bytes(image->sectors));
  for (; first <= last && first % 8 != 0; first++) set_bit(roomless, first);
  if (first <= last) memset(roomless + first / 8, 0xff, room_bytes(sectors) - first / 8);
  return roomless;
}

/* What was there stays: a signal handler may have read where it is. */
static int map_longer(struct kefs_image *image, size_t sectors) {
  struct former *former = new_memory(sizeof *former);
  const unsigned char *bytes = map_sectors(image, sectors);
  unsigned char *roomless = longer_roomless(image, sectors);
  if (former == NULL || bytes == NULL || roomless == NULL) {
    drop_memory(former, sizeof *former), drop_memory(bytes, mapped_bytes(sectors)), drop_memory(roomless, room_bytes(sectors));
    return ENOMEM;
  }
  *former = (struct former){image->bytes, image->roomless, image->sectors, image->former};
  image->former = former;
  image->sectors = sectors;
  __atomic_store_n(&image->roomless, roomless, __ATOMIC_RELEASE);
  __atomic_store_n(&image->bytes, bytes, __ATOMIC_RELEASE);
  image->stat.pages = home_pages(image);
  return KEFS_OK;
}

void drop_former(struct kefs_image *image) {
  while (image->former != NULL) {
    struct former *former = image->former;
    drop_memory(former->bytes, mapped_bytes(former->sectors));
    drop_memory(former->roomless, room_bytes(former->sectors));
    image->former = former->next;
    drop_memory(former, sizeof *former);
  }
}

static int set_homes(struct kefs_image *image, uint64_t homes) {
  if (homes > MOST_HOMES) return EFBIG;
  size_t sectors = home_sector(&image->layout, (uint32_t)homes);
  int number = set_length(image->fd, (off_t)(SECTOR * sectors));
  return number == KEFS_OK ? map_longer(image, sectors) : number;
}

/* Twice as long, or for what is wanted, if that is more; or just for what files lack. KEFS_OK or an errno value. */
static int lengthen(struct kefs_image *image) {
  uint64_t behind = last_end(&image->homes), homes = home_pages(image), wanted = behind + image->wants, least = behind + image->lacks;
  uint64_t twice = homes + (homes > LEAST_HOMES ? homes : LEAST_HOMES), most = wanted > twice ? wanted : twice;
  int number = set_homes(image, most > MOST_HOMES && least <= MOST_HOMES ? MOST_HOMES : most);
  return number != KEFS_OK && least > homes ? set_homes(image, least) : number;
}

static int say_too_short(const struct kefs_image *image, int number) {
  int result = number == EFBIG || number == ENOMEM ? number : device_result(number);
  return fail(image, result, "a host file of over %llu pages: %s", (unsigned long long)home_pages(image), kefs_strerror(number));
}

int lengthen_image(struct kefs_image *image) {
  int number = list_homes(image);
  if (number == KEFS_OK) number = lengthen(image);
  return number == KEFS_OK ? KEFS_OK : say_too_short(image, number);
}

int make_homes(struct kefs_image *image, unsigned f) {
  if (!has_number(&image->changed, f) || image->sizes[f].lacks == 0) return KEFS_OK;
  if (image->files[f].extent_count == EXTENTS) return fail(image, EFBIG, "file %u lies in %d parts, and can have no more", f, EXTENTS);
  int number = list_homes(image);
  if (number != KEFS_OK) return fail(image, number, "a list of free pages");
  if (have_homes(image, 0)) return KEFS_OK;
  number = lengthen(image);
  return number == KEFS_OK || have_homes(image, 1) ? KEFS_OK : say_too_short(image, number);
}
