/* Names of files. They are bytes of file 0 of an image that was made with names: a record of each file that its directory has a place for, and 64 at least, of
   which that of file 0 says that these are names.

   An image keeps them in memory: one that is open to write from its opening on, and one that was opened to read when they are asked for, until a refresh brings
   others. Calls change them there, and of each page that they change they keep what is durable. A commit takes the pages that differ, as it takes any pages: so
   names change in one commit with the files that come and go. Nobody may map file 0 meanwhile.

   A record that is no name counts as zeros: one without a zero byte, of a file that is not there, or with the name of a record before it. The next commit that
   takes names writes it so. */
#include "internal.h"
#include <errno.h>
#include <string.h>

static const char MARK[NAME] = "kefs names 1";
enum { PAGE_RECORDS = PAGE / NAME };

static size_t records_of(unsigned entries) { return entries > OLDER_FILES ? entries : OLDER_FILES; }

int format_with_names(const char *path, const struct kefs_options *options) {
  size_t length = NAME * records_of(places_asked(options));
  char *records = new_memory(length);
  struct kefs_file file = {length, 0, records};
  struct kefs_options named = *options;
  if (records == NULL) return fail(NULL, ENOMEM, "names");
  memcpy(records, MARK, NAME);
  named.files = &file, named.count = 1;
  int result = format_as(path, &named);
  drop_memory(records, length);
  return result;
}

/* Finding */

/* FNV-1a, which tells names apart that differ in a byte. */
static size_t chain_of(const struct names *names, const char *name) {
  uint64_t mixed = 0xcbf29ce484222325;
  for (const char *at = name; *at != 0; at++) mixed = (mixed ^ (unsigned char)*at) * 0x100000001b3;
  return (size_t)(mixed % names->count);
}

/* The file that has a name, or KEFS_FILES. No file of number 0 has one. */
static unsigned find_name(const struct names *names, const char *name) {
  unsigned f = names->first[chain_of(names, name)];
  while (f != 0 && strcmp(names->records[f], name) != 0) f = names->next[f];
  return f == 0 ? KEFS_FILES : f;
}

static void chain(struct names *names, unsigned f) {
  size_t place = chain_of(names, names->records[f]);
  names->next[f] = names->first[place], names->first[place] = (uint16_t)f;
}

static void unchain(struct names *names, unsigned f) {
  uint16_t *it = &names->first[chain_of(names, names->records[f])];
  while (*it != f) it = &names->next[*it];
  *it = names->next[f];
}

/* Records */

static unsigned char *page_at(char (*records)[NAME], size_t k) { return (unsigned char *)records[PAGE_RECORDS * k]; }

/* A page's records are about to change. */
static void note_change(struct names *names, size_t k) {
  if (has_number(&names->changed, (unsigned)k)) return;
  memcpy(page_at(names->durable, k), page_at(names->records, k), PAGE);
  add_number(&names->changed, (unsigned)k);
}

/* A record of zeros behind the name, or of nothing else. It is not chained. */
static void put_record(struct names *names, unsigned f, const char *name) {
  char *record = names->records[f];
  size_t length = strlen(name);
  note_change(names, f / PAGE_RECORDS);
  memmove(record, name, length);
  memset(record + length, 0, NAME - length);
}

static int is_name(const struct kefs_image *image, const struct names *names, unsigned f) {
  const char *record = names->records[f];
  return f < image->entries && is_there(image, f) && record[0] != 0 && memchr(record, 0, NAME) != NULL && find_name(names, record) == KEFS_FILES;
}

/* Whether a record has nothing but zeros behind a name. */
static int ends_in_zeros(const char *record, const char *name) {
  static const char zeros[NAME];
  size_t length = strlen(name);
  return memcmp(record + length, zeros, NAME - length) == 0;
}

/* What is no name becomes zeros, and what follows one. */
static void chain_all(const struct kefs_image *image, struct names *names) {
  memset(names->first, 0, names->count * sizeof *names->first);
  for (unsigned f = 1; f < names->count; f++) {
    int is = is_name(image, names, f);
    const char *name = is ? names->records[f] : "";
    if (!ends_in_zeros(names->records[f], name)) put_record(names, f, name);
    if (is) chain(names, f);
  }
}

static void drop_names(struct names *names) {
  size_t count = names->count;
  drop_memory(names->records, NAME * count), drop_memory(names->durable, NAME * count);
  drop_memory(names->first, count * sizeof *names->first), drop_memory(names->next, count * sizeof *names->next);
  drop_memory(names, sizeof *names);
}

static struct names *new_names(size_t count) {
  struct names *names = new_memory(sizeof *names);
  if (names == NULL) return NULL;
  names->count = count;
  names->records = new_memory(NAME * count), names->durable = new_memory(NAME * count);
  names->first = new_memory(count * sizeof *names->first), names->next = new_memory(count * sizeof *names->next);
  if (names->records != NULL && names->durable != NULL && names->first != NULL && names->next != NULL) return names;
  return drop_names(names), NULL;
}

/* Whether the image has names, by its file 0 as it is durable. */
static int has_names(struct kefs_image *image) {
  char page[PAGE];
  const struct file *file = &image->files[0];
  if (image->layout.blocks == 0 || !file->present || file->read_only || file->length != NAME * records_of(image->entries)) return 0;
  copy_durable(image, 0, 0, (unsigned char *)page);
  return memcmp(page, MARK, NAME) == 0;
}

int begin_names(struct kefs_image *image) {
  if (image->names != NULL || !has_names(image)) return KEFS_OK;
  struct names *names = new_names(records_of(image->entries));
  if (names == NULL) return fail(image, ENOMEM, "names");
  for (size_t k = 0; k < names->count / PAGE_RECORDS; k++) copy_durable(image, 0, k, page_at(names->records, k));
  chain_all(image, names);
  image->names = names;
  return KEFS_OK;
}

void end_names(struct kefs_image *image) {
  if (image->names != NULL) drop_names(image->names);
  image->names = NULL;
}

/* Those of an image that is open to write */

int is_names_file(const struct kefs_image *image, unsigned f) { return f == 0 && image->names != NULL && !image->read_only; }

const unsigned char *names_page(const struct kefs_image *image, size_t k) { return page_at(image->names->records, k); }

size_t next_changed_name_page(const struct kefs_image *image, size_t k) {
  const struct names *names = image->names;
  if (names == NULL) return KEFS_FILES;
  for (k = next_number(&names->changed, (unsigned)k); k < KEFS_FILES; k = next_number(&names->changed, (unsigned)k + 1))
    if (memcmp(page_at(names->records, k), page_at(names->durable, k), PAGE) != 0) return k;
  return KEFS_FILES;
}

size_t count_changed_name_pages(const struct kefs_image *image) {
  size_t count = 0;
  for (size_t k = next_changed_name_page(image, 0); k < KEFS_FILES; k = next_changed_name_page(image, k + 1)) count++;
  return count;
}

void roll_back_names(struct kefs_image *image) {
  struct names *names = image->names;
  if (names == NULL || names->changed.some == 0) return;
  for (unsigned k = first_number(&names->changed); k < KEFS_FILES; k = next_number(&names->changed, k + 1))
    memcpy(page_at(names->records, k), page_at(names->durable, k), PAGE);
  names->changed = (struct numbers){0};
  chain_all(image, names);
}

void settle_names(struct kefs_image *image) {
  if (image->names != NULL) image->names->changed = (struct numbers){0};
}

static void put_name(struct kefs_image *image, unsigned f, const char *name) {
  struct names *names = image->names;
  if (names->records[f][0] != 0) unchain(names, f);
  put_record(names, f, name);
  if (name[0] != 0) chain(names, f);
}

void clear_name(struct kefs_image *image, unsigned f) {
  if (image->names != NULL) put_name(image, f, "");
}

const char *name_of(const struct kefs_image *image, unsigned f) {
  const struct names *names = image->names;
  return names == NULL || f == 0 || f >= names->count || names->records[f][0] == 0 ? NULL : names->records[f];
}

/* Looking */

static int check_name(const struct kefs_image *image, const char *name) {
  if (name == NULL) return fail(image, KEFS_BAD_ARGUMENT, "no name");
  if (name[0] == 0) return fail(image, EINVAL, "an empty name");
  return memchr(name, 0, NAME) != NULL ? KEFS_OK : fail(image, ENAMETOOLONG, "a name of over %d bytes", NAME - 1);
}

/* The names of an image that has them are in memory: KEFS_OK, EOPNOTSUPP or ENOMEM. */
static int take_names(struct kefs_image *image) {
  int result = image->read_only ? begin_names(image) : KEFS_OK;
  if (result != KEFS_OK) return result;
  return image->names != NULL ? KEFS_OK : fail(image, EOPNOTSUPP, "the files of this image have no names");
}

static int look_up(const struct kefs_image *image, const char *name, unsigned *file) {
  int result = check_name(image, name);
  if (result != KEFS_OK) return result;
  *file = find_name(image->names, name);
  return *file < KEFS_FILES ? KEFS_OK : fail(image, KEFS_NO_FILE, "no file is named %s", name);
}

int kefs_lookup(kefs_image *image, const char *name, unsigned *file) {
  unsigned found;
  int result = enter(image);
  if (result != KEFS_OK) return result;
  result = file == NULL ? fail(image, KEFS_BAD_ARGUMENT, "no place for the file's number") : take_names(image);
  if (result == KEFS_OK) result = look_up(image, name, &found);
  if (result == KEFS_OK) *file = found;
  return leave(image, result);
}

/* What is given out has to stay as it is when another thread renames the file. */
static const char *keep_name(const char *name) {
  static _Thread_local char kept[NAME];
  return strcpy(kept, name);
}

int kefs_name_at(kefs_image *image, unsigned file, const char **name) {
  int result = enter(image);
  if (result != KEFS_OK) return result;
  result = name == NULL ? fail(image, KEFS_BAD_ARGUMENT, "no place for the name") : take_names(image);
  if (result != KEFS_OK) return leave(image, result);
  const char *found = name_of(image, file);
  if (found == NULL) return leave(image, fail(image, KEFS_NO_FILE, "file %u has no name", file));
  *name = keep_name(found);
  return leave(image, KEFS_OK);
}

/* Changing */

/* The least number that a new file may have, or KEFS_FILES: no file has it or had it at the last commit, and none is mapped there still. */
static unsigned free_number(const struct kefs_image *image) {
  for (unsigned w = 0; w < KEFS_FILES / 64 && 64 * w < image->entries; w++) {
    uint64_t taken = image->present.words[w] | image->changed.words[w] | image->mapped.words[w] | (w == 0); /* file 0 is that of the names */
    unsigned f = 64 * w + (taken == UINT64_MAX ? 64 : (unsigned)__builtin_ctzll(~taken));
    if (taken != UINT64_MAX) return f < image->entries ? f : KEFS_FILES;
  }
  return KEFS_FILES;
}

static int create(struct kefs_image *image, const char *name, size_t length, unsigned *file) {
  int result = check_name(image, name);
  if (result != KEFS_OK) return result;
  unsigned there = find_name(image->names, name), f = free_number(image);
  if (there < KEFS_FILES) return fail(image, EEXIST, "file %u is named %s", there, name);
  if (f == KEFS_FILES) return fail(image, ENFILE, "no number is free");
  result = check_new(image, f, length);
  if (result == KEFS_OK) result = make_new(image, f, length);
  if (result != KEFS_OK) return result;
  put_name(image, f, name);
  return *file = f, KEFS_OK;
}

/* The image's lock, for a call that changes names. */
static int enter_to_change(struct kefs_image *image, const char *call) {
  int result = enter(image);
  if (result != KEFS_OK) return result;
  result = image->read_only ? fail(image, KEFS_READ_ONLY, "%s", call) : take_names(image);
  return result == KEFS_OK ? KEFS_OK : leave(image, result);
}

int kefs_create_file(kefs_image *image, const char *name, size_t length, unsigned *file) {
  int result = enter_to_change(image, "kefs_create_file");
  if (result != KEFS_OK) return result;
  return leave(image, file == NULL ? fail(image, KEFS_BAD_ARGUMENT, "no place for the file's number") : create(image, name, length, file));
}

static int rename_file(struct kefs_image *image, const char *old_name, const char *new_name) {
  unsigned file;
  int result = look_up(image, old_name, &file);
  if (result == KEFS_OK) result = check_name(image, new_name);
  if (result != KEFS_OK) return result;
  unsigned there = find_name(image->names, new_name);
  if (there == file) return KEFS_OK;
  if (there < KEFS_FILES) result = check_going(image, there);
  if (result != KEFS_OK) return result;
  if (there < KEFS_FILES) let_file_go(image, there);
  put_name(image, file, new_name);
  return KEFS_OK;
}

int kefs_rename(kefs_image *image, const char *old_name, const char *new_name) {
  int result = enter_to_change(image, "kefs_rename");
  return result == KEFS_OK ? leave(image, rename_file(image, old_name, new_name)) : result;
}

static int unlink_file(struct kefs_image *image, const char *name) {
  unsigned file;
  int result = look_up(image, name, &file);
  if (result == KEFS_OK) result = check_going(image, file);
  if (result == KEFS_OK) let_file_go(image, file);
  return result;
}

int kefs_unlink(kefs_image *image, const char *name) {
  int result = enter_to_change(image, "kefs_unlink");
  return result == KEFS_OK ? leave(image, unlink_file(image, name)) : result;
}
