/* A file that is written anew in each transaction, and synced: what programs do that have no store. Its records lie behind a head, and behind them zeros, more or
   fewer each time: so it gets longer and shorter. rewritten: in its place, and each other time by a mapping. renamed: by another name, which it then gets. */
#include "workload.h"
#include <errno.h>
#include <fcntl.h>
#include <stddef.h>
#include <stdint.h>
#include <stdio.h>
#include <stdlib.h>
#include <string.h>
#include <sys/mman.h>
#include <sys/stat.h>
#include <unistd.h>

enum { RECORDS = KEYS + 1, KEY_MOST = 31, ZEROS_MOST = 40000 };
struct record { uint32_t key_length, length; char key[KEY_MOST + 1]; unsigned char value[VALUE_MOST]; };
struct head { uint64_t times, records, zeros; }; /* how often it was written, and what it has now */
static struct record *records;
static struct head head;
static int fd;
static char file[4096], other[4096 + 8]; /* their names */

static void must(int is, const char *what) {
  if (!is) refused(what, errno == 0 ? "bytes that were never written" : strerror(errno));
}

/* A record without what its value has less than it may. */
static size_t bytes_of(const struct record *record) { return offsetof(struct record, value) + record->length; }

static void read_records(const unsigned char *bytes, size_t length) {
  size_t at = sizeof head;
  memcpy(&head, bytes, sizeof head);
  must(head.records <= RECORDS, "records");
  for (size_t i = 0; i < head.records; at += bytes_of(&records[i++])) {
    must(length - at >= offsetof(struct record, value), "a record's head");
    memcpy(&records[i], bytes + at, offsetof(struct record, value));
    must(records[i].length <= VALUE_MOST && length - at >= bytes_of(&records[i]), "a record");
    memcpy(&records[i], bytes + at, bytes_of(&records[i]));
  }
  must(length - at == head.zeros, "its end");
  for (; at < length; at++) must(bytes[at] == 0, "its zeros");
}

static void open_store(const char *mode, const char *path, enum opening how) {
  struct stat st;
  (void)mode;
  records = calloc(RECORDS, sizeof *records);
  snprintf(file, sizeof file, "%s", path), snprintf(other, sizeof other, "%s.new", path);
  fd = open(path, how == TO_WRITE ? O_RDWR | O_CREAT : O_RDONLY, 0644);
  must(records != NULL && fd >= 0 && fstat(fd, &st) == 0, "open");
  errno = 0;
  unsigned char *bytes = malloc((size_t)st.st_size + 1);
  must(bytes != NULL && read(fd, bytes, (size_t)st.st_size) == st.st_size, "read");
  must(st.st_size == 0 || st.st_size >= (off_t)sizeof head, "its head");
  if (st.st_size > 0) read_records(bytes, (size_t)st.st_size);
  free(bytes);
}

static void begin(void) {}

static struct record *found(const char *key, size_t key_length) {
  for (size_t i = 0; i < head.records; i++)
    if (records[i].key_length == key_length && memcmp(records[i].key, key, key_length) == 0) return &records[i];
  return NULL;
}

static void put(const char *key, size_t key_length, const void *value, size_t length) {
  struct record *record = found(key, key_length);
  if (record == NULL) record = &records[head.records++];
  record->key_length = (uint32_t)key_length, record->length = (uint32_t)length;
  memcpy(record->key, key, key_length);
  memcpy(record->value, value, length);
}

static void drop(const char *key, size_t key_length) {
  struct record *record = found(key, key_length);
  if (record != NULL) *record = records[--head.records];
}

/* All bytes of the file, and how many they are. */
static unsigned char *content(size_t *length) {
  size_t at = sizeof head;
  unsigned char *bytes = calloc(1, sizeof head + head.records * sizeof *records + ZEROS_MOST);
  must(bytes != NULL, "memory");
  head.times++, head.zeros = head.times * 7919 % ZEROS_MOST;
  memcpy(bytes, &head, sizeof head);
  for (size_t i = 0; i < head.records; at += bytes_of(&records[i++])) memcpy(bytes + at, &records[i], bytes_of(&records[i]));
  *length = at + head.zeros;
  return bytes;
}

static void write_by_mapping(const unsigned char *bytes, size_t length) {
  must(ftruncate(fd, (off_t)length) == 0, "ftruncate");
  void *at = mmap(NULL, length, PROT_READ | PROT_WRITE, MAP_SHARED, fd, 0);
  must(at != MAP_FAILED, "mmap");
  memcpy(at, bytes, length);
  must(msync(at, length, MS_SYNC) == 0 && munmap(at, length) == 0, "msync");
}

static void commit(void) {
  size_t length;
  unsigned char *bytes = content(&length);
  if (head.times % 2 == 0) write_by_mapping(bytes, length);
  else must(ftruncate(fd, 0) == 0 && pwrite(fd, bytes, length, 0) == (ssize_t)length && fsync(fd) == 0, "write");
  free(bytes);
}

/* The descriptor of the file that had the name is open until the other one has it, each other time. */
static void commit_by_name(void) {
  size_t length;
  unsigned char *bytes = content(&length);
  if (head.times % 2 == 0) must(close(fd) == 0, "close");
  int next = open(other, O_RDWR | O_CREAT | O_TRUNC, 0644);
  must(next >= 0 && write(next, bytes, length) == (ssize_t)length && fsync(next) == 0 && rename(other, file) == 0, "rename");
  if (head.times % 2 != 0) must(close(fd) == 0, "close");
  fd = next;
  free(bytes);
}

static long get(const char *key, size_t key_length, void *to) {
  const struct record *record = found(key, key_length);
  if (record == NULL) return -1;
  memcpy(to, record->value, record->length);
  return record->length;
}

static long count(void) { return (long)head.records; }
static void close_store(void) { must(close(fd) == 0, "close"); }

const struct store rewritten = {"rewritten", open_store, begin, put, drop, commit, get, count, close_store};
const struct store renamed = {"renamed", open_store, begin, put, drop, commit_by_name, get, count, close_store};
