/* Results in words. */
#define _GNU_SOURCE
#include "internal.h"
#include <errno.h>
#include <stdarg.h>
#include <stdio.h>
#include <string.h>

static const struct { int result; const char *name, *text; } RESULTS[] = {
  {KEFS_OK, "KEFS_OK", "it was done"},
  {KEFS_NOT_IMAGE, "KEFS_NOT_IMAGE", "the file has no layout of a store"},
  {KEFS_BAD_JOURNAL, "KEFS_BAD_JOURNAL", "the image's journal has a map that no commit writes"},
  {KEFS_BUSY, "KEFS_BUSY", "another process or handle has the image open"},
  {KEFS_NO_FILE, "KEFS_NO_FILE", "the image has no such file, or it is not mapped"},
  {KEFS_TOO_MANY, "KEFS_TOO_MANY", "more pages are dirty than one commit takes"},
  {KEFS_READ_ONLY, "KEFS_READ_ONLY", "the image or the file may only be read"},
  {KEFS_BAD_RANGE, "KEFS_BAD_RANGE", "the bytes do not lie in one mapped file"},
  {KEFS_DEVICE, "KEFS_DEVICE", "a read, write or sync of the image failed"},
  {KEFS_HALTED, "KEFS_HALTED", "the image has to be recovered or closed, since its device failed"},
  {KEFS_NO_TRACKER, "KEFS_NO_TRACKER", "the system has not the tracker that was asked for"},
  {KEFS_FORKED, "KEFS_FORKED", "the image was opened by a parent process"},
  {KEFS_BAD_ARGUMENT, "KEFS_BAD_ARGUMENT", "an argument is NULL that may not be"},
  {KEFS_OTHER_FILES, "KEFS_OTHER_FILES", "the image has other files than those that were asked for"},
};
enum { COUNT = sizeof RESULTS / sizeof *RESULTS };

int kefs_version(void) { return KEFS_VERSION_NUMBER; }

const char *kefs_strerror(int result) {
  if (result > 0) {
    const char *text = strerrordesc_np(result);
    return text != NULL ? text : "unknown errno value";
  }
  for (size_t i = 0; i < COUNT; i++)
    if (RESULTS[i].result == result) return RESULTS[i].text;
  return "unknown result";
}

const char *kefs_name(int result) {
  for (size_t i = 0; i < COUNT; i++)
    if (RESULTS[i].result == result) return RESULTS[i].name;
  return result > 0 ? "errno" : "unknown";
}

/* What each thread has to say of the images that calls of its own failed on last, and, in the first of them, of its openings. An image that was
   closed leaves its message until another one needs the place; no other image has its serial. */
enum { IMAGES = 8 };
struct message { uint64_t serial, used; char text[MESSAGE]; };
static _Thread_local struct message messages[IMAGES + 1];
static _Thread_local uint64_t uses;

uint64_t new_serial(void) {
  static uint64_t last;
  return __atomic_add_fetch(&last, 1, __ATOMIC_SEQ_CST);
}

static struct message *find_message(const struct kefs_image *image) {
  if (image == NULL) return &messages[0];
  for (int i = 1; i <= IMAGES; i++)
    if (messages[i].serial == image->serial) return &messages[i];
  return NULL;
}

/* The image's message, or the one of the place that was not used for longest. */
static struct message *take_message(const struct kefs_image *image) {
  struct message *found = find_message(image), *oldest = &messages[1];
  for (int i = 2; i <= IMAGES; i++)
    if (messages[i].used < oldest->used) oldest = &messages[i];
  if (found == NULL) found = oldest, found->serial = image->serial;
  found->used = ++uses;
  return found;
}

const char *kefs_errmsg(const kefs_image *image) {
  const struct message *found = find_message(image);
  return found == NULL ? "" : found->text;
}

void keep_message(const struct kefs_image *image) { memcpy(messages[0].text, kefs_errmsg(image), strlen(kefs_errmsg(image)) + 1); }

/* A message that ends in the words of an errno value gets no more. */
static int ends_in(const char *message, size_t length, const char *words) {
  size_t more = strlen(words);
  return length >= more && strcmp(message + length - more, words) == 0;
}

int fail(const struct kefs_image *image, int result, const char *format, ...) {
  char *message = take_message(image)->text;
  const char *words = kefs_strerror(result);
  va_list more;
  va_start(more, format);
  int used = vsnprintf(message, MESSAGE, format, more);
  va_end(more);
  if (used >= 0 && used < MESSAGE && result != KEFS_DEVICE && !ends_in(message, (size_t)used, words))
    snprintf(message + used, (size_t)(MESSAGE - used), ": %s", words);
  return result;
}

int device_result(int number) { return number == ENOSPC || number == EDQUOT ? number : KEFS_DEVICE; }
