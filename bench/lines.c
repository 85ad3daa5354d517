/* What a plain program takes for the loads and stores of a trace: it reads the same lines, keeps one flat array and prints the same
   replies, and looks at nothing else. The first process and its mapping at BASE are taken for granted. Its instructions are the measure of those of
   pagerun.
   cc -O2 lines.c -o lines && ./lines <trace */
#include <stdint.h>
#include <string.h>
#include <unistd.h>

enum { BASE = 0x10000, FULL = 32768 };

static unsigned char memory[64 * 4096];
static char input[FULL + 300], output[2 * FULL];

/* The number at `at`, decimal or hexadecimal, and where the next word begins. */
static const char *number(const char *at, uint64_t *value) {
  uint64_t n = 0;
  if (at[0] == '0' && at[1] == 'x') {
    for (at += 2;; at++) {
      unsigned digit = (unsigned)*at - '0', letter = ((unsigned)*at | 32) - 'a';
      if (digit < 10) n = n * 16 + digit;
      else if (letter < 6) n = n * 16 + letter + 10;
      else break;
    }
  } else {
    for (; (unsigned)*at - '0' < 10; at++) n = n * 10 + ((unsigned)*at - '0');
  }
  *value = n;
  return at + (*at == ' ');
}

static size_t said(const char *text, char *out) {
  size_t length = strlen(text);
  memcpy(out, text, length);
  return length;
}

static size_t answer(const char *line, char *out) {
  uint64_t pid, address, width, value = 0;
  if (!memcmp(line, "load ", 5)) {
    number(number(number(line + 5, &pid), &address), &width);
    memcpy(&value, memory + (address - BASE) % sizeof memory, width);
    memcpy(out, "value 0x", 8);
    for (size_t k = 2 * width; k-- > 0; value >>= 4) out[8 + k] = "0123456789abcdef"[value & 15];
    out[8 + 2 * width] = '\n';
    return 9 + 2 * width;
  }
  if (!memcmp(line, "store ", 6)) {
    number(number(number(number(line + 6, &pid), &address), &width), &value);
    memcpy(memory + (address - BASE) % sizeof memory, &value, width);
    return said("ok\n", out);
  }
  return said(line[0] == 's' ? "pid 1\n" : "addr 0x10000\n", out);
}

int main(void) {
  size_t held = 0, written = 0;
  ssize_t count;
  while ((count = read(0, input + held, FULL)) > 0) {
    size_t end = held + (size_t)count, at = 0;
    char *newline;
    while ((newline = memchr(input + at, '\n', end - at)) != NULL) {
      *newline = 0;
      written += answer(input + at, output + written);
      at = (size_t)(newline - input) + 1;
      if (written >= FULL) {
        if (write(1, output, written) < 0) return 1;
        written = 0;
      }
    }
    held = end - at;
    memmove(input, input + at, held);
  }
  return write(1, output, written) < 0;
}
