/* Text on the console. */
#include "kernel.h"

void put(const char *text) {
  while (*text) put_char(*text++);
}

static void put_digits(u64 n, u64 base) {
  if (n >= base) put_digits(n / base, base);
  put_char("0123456789abcdef"[n % base]);
}

void put_number(u64 n) { put_digits(n, 10); }

void put_hex(u64 n) {
  put("0x");
  put_digits(n, 16);
}

void panic(const char *why, u64 a, u64 b) {
  put("kernel: ");
  put(why);
  put(": ");
  put_hex(a);
  put(", ");
  put_hex(b);
  put("\n");
  power_off(2);
}
