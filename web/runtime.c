/* What LLVM calls by name for WebAssembly, where no compiler's library is: products and shifts of 128 bits. Each returns two words through a pointer. */
typedef unsigned long long u64;
typedef struct { u64 low, high; } pair;

/* LLVM knows a product of 128 bits by its four parts, and would call __multi3 for them in __multi3 too, without end: this keeps it from knowing. */
#define HIDE(it) __asm__("" : "+r"(it))

/* The upper word of a product of two words. */
static u64 upper(u64 a, u64 b) {
  u64 a_low = a & 0xffffffff, a_high = a >> 32, b_low = b & 0xffffffff, b_high = b >> 32;
  u64 low = a_low * b_low, left = a_low * b_high, right = a_high * b_low;
  HIDE(low);
  HIDE(left);
  HIDE(right);
  u64 middle = (low >> 32) + (left & 0xffffffff) + (right & 0xffffffff);
  return a_high * b_high + (left >> 32) + (right >> 32) + (middle >> 32);
}

void __multi3(pair *to, u64 a, u64 a_high, u64 b, u64 b_high) {
  to->high = upper(a, b) + a * b_high + a_high * b;
  to->low = a * b;
}

void __lshrti3(pair *to, u64 low, u64 high, int n) {
  n &= 127;
  to->low = n == 0 ? low : n < 64 ? low >> n | high << (64 - n) : high >> (n - 64);
  to->high = n < 64 ? high >> n : 0;
}

void __ashlti3(pair *to, u64 low, u64 high, int n) {
  n &= 127;
  to->high = n == 0 ? high : n < 64 ? high << n | low >> (64 - n) : low << (n - 64);
  to->low = n < 64 ? low << n : 0;
}
