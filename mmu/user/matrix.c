/* Multiplies two square matrices, of 18 pages each, by rows and columns, and the product by a vector both ways. */
#include "user.h"

enum { SIZE = 96 };
typedef u64 matrix[SIZE][SIZE];

static void multiply(matrix *a, matrix *b, matrix *to) {
  for (u64 i = 0; i < SIZE; i++)
    for (u64 j = 0; j < SIZE; j++) {
      u64 sum = 0;
      for (u64 k = 0; k < SIZE; k++) sum += (*a)[i][k] * (*b)[k][j];
      (*to)[i][j] = sum;
    }
}

static void apply(matrix *a, const u64 *vector, u64 *to) {
  for (u64 i = 0; i < SIZE; i++) {
    to[i] = 0;
    for (u64 k = 0; k < SIZE; k++) to[i] += (*a)[i][k] * vector[k];
  }
}

int main(void) {
  u64 count = (sizeof(matrix) + PAGE - 1) / PAGE;
  matrix *a = pages(count), *b = pages(count), *product = pages(count);
  u64 vector[SIZE], once[SIZE], step[SIZE], twice[SIZE], wrong = 0;
  for (u64 i = 0; i < SIZE; i++)
    for (u64 j = 0; j < SIZE; j++) (*a)[i][j] = 3 * i + j * j, (*b)[i][j] = i * j + 7;
  for (u64 i = 0; i < SIZE; i++) vector[i] = i + 1;
  multiply(a, b, product);
  apply(product, vector, once);
  apply(b, vector, step);
  apply(a, step, twice);
  for (u64 i = 0; i < SIZE; i++) wrong += once[i] != twice[i];
  say("(A B) v and A (B v) differ in ");
  say_number(wrong);
  say(" of 96 places; the last is ");
  say_number(once[SIZE - 1]);
  say("\n");
  return wrong != 0;
}
