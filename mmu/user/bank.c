/* A bank in a file: 1,000 accounts on pages 0 to 7, and on page 8 how many transfers were made. A transfer changes two accounts, and an msync makes ten of them durable
   at once. However it is stopped, the sum of the accounts is what it was, and no transfer that was told is lost. */
#include "user.h"

enum { ACCOUNTS = 1000, ROUNDS = 50, TRANSFERS = 10, FILE_PAGES = 16, FIRST_SUM = 1000000 };

struct bank { long accounts[8 * PAGE / 8]; u64 transfers, is_open; };

static long sum_of(const struct bank *bank) {
  long sum = 0;
  for (u64 i = 0; i < ACCOUNTS; i++) sum += bank->accounts[i * 4];
  return sum;
}

static void transfer(struct bank *bank) {
  u64 n = bank->transfers++, from = n * 7919 % ACCOUNTS, to = n * 104729 % ACCOUNTS;
  bank->accounts[from * 4] -= n % 100;
  bank->accounts[to * 4] += n % 100;
}

int main(int file) {
  struct bank *bank = mmap(0, FILE_PAGES * PAGE, READ | WRITE, SHARED, file, 0, HINT);
  if (!bank->is_open) bank->accounts[0] = FIRST_SUM;
  bank->is_open = 1;
  say("found transfers ");
  say_number(bank->transfers);
  say(", sum ");
  say_number(sum_of(bank));
  say("\n");
  for (u64 round = 0; round < ROUNDS; round++) {
    for (u64 i = 0; i < TRANSFERS; i++) transfer(bank);
    long error = msync(bank, FILE_PAGES * PAGE);
    if (error) {
      say("msync: error ");
      say_number(-error);
      say("\n");
      return 1;
    }
    say("durable ");
    say_number(bank->transfers);
    say("\n");
  }
  return sum_of(bank) != FIRST_SUM;
}
