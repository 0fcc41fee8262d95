/* Transfers between two accounts with an overdraft, a limit a day and a fee. */
#include <stdint.h>

int32_t next_amount(void);

static int64_t giro;
static int64_t savings;
static int64_t today;

static int transfer(int32_t amount) {
  if (amount == 0) {
    return 1;
  }
  if (amount > 0) {
    int64_t fee = amount > 100000 ? amount / 1000 : 50;
    if (today + amount > 1000000) {
      return 2;
    }
    if (giro - amount - fee < -50000) {
      return 3;
    }
    giro -= amount + fee;
    savings += amount;
    today += amount;
    return 0;
  }
  if (savings < -(int64_t) amount) {
    return 4;
  }
  savings += amount;
  giro -= amount;
  return 0;
}

int day(int32_t first) {
  int refused = 0;
  if (first < 0 || first > 2000000) {
    return -1;
  }
  giro = first;
  savings = 0;
  today = 0;
  for (int i = 0; i < 4; i++) {
    int answer = transfer(next_amount());
    if (answer != 0) {
      refused++;
    }
  }
  if (giro + savings > first) {
    return -2;
  }
  if (refused == 0 && today == 1000000) {
    return 4;
  }
  if (giro < 0 && savings == 77777) {
    return 3;
  }
  if (refused == 4) {
    return 2;
  }
  return giro == -50000 ? 1 : 0;
}
