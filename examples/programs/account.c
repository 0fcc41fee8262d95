/* Bookings on an account that may not be overdrawn; a booking that doesn't fit is left out. */
#include <assert.h>
#include <stdint.h>

#define MOST 2147483647

int32_t next_booking(void);

static int32_t balance;

static int book(int32_t amount) {
  if (amount > 0 && balance > MOST - amount) {
    return 0;
  }
  if (amount < -balance) {
    return 0;
  }
  balance += amount;
  return 1;
}

int account(int bookings) {
  int refused = 0;
  for (int i = 0; i < bookings; i++) {
    if (!book(next_booking())) {
      refused++;
    }
    assert(balance >= 0);
  }
  return refused;
}
