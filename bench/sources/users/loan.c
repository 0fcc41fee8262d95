/* A loan in cents with a rate in hundredths of a percent, paid back in yearly parts: when it is settled. */
#include <stdint.h>

int settle(uint32_t cents, uint16_t rate, uint32_t part) {
  if (cents == 0 || cents > 100000000u) {
    return -1;
  }
  if (rate > 2000) {
    return -2;
  }
  uint64_t left = cents;
  uint64_t paid = 0;
  for (int year = 1; year <= 4; year++) {
    uint64_t interest = left * rate / 10000;
    left += interest;
    if (part >= left) {
      paid += left;
      if (year == 1) {
        return 1;
      }
      if (paid > 2u * cents) {
        return -3;
      }
      if (left == part) {
        return year == 4 ? 5 : 4;
      }
      return 2;
    }
    if (part <= interest) {
      return -4;
    }
    left -= part;
    paid += part;
  }
  if (left * 2 > cents) {
    return rate > 1500 ? 7 : 6;
  }
  return 3;
}
