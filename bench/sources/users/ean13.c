/* A bar code of thirteen digits (EAN-13): its check digit, and what is sold. */
#include <stdint.h>

int sold(uint64_t code) {
  uint64_t left = code;
  int sum = 0;
  if (code > 9999999999999u) {
    return -1;
  }
  for (int place = 0; place < 13; place++) {
    int digit = (int) (left % 10);
    if (place % 2 == 1) {
      digit *= 3;
    }
    sum += digit;
    left = left / 10;
  }
  if (sum % 10 != 0) {
    return -2;
  }
  uint64_t prefix = code / 10000000000u;
  if (prefix == 978 || prefix == 979) {
    return 1;
  }
  if (prefix >= 20 && prefix <= 29) {
    uint64_t grams = code / 10 % 100000;
    if (grams > 50000) {
      return 3;
    }
    return 2;
  }
  return 0;
}
