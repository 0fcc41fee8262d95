/* The greatest common divisor of two bytes, and whether they have none but 1. */
#include <stdint.h>

static uint8_t gcd(uint8_t a, uint8_t b) {
  while (b != 0) {
    uint8_t rest = (uint8_t) (a % b);
    a = b;
    b = rest;
  }
  return a;
}

int relation(uint8_t a, uint8_t b) {
  if (a == 0 || b == 0) {
    return 0;
  }
  uint8_t common = gcd(a, b);
  if (common == 1) {
    return 1;
  }
  if (common == a || common == b) {
    return 2;
  }
  return 3;
}
