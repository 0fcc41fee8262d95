/* Numbers of sixteen bits by IEEE 754 (binary16): what two of them are, and which is less. */
#include <stdint.h>

static int kind_of(uint16_t bits) {
  int exponent = bits >> 10 & 31;
  int fraction = bits & 1023;
  if (exponent == 31) {
    return fraction ? 4 : 3;
  }
  if (exponent == 0) {
    return fraction ? 1 : 0;
  }
  return 2;
}

static int ordered(uint16_t bits) {
  return bits & 0x8000 ? -(bits & 0x7FFF) : bits & 0x7FFF;
}

int compare(uint16_t a, uint16_t b) {
  int first = kind_of(a);
  int second = kind_of(b);
  if (first == 4 || second == 4) {
    return first == second && a != b ? -2 : -1;
  }
  if (ordered(a) == ordered(b)) {
    if (a != b) {
      return first == 0 ? 3 : -3;
    }
    return 0;
  }
  if (ordered(a) < ordered(b)) {
    if (first == 3 && second == 3) {
      return 4;
    }
    if (ordered(b) - ordered(a) == 1) {
      return first != second ? 6 : 5;
    }
    return 1;
  }
  return 2;
}
