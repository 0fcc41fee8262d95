/* Whether two sides and a diagonal of a screen fit, by an integer square root, bit by bit. */
#include <stdint.h>

static uint32_t root(uint32_t number) {
  uint32_t result = 0;
  uint32_t bit = 1u << 14;
  for (int i = 0; i < 8; i++) {
    if (number >= result + bit) {
      number -= result + bit;
      result = (result >> 1) + bit;
    } else {
      result = result >> 1;
    }
    bit = bit >> 2;
  }
  return result;
}

int screen(uint8_t wide, uint8_t high, uint8_t diagonal) {
  if (wide == 0 || high == 0) {
    return -1;
  }
  if (wide > 180 || high > 180) {
    return -2;
  }
  uint32_t square = (uint32_t) wide * wide + (uint32_t) high * high;
  uint32_t length = root(square);
  if (length * length == square) {
    if (diagonal == length) {
      return wide == 2 * high ? -3 : 4;
    }
    return 3;
  }
  if (diagonal == length) {
    if (wide * 9 == high * 16) {
      return 2;
    }
    return 1;
  }
  return diagonal > length + 100 ? -4 : 0;
}
