/* Puzzles on bits: counts, parities, bytes in reverse, and the next number with as many ones. */
#include <stdint.h>

static int ones(uint32_t x) {
  x = x - (x >> 1 & 0x55555555u);
  x = (x & 0x33333333u) + (x >> 2 & 0x33333333u);
  x = (x + (x >> 4)) & 0x0F0F0F0Fu;
  return (int) (x * 0x01010101u >> 24);
}

static uint32_t reversed(uint32_t x) {
  x = (x & 0x55555555u) << 1 | (x >> 1 & 0x55555555u);
  x = (x & 0x33333333u) << 2 | (x >> 2 & 0x33333333u);
  x = (x & 0x0F0F0F0Fu) << 4 | (x >> 4 & 0x0F0F0F0Fu);
  x = (x & 0x00FF00FFu) << 8 | (x >> 8 & 0x00FF00FFu);
  return x << 16 | x >> 16;
}

int puzzle(uint32_t x, uint32_t y) {
  int count = ones(x);
  if (count == 0) {
    return 0;
  }
  if (count > 32) {
    return -1;
  }
  uint32_t lowest = x & (0u - x);
  uint32_t ripple = x + lowest;
  if (ripple != 0) {
    uint32_t next = ripple | ((x ^ ripple) >> 2) / lowest;
    if (y == next) {
      return count == 7 ? 2 : 1;
    }
    if (ones(next) != count) {
      return -2;
    }
  }
  if (reversed(x) == y) {
    if (x == y) {
      return count == 20 ? 4 : 3;
    }
    return count == 11 ? 6 : 5;
  }
  return 7;
}
