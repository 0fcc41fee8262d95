/* Two steps of a linear congruential generator (Numerical Recipes), from a seed to a draw of the high bits. */
#include <stdint.h>

int lottery(uint32_t seed) {
  uint32_t first = seed * 1664525u + 1013904223u;
  uint32_t second = first * 1664525u + 1013904223u;
  if (second == 0x7FFFFFFFu) {
    return 1;
  }
  if (first >> 16 == 0xABCD) {
    if (second >> 16 == 0x1234) {
      return 3;
    }
    return 2;
  }
  return 0;
}
