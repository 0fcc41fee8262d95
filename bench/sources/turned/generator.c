/* Three steps of a generator of random numbers (Marsaglia's xorshift, 2003): which seed gives a chosen number. */
#include <stdint.h>

int drawn(uint32_t seed) {
  uint32_t x = seed;
  for (int i = 0; i < 3; i++) {
    x ^= x << 13;
    x ^= x >> 17;
    x ^= x << 5;
  }
  if (x == 0xCAFEBABEu) {
    return 1;
  }
  if (seed != 0 && x == 0) {
    return 2;
  }
  return x % 6 == 5 ? 3 : 0;
}
