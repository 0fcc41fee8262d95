/* Three rounds of the cipher Speck32/64 (Beaulieu and others, 2013), with a fixed key, to a stored block. */
#include <stdint.h>

static const uint16_t keys[3] = {0x0100, 0x0908, 0x1110};

int unlock(uint16_t left, uint16_t right) {
  for (int round = 0; round < 3; round++) {
    left = (uint16_t) (left >> 7 | left << 9);
    left = (uint16_t) (left + right);
    left = (uint16_t) (left ^ keys[round]);
    right = (uint16_t) (right << 2 | right >> 14);
    right = (uint16_t) (right ^ left);
  }
  if (left != 0xA868) {
    return 0;
  }
  if (right != 0x42F2) {
    return 1;
  }
  return 2;
}
