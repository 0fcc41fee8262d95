/* A lock that opens to one code: two rounds of the cipher TEA (Wheeler and Needham, Fast Software Encryption, 1994) take the
   code to a block that must be the stored one. */
#include <stdint.h>

#define DELTA 0x9E3779B9u
#define ROUNDS 2

int unlock(uint32_t first, uint32_t second) {
  uint32_t sum = 0;
  for (int round = 0; round < ROUNDS; round++) {
    sum += DELTA;
    first += ((second << 4) + 0x0F1E2D3Cu) ^ (second + sum) ^ ((second >> 5) + 0x4B5A6978u);
    second += ((first << 4) + 0x8796A5B4u) ^ (first + sum) ^ ((first >> 5) + 0xC3D2E1F0u);
  }
  if (first != 0x00C0FFEEu) {
    return 0;
  }
  if (second != 0x0BADCAFEu) {
    return 1;
  }
  return 2;
}
