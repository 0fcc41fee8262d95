/* A byte in Manchester code (IEEE 802.3), sampled four times a bit, with a parity bit and one disturbed sample allowed a bit. */
#include <stdint.h>

static int half(uint32_t samples, int place) {
  int first = (int) (samples >> (2 * place) & 1);
  int second = (int) (samples >> (2 * place + 1) & 1);
  return first == second ? first : 2;
}

int decode(uint32_t low, uint32_t high) {
  int disturbed = 0;
  int parity = 0;
  int byte = 0;
  for (int bit = 0; bit < 8; bit++) {
    uint32_t samples = bit < 4 ? low >> (8 * bit) : high >> (8 * (bit - 4));
    int first = half(samples, 0);
    int second = half(samples, 2);
    if (first == 2 && second == 2) {
      return -1;
    }
    if (first == 2) {
      disturbed++;
      first = !second;
    } else if (second == 2) {
      disturbed++;
      second = !first;
    }
    if (first == second) {
      return -2;
    }
    byte = byte | second << bit;
    parity = parity ^ second;
  }
  if (disturbed > 2) {
    return -3;
  }
  if (parity) {
    return byte == 0x40 ? 3 : -4;
  }
  if (byte == 0xA5 && disturbed == 2) {
    return 2;
  }
  return byte > 0xF0 ? 1 : 0;
}
