/* Four bytes and Fletcher's checksum of 16 bits of them (RFC 1146); then a command in them. */
#include <stdint.h>

int command(uint8_t a, uint8_t b, uint8_t c, uint8_t d, uint16_t sum) {
  uint8_t bytes[4] = {a, b, c, d};
  uint16_t low = 0;
  uint16_t high = 0;
  for (int i = 0; i < 4; i++) {
    low = (uint16_t) ((low + bytes[i]) % 255);
    high = (uint16_t) ((high + low) % 255);
  }
  if ((high << 8 | low) != sum) {
    return -1;
  }
  if (a == 0x55) {
    if (b == 0xAA) {
      if (c + d == 300) {
        return 3;
      }
      return 2;
    }
    if (sum == 0x1234) {
      return 4;
    }
    return 1;
  }
  if (sum == 0xFFFF) {
    return 5;
  }
  return 0;
}
