/* A cyclic redundancy check of three bytes (CRC-8, polynomial 0x07), and a frame that carries one. */
#include <stdint.h>

int next_byte(void);

static uint8_t crc(uint8_t sum, uint8_t byte) {
  sum = sum ^ byte;
  for (int bit = 0; bit < 8; bit++) {
    if (sum & 0x80) {
      sum = (uint8_t) ((sum << 1) ^ 0x07);
    } else {
      sum = (uint8_t) (sum << 1);
    }
  }
  return sum;
}

int accept(uint8_t length) {
  uint8_t sum = 0;
  if (length > 3) {
    return -1;
  }
  for (int i = 0; i < length; i++) {
    sum = crc(sum, (uint8_t) next_byte());
  }
  if ((uint8_t) next_byte() != sum) {
    return 0;
  }
  return 1;
}
