/* A record of a length, up to six bytes and their Adler-32 (RFC 1950), which a loader accepts or not. */
#include <stdint.h>

uint8_t next_byte(void);

static uint32_t next_word(void) {
  uint32_t word = 0;
  for (int i = 0; i < 4; i++) {
    word = word << 8 | next_byte();
  }
  return word;
}

int load(void) {
  uint32_t low = 1;
  uint32_t high = 0;
  uint8_t length = next_byte();
  if (length == 0 || length > 6) {
    return -1;
  }
  uint8_t kind = 0;
  for (int i = 0; i < length; i++) {
    uint8_t byte = next_byte();
    if (i == 0) {
      kind = byte;
    }
    low = (low + byte) % 65521u;
    high = (high + low) % 65521u;
  }
  uint32_t expected = next_word();
  if (expected >> 16 != high) {
    return -2;
  }
  if ((expected & 0xFFFF) != low) {
    return -3;
  }
  if (kind == 0x7F) {
    if (length < 4) {
      return -4;
    }
    return 1;
  }
  return kind > 0x7F ? 2 : 0;
}
