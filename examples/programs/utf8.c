/* The scalar value of one character in UTF-8 (Unicode 15, table 3-7), or -1. */
#include <stdint.h>

uint8_t next_byte(void);

static int rest(int value, uint8_t least, uint8_t most) {
  uint8_t byte = next_byte();
  if (byte < least || byte > most) {
    return -1;
  }
  return value << 6 | (byte & 0x3f);
}

int character(void) {
  uint8_t first = next_byte();
  if (first < 0x80) {
    return first;
  }
  if (first < 0xc2 || first > 0xf4) {
    return -1;
  }
  if (first < 0xe0) {
    return rest(first & 0x1f, 0x80, 0xbf);
  }
  int value;
  if (first < 0xf0) {
    value = rest(first & 0x0f, first == 0xe0 ? 0xa0 : 0x80, first == 0xed ? 0x9f : 0xbf);
    return value < 0 ? -1 : rest(value, 0x80, 0xbf);
  }
  value = rest(first & 0x07, first == 0xf0 ? 0x90 : 0x80, first == 0xf4 ? 0x8f : 0xbf);
  if (value < 0) {
    return -1;
  }
  value = rest(value, 0x80, 0xbf);
  return value < 0 ? -1 : rest(value, 0x80, 0xbf);
}
