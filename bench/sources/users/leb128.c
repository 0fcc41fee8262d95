/* A number in signed LEB128 (DWARF 5, 7.6) of at most five bytes, that must be in its shortest form. */
#include <stdint.h>

uint8_t next_byte(void);

int decode(int32_t limit) {
  int64_t value = 0;
  int shift = 0;
  uint8_t byte = 0x80;
  uint8_t before = 0;
  int length = 0;
  while (byte & 0x80) {
    if (length == 5) {
      return -1;
    }
    before = byte;
    byte = next_byte();
    value = value | (int64_t) (byte & 0x7F) << shift;
    shift += 7;
    length++;
  }
  if (byte & 0x40) {
    value = value - ((int64_t) 1 << shift);
  }
  if (length > 1) {
    if (byte == 0 && (before & 0x40) == 0) {
      return -2;
    }
    if (byte == 0x7F && (before & 0x40)) {
      return -2;
    }
  }
  if (value > 2147483647L || value < -2147483648L) {
    return -3;
  }
  if (value > limit) {
    return -4;
  }
  if (value == -624485) {
    return 2;
  }
  return value < 0 ? 1 : 0;
}
