/* A character in UTF-16 (RFC 2781) as its scalar value, with the order of bytes from a byte order mark. */
#include <stdint.h>

uint8_t next_byte(void);

static int little;

static uint32_t unit(void) {
  uint32_t first = next_byte();
  uint32_t second = next_byte();
  return little ? second << 8 | first : first << 8 | second;
}

int character(void) {
  little = 0;
  uint32_t value = unit();
  if (value == 0xFFFE) {
    little = 1;
    value = unit();
  } else if (value == 0xFEFF) {
    value = unit();
  }
  if (value >= 0xDC00 && value <= 0xDFFF) {
    return -1;
  }
  if (value >= 0xD800 && value < 0xDC00) {
    uint32_t low = unit();
    if (low < 0xDC00 || low > 0xDFFF) {
      return -2;
    }
    value = 0x10000u + ((value - 0xD800u) << 10) + (low - 0xDC00u);
    if (value >= 0x1F600 && value < 0x1F650) {
      return little ? 4 : 3;
    }
    return 2;
  }
  if (value == 0xFFFF) {
    return -3;
  }
  if (value < 0x80) {
    return 0;
  }
  return 1;
}
