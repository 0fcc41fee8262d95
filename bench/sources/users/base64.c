/* One group of four characters of base64 (RFC 4648) as up to three bytes, with what padding may stand. */
#include <stdint.h>

char next_char(void);

static int sextet(char c) {
  if (c >= 'A' && c <= 'Z') {
    return c - 'A';
  }
  if (c >= 'a' && c <= 'z') {
    return c - 'a' + 26;
  }
  if (c >= '0' && c <= '9') {
    return c - '0' + 52;
  }
  if (c == '+') {
    return 62;
  }
  if (c == '/') {
    return 63;
  }
  return c == '=' ? 64 : 65;
}

int group(void) {
  uint32_t bits = 0;
  int padding = 0;
  for (int i = 0; i < 4; i++) {
    int value = sextet(next_char());
    if (value == 65) {
      return -1;
    }
    if (value == 64) {
      if (i < 2) {
        return -2;
      }
      padding++;
      value = 0;
    } else if (padding > 0) {
      return -3;
    }
    bits = bits << 6 | (uint32_t) value;
  }
  if (padding == 2 && (bits & 0xFFFF) != 0) {
    return -4;
  }
  if (padding == 1 && (bits & 0xFF) != 0) {
    return -5;
  }
  if (padding == 0 && bits == 0x4D616E) {
    return 3;
  }
  if (padding == 2 && bits >> 16 == 0x0A) {
    return 1;
  }
  return 3 - padding;
}
