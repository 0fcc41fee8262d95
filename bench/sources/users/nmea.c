/* A short sentence of NMEA 0183: $GP, a letter for its kind, a digit, and a star with the checksum in hexadecimal. */
#include <stdint.h>

uint8_t next_byte(void);

static int hexadecimal(uint8_t byte) {
  if (byte >= '0' && byte <= '9') {
    return byte - '0';
  }
  if (byte >= 'A' && byte <= 'F') {
    return byte - 'A' + 10;
  }
  return 16;
}

int sentence(void) {
  uint8_t sum = 0;
  uint8_t kind = 0;
  uint8_t quality = 0;
  if (next_byte() != '$') {
    return -1;
  }
  for (int at = 0; at < 5; at++) {
    uint8_t byte = next_byte();
    if (byte == '*') {
      return -2;
    }
    sum = (uint8_t) (sum ^ byte);
    if (at == 0 && byte != 'G') {
      return -3;
    }
    if (at == 1 && byte != 'P' && byte != 'L') {
      return -4;
    }
    if (at == 2) {
      kind = byte;
    }
    if (at == 4) {
      quality = byte;
    }
  }
  if (next_byte() != '*') {
    return -5;
  }
  int high = hexadecimal(next_byte());
  int low = hexadecimal(next_byte());
  if (high > 15 || low > 15) {
    return -6;
  }
  if (high * 16 + low != sum) {
    return -7;
  }
  if (kind == 'R') {
    if (quality == '0') {
      return 0;
    }
    if (quality == '1' || quality == '2') {
      return 2;
    }
    return -8;
  }
  return 1;
}
