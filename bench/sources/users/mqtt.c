/* The first bytes of a packet of MQTT (3.1.1): its kind, its flags and the length that is left. */
#include <stdint.h>

uint8_t next_byte(void);

int packet(void) {
  uint8_t first = next_byte();
  int kind = first >> 4;
  int flags = first & 15;
  if (kind == 0 || kind == 15) {
    return -1;
  }
  if (kind == 3) {
    int quality = flags >> 1 & 3;
    if (quality == 3) {
      return -2;
    }
    if (quality == 0 && (flags & 8)) {
      return -3;
    }
  } else if (kind == 6 || kind == 8 || kind == 10) {
    if (flags != 2) {
      return -4;
    }
  } else if (flags != 0) {
    return -5;
  }
  uint32_t length = 0;
  uint32_t factor = 1;
  for (int i = 0; i < 5; i++) {
    if (i == 4) {
      return -6;
    }
    uint8_t byte = next_byte();
    length += (byte & 127u) * factor;
    if (byte < 128) {
      if (i > 0 && byte == 0) {
        return -7;
      }
      break;
    }
    factor *= 128;
  }
  if (kind == 12 || kind == 13 || kind == 14) {
    return length == 0 ? 1 : -8;
  }
  if (kind == 3 && length == 268435455u) {
    return 3;
  }
  if (kind == 1) {
    if (length < 12) {
      return -9;
    }
    return next_byte() == 0 && next_byte() == 4 && next_byte() == 'M' ? 4 : -10;
  }
  return length == 321 ? 2 : 0;
}
