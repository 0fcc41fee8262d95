/* A name in a DNS message (RFC 1035) of twelve bytes: labels with their length, and pointers backwards. */
#include <stdint.h>

uint8_t next_byte(void);

int name(uint8_t start) {
  uint8_t message[12];
  for (int i = 0; i < 12; i++) {
    message[i] = next_byte();
  }
  int at = start;
  int labels = 0;
  int jumps = 0;
  int length = 0;
  if (at >= 12) {
    return -1;
  }
  while (message[at] != 0) {
    uint8_t byte = message[at];
    if (byte >= 0xC0) {
      if (at + 1 >= 12) {
        return -2;
      }
      int target = (byte & 0x3F) << 8 | message[at + 1];
      if (target >= at) {
        return -3;
      }
      jumps++;
      at = target;
    } else if (byte >= 0x40) {
      return -4;
    } else {
      labels++;
      length += byte + 1;
      at += byte + 1;
    }
    if (at >= 12) {
      return -5;
    }
    if (labels + jumps > 5) {
      return -6;
    }
  }
  if (jumps == 2 && labels == 2) {
    return 3;
  }
  if (jumps == 0 && length == 8) {
    return message[start + 1] == 'w' ? 2 : 1;
  }
  return 0;
}
