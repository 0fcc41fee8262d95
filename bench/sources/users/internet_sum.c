/* The header of an ICMP echo message, whose sum is the Internet checksum (RFC 1071) of six words. */
#include <stdint.h>

uint16_t next_word(void);

int echo(void) {
  uint32_t sum = 0;
  uint16_t kind = 0;
  uint16_t identifier = 0;
  uint16_t sequence = 0;
  for (int i = 0; i < 6; i++) {
    uint16_t word = next_word();
    sum += word;
    switch (i) {
    case 0:
      kind = word;
      break;
    case 2:
      identifier = word;
      break;
    case 3:
      sequence = word;
      break;
    default:
      break;
    }
  }
  sum = (sum & 0xFFFF) + (sum >> 16);
  sum = (sum & 0xFFFF) + (sum >> 16);
  if (sum != 0xFFFF) {
    return -1;
  }
  if ((kind & 0xFF) != 0) {
    return -2;
  }
  if (kind >> 8 == 8) {
    return sequence == 0 ? 1 : 2;
  }
  if (kind >> 8 == 0) {
    if (identifier != 0x4D2) {
      return -3;
    }
    return sequence > 1000 ? 4 : 3;
  }
  return -4;
}
