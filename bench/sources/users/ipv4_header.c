/* A router's look at the header of an IPv4 packet (RFC 791), of ten words of sixteen bits. */
#include <stdint.h>

uint16_t next_word(void);

int route(void) {
  uint32_t sum = 0;
  uint16_t words[10];
  for (int i = 0; i < 10; i++) {
    words[i] = next_word();
    sum += words[i];
  }
  int version = words[0] >> 12;
  int header = words[0] >> 8 & 15;
  if (version != 4) {
    return version == 6 ? -6 : -1;
  }
  if (header != 5) {
    return header < 5 ? -2 : 9;
  }
  if (words[1] < 20) {
    return -3;
  }
  sum = (sum & 0xFFFF) + (sum >> 16);
  sum = sum + (sum >> 16);
  if ((sum & 0xFFFF) != 0xFFFF) {
    return -4;
  }
  int offset = words[3] & 0x1FFF;
  if (words[3] & 0x4000) {
    if (offset != 0 || (words[3] & 0x2000)) {
      return -5;
    }
  } else if (offset * 8 + words[1] - 20 > 65515) {
    return -7;
  }
  int left = words[4] >> 8;
  if (left <= 1) {
    return left == 0 ? -8 : -9;
  }
  if (words[8] >> 8 == 10) {
    return 1;
  }
  if (words[8] == 0xC0A8) {
    return words[9] >> 8 == 1 ? 2 : 3;
  }
  if ((words[4] & 255) == 17 && words[8] >= 0xE000 && words[8] < 0xF000) {
    return 4;
  }
  return 0;
}
