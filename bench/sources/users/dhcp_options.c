/* Options of a DHCP message (RFC 2132) in ten bytes: kind of message, lease time and the end. */
#include <stdint.h>

uint8_t next_byte(void);

int options(void) {
  uint8_t bytes[10];
  uint32_t lease = 0;
  int message = 0;
  int seen = 0;
  int at = 0;
  for (int i = 0; i < 10; i++) {
    bytes[i] = next_byte();
  }
  while (at < 10) {
    uint8_t option = bytes[at];
    if (option == 255) {
      break;
    }
    if (option == 0) {
      at++;
      continue;
    }
    if (at == 9) {
      return -1;
    }
    int length = bytes[at + 1];
    if (at + 2 + length > 10) {
      return -2;
    }
    if (option == 53) {
      if (length != 1) {
        return -3;
      }
      message = bytes[at + 2];
      if (message == 0 || message > 8) {
        return -4;
      }
    } else if (option == 51) {
      if (length != 4) {
        return -5;
      }
      lease = (uint32_t) bytes[at + 2] << 24 | (uint32_t) bytes[at + 3] << 16;
      lease = lease | (uint32_t) bytes[at + 4] << 8 | bytes[at + 5];
    }
    seen++;
    at += 2 + length;
  }
  if (at >= 10) {
    return -6;
  }
  if (message == 5 && lease == 86400) {
    return 3;
  }
  if (message == 1 && seen > 1) {
    return 2;
  }
  return seen == 0 ? 0 : 1;
}
