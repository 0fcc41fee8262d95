/* A receiver of SLIP (RFC 1055): frames between END bytes, with ESC; a frame of three bytes sets a register. */
#include <stdint.h>

uint8_t next_byte(void);

int receive(void) {
  uint8_t frame[4];
  int length = 0;
  int escaped = 0;
  for (int i = 0; i < 8; i++) {
    uint8_t byte = next_byte();
    if (byte == 0xC0) {
      if (escaped) {
        return -1;
      }
      if (length == 0) {
        continue;
      }
      if (length < 3) {
        return -2;
      }
      if (frame[0] == 0xDB && frame[1] == 0xC0) {
        return 3;
      }
      if (frame[0] == 0x10) {
        return frame[1] + frame[2] > 400 ? 2 : 1;
      }
      return 0;
    }
    if (escaped) {
      escaped = 0;
      if (byte == 0xDC) {
        byte = 0xC0;
      } else if (byte == 0xDD) {
        byte = 0xDB;
      } else {
        return -3;
      }
    } else if (byte == 0xDB) {
      escaped = 1;
      continue;
    }
    if (length == 4) {
      return -4;
    }
    frame[length] = byte;
    length++;
  }
  return -5;
}
