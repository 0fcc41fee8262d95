/* Consistent overhead byte stuffing undone (Cheshire and Baker, 1997), of up to seven bytes, up to a zero. */
#include <stdint.h>

uint8_t next_byte(void);

int unstuff(void) {
  uint8_t out[8];
  int length = 0;
  int zeros = 0;
  uint8_t code = next_byte();
  if (code == 0) {
    return -1;
  }
  int left = code - 1;
  for (int i = 0; i < 7; i++) {
    uint8_t byte = next_byte();
    if (byte == 0) {
      if (left > 0) {
        return -2;
      }
      if (length == 4 && zeros == 2) {
        return 2;
      }
      if (length > 1 && out[0] == 0x7E && out[length - 1] == 0x7E) {
        return 3;
      }
      return 1;
    }
    if (left == 0) {
      if (code != 0xFF) {
        out[length] = 0;
        length++;
        zeros++;
      }
      code = byte;
      left = code - 1;
    } else {
      out[length] = byte;
      length++;
      left--;
    }
  }
  return -3;
}
