/* Run lengths of PackBits (TIFF 6.0, section 9) undone into eight bytes, with every overrun told. */
#include <stdint.h>

int8_t next_byte(void);

int unpack(void) {
  int8_t out[8] = {0};
  int length = 0;
  int runs = 0;
  while (length < 8) {
    int count = next_byte();
    if (count == -128) {
      continue;
    }
    if (count >= 0) {
      if (length + count + 1 > 8) {
        return -1;
      }
      for (int i = 0; i <= count; i++) {
        out[length] = next_byte();
        length++;
      }
    } else {
      int8_t byte = next_byte();
      if (length + 1 - count > 8) {
        return -2;
      }
      for (int i = 0; i < 1 - count; i++) {
        out[length] = byte;
        length++;
      }
      runs++;
    }
  }
  if (runs == 2 && out[0] == 7 && out[7] == -7) {
    return 2;
  }
  if (runs == 0) {
    return out[3] == out[4];
  }
  return 3;
}
