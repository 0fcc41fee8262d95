/* A listener on two wires of I2C: start, seven bits of an address, read or write, and the acknowledge. */
#include <stdint.h>

uint8_t next_wires(void);

int listen(void) {
  int clock = 1;
  int data = 1;
  int started = 0;
  int bits = 0;
  uint8_t shifted = 0;
  for (int i = 0; i < 24; i++) {
    uint8_t wires = next_wires();
    int clock_now = wires & 1;
    int data_now = wires >> 1 & 1;
    if (clock && clock_now && data != data_now) {
      if (data_now == 0) {
        started = 1;
        bits = 0;
        shifted = 0;
      } else {
        if (!started) {
          return -1;
        }
        return bits == 9 ? 1 : -2;
      }
    } else if (!clock && clock_now && started) {
      if (bits < 8) {
        shifted = (uint8_t) (shifted << 1 | data_now);
        bits++;
      } else if (bits == 8) {
        if (data_now) {
          return -3;
        }
        if (shifted >> 1 != 0x50) {
          return -4;
        }
        bits++;
        if (shifted & 1) {
          return 2;
        }
      }
    }
    clock = clock_now;
    data = data_now;
  }
  return 0;
}
