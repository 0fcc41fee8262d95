/* How many of six numbers are in order, and what then never holds: pairs of guards that exclude each other. */
#include <stdint.h>

int counted(int8_t a, int8_t b, int8_t c, int8_t d, int8_t e, int8_t f) {
  int rising = 0;
  if (a < b) {
    rising++;
  }
  if (b < c) {
    rising++;
  }
  if (c < d) {
    rising++;
  }
  if (d < e) {
    rising++;
  }
  if (e < f) {
    rising++;
  }
  if (rising == 5 && a >= f) {
    return -1;
  }
  if (rising == 5 && a + 5 > f) {
    return -2;
  }
  if (rising == 0 && a < f) {
    return -3;
  }
  return rising;
}
