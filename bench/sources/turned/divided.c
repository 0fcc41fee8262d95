/* Division and its remainder, put together again: what always holds, and what never does. */
#include <stdint.h>

int divided(uint16_t a, uint16_t b) {
  if (b == 0) {
    return -1;
  }
  uint16_t quotient = (uint16_t) (a / b);
  uint16_t rest = (uint16_t) (a % b);
  if (quotient * b + rest != a) {
    return 1;
  }
  if (rest >= b) {
    return 2;
  }
  if (quotient == 123 && rest == 45) {
    return 3;
  }
  return 0;
}
