/* A product of two numbers of sixteen bits that must be a given one, and one that can't be. */
#include <stdint.h>

int factors(uint16_t a, uint16_t b) {
  uint32_t product = (uint32_t) a * b;
  if (product == 4294049777u) {
    return 1;
  }
  if (a > 1 && b > 1 && product == 2147483647u) {
    return 2;
  }
  if (a > 1 && b > 1 && product == 62615533u) {
    return 3;
  }
  return 0;
}
