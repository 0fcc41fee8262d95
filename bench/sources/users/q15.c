/* A biquad step in numbers of Q15 with rounding and saturation, as signal processors have it. */
#include <stdint.h>

static int saturated;

static int16_t saturate(int32_t value) {
  if (value > 32767) {
    saturated++;
    return 32767;
  }
  if (value < -32768) {
    saturated++;
    return -32768;
  }
  return (int16_t) value;
}

static int16_t times(int16_t a, int16_t b) {
  int32_t product = (int32_t) a * b;
  return saturate((product + 0x4000) >> 15);
}

int step(int16_t input, int16_t last, int16_t gain) {
  saturated = 0;
  int16_t scaled = times(input, gain);
  int16_t fed = times(last, -16384);
  int16_t out = saturate(scaled + fed);
  if (saturated == 2) {
    return 1;
  }
  if (saturated == 1) {
    if (input == -32768 && gain == -32768) {
      return 2;
    }
    return out > 0 ? 3 : 4;
  }
  if (out == 12345) {
    if (input == gain) {
      return 5;
    }
    return 6;
  }
  if (out == 0 && input != 0 && gain > 1000) {
    return 7;
  }
  return 0;
}
