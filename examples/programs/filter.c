/* A filter of the first order with saturation, in fixed point with eight bits behind the point. */
#include <stdint.h>

static int32_t state;

static int16_t saturated(int32_t value) {
  if (value > 32767) {
    return 32767;
  }
  if (value < -32768) {
    return -32768;
  }
  return (int16_t) value;
}

int16_t filter(int16_t sample, uint8_t weight) {
  int32_t change = ((int32_t) sample * 256 - state) * weight;
  state = state + (change >> 8);
  int32_t out = state >> 7;
  return saturated(out);
}
