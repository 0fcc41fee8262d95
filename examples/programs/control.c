/* A controller with an integral part that doesn't wind up, over samples of an error. */
#include <stdint.h>

#define LIMIT 1000

int16_t error_now(void);

static int clamped(int value) {
  if (value > LIMIT) {
    return LIMIT;
  }
  if (value < -LIMIT) {
    return -LIMIT;
  }
  return value;
}

int control(int samples) {
  int integral = 0;
  int output = 0;
  int saturated = 0;
  for (int i = 0; i < samples; i++) {
    int error = error_now();
    int wanted = 4 * error + integral;
    output = clamped(wanted);
    if (output == wanted) {
      integral = clamped(integral + error);
    } else {
      saturated++;
    }
  }
  if (saturated == samples && samples > 0) {
    return 2;
  }
  return output > 0;
}
