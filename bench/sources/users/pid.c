/* A PI controller of a heater in Q8 with a clamped integral, over a few samples. */
#include <stdint.h>

int16_t next_sample(void);

#define GAIN 40
#define RATE 12
#define LIMIT 20000

int control(int16_t target) {
  int32_t integral = 0;
  int full = 0;
  int off = 0;
  if (target < 0 || target > 1200) {
    return -1;
  }
  for (int i = 0; i < 4; i++) {
    int16_t sample = next_sample();
    if (sample < -400 || sample > 2000) {
      return -2;
    }
    int32_t error = target - sample;
    int32_t output = (GAIN * error + integral) >> 8;
    if (output > 100) {
      output = 100;
      full++;
    } else if (output < 0) {
      output = 0;
      off++;
    } else {
      integral += RATE * error;
      if (integral > LIMIT) {
        integral = LIMIT;
      } else if (integral < -LIMIT) {
        integral = -LIMIT;
      }
    }
  }
  if (full == 2 && off == 2) {
    return 3;
  }
  if (integral == LIMIT) {
    return 2;
  }
  if (integral == -LIMIT && full == 1) {
    return 4;
  }
  return full > off ? 1 : 0;
}
