/* A temperature from a reading, by a table of eight points and a line between, with alarms. */
#include <stdint.h>

static const uint16_t readings[8] = {120, 300, 640, 1180, 1900, 2700, 3400, 3900};
static const int16_t tenths[8] = {1250, 1000, 800, 600, 400, 200, 0, -300};

int temperature(uint16_t reading, int16_t alarm) {
  if (reading < readings[0]) {
    return -1000;
  }
  if (reading > readings[7]) {
    return -1001;
  }
  int at = 0;
  for (int i = 1; i < 7; i++) {
    if (reading >= readings[i]) {
      at = i;
    }
  }
  int span = readings[at + 1] - readings[at];
  int along = reading - readings[at];
  int value = tenths[at] + (tenths[at + 1] - tenths[at]) * along / span;
  if (value == 365) {
    return 1;
  }
  if (value > alarm) {
    if (alarm < -300) {
      return 2;
    }
    if (value - alarm > 1400) {
      return 3;
    }
    return 4;
  }
  if (value < 0 && at == 6) {
    return 5;
  }
  return 0;
}
