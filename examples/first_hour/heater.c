/* A heater with a thermostat, in the profile's form: no struct, no pointer, no bool. */
#include <assert.h>
#include <stdint.h>

enum { OFF, ON, FAULT };

int16_t temperature(void); /* the sensor, in tenths of a degree: FShell gives its answers */

static int state;
static uint8_t faults;

static void step(int16_t target) {
  int16_t now = temperature();
  if (now < -500 || now > 1500) {
    faults++;
    if (faults == 3) {
      state = FAULT;
    }
  } else if (state == OFF && now < target - 5) {
    state = ON;
  } else if (state == ON && now > target + 5) {
    state = OFF;
  }
}

int control(int16_t target, int ticks) {
  for (int i = 0; i < ticks; i++) {
    step(target);
    assert(faults <= 3 || state == FAULT);
  }
  return state;
}
