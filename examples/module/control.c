#include "boiler.h"

#define MOST_FAULTS 3

static boiler_t boiler;

/* How far the burner is opened: 0 to 3. */
uint8_t burner_level(int16_t temperature, int16_t target)
{
  int16_t missing = target - temperature;

  if (missing <= 0)
    return 0;
  if (missing > 30)
    return 3;
  return missing > 10 ? 2 : 1;
}

void boiler_reset(int16_t target)
{
  boiler = (boiler_t) {.mode = MODE_OFF, .target = target};
}

/* One step of the control; gives the mode in which it ends. */
int boiler_step(void)
{
  boiler.last = read_sensors();
  if (!boiler.last.valid) {
    if (++boiler.faults >= MOST_FAULTS)
      boiler.mode = MODE_FAULT;
  } else if (boiler.mode != MODE_FAULT) {
    boiler.faults = 0;
  }
  switch (boiler.mode) {
  case MODE_OFF:
    if (boiler.last.valid && boiler.last.temperature < boiler.target)
      boiler.mode = MODE_HEATING;
    break;
  case MODE_HEATING:
    if (boiler.last.temperature >= boiler.target)
      boiler.mode = MODE_HOLDING;
    if (!valve_open(BURNER, burner_level(boiler.last.temperature, boiler.target)))
      boiler.mode = MODE_FAULT;
    break;
  case MODE_HOLDING:
    if (boiler.last.temperature < boiler.target - 5)
      boiler.mode = MODE_HEATING;
    break;
  default:
    break;
  }
  return (int) boiler.mode;
}
