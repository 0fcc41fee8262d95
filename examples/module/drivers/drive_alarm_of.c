/* Written by fshell driver for alarm_of of alarm.c. What isn't an integer comes from input functions, which are named after it.
   Edit it as you like; fshell.toml names it under drivers. */
#include "../boiler.h"

int16_t in_reading_temperature(void);
uint16_t in_reading_pressure(void);
bool in_reading_valid(void);

static reading_t drive_alarm_of_reading;

enum alarm drive_alarm_of(void)
{
  drive_alarm_of_reading.temperature = in_reading_temperature();
  drive_alarm_of_reading.pressure = in_reading_pressure();
  drive_alarm_of_reading.valid = in_reading_valid();
  return alarm_of(&drive_alarm_of_reading);
}
