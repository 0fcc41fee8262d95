#include "boiler.h"

/* What a reading warns of. */
enum alarm alarm_of(const reading_t *reading)
{
  if (!reading->valid)
    return ALARM_WARNING;
  if (reading->pressure > 300 || reading->temperature > 100)
    return ALARM_DANGER;
  return reading->pressure > 250 && reading->temperature > 90 ? ALARM_WARNING : ALARM_NONE;
}

/* How many zones are hotter than a limit. */
int count_hot(const uint8_t zones[ZONES], uint8_t limit)
{
  int count = 0;

  for (uint8_t i = 0; i < ZONES; i++)
    if (zones[i] > limit)
      count++;
  return count;
}

/* Whether the boiler may be started. */
bool may_start(enum alarm alarm, uint8_t faults, bool door_closed)
{
  if (alarm == ALARM_DANGER || !door_closed)
    return false;
  return faults == 0 || (faults < 2 && alarm == ALARM_NONE);
}
