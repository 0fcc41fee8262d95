/* Written by fshell driver for count_hot of alarm.c. What isn't an integer comes from input functions, which are named after it.
   Edit it as you like; fshell.toml names it under drivers. */
#include "../boiler.h"

uint8_t in_zones_0(void);
uint8_t in_zones_1(void);
uint8_t in_zones_2(void);
uint8_t in_zones_3(void);

static uint8_t drive_count_hot_zones[4];

int drive_count_hot(uint8_t limit)
{
  drive_count_hot_zones[0] = in_zones_0();
  drive_count_hot_zones[1] = in_zones_1();
  drive_count_hot_zones[2] = in_zones_2();
  drive_count_hot_zones[3] = in_zones_3();
  return count_hot(drive_count_hot_zones, limit);
}
