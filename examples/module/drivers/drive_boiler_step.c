/* Written by fshell driver for boiler_step of control.c. What isn't an integer comes from input functions, which are named after it.
   Edit it as you like; fshell.toml names it under drivers. */
#include "../boiler.h"

int drive_boiler_step(int16_t target)
{
  boiler_reset(target);
  int result = 0;
  for (int step = 0; step < 4; step++) {
    result = boiler_step();
  }
  return result;
}
