/* Written by fshell driver: stubs of functions that no source defines. Each gives what an input function says, and notes
   its arguments. Edit it as you like; fshell.toml names it under drivers. */
#include "../boiler.h"

bool in_valve_open(void);

unsigned int stub_valve_open_calls;
uint8_t stub_valve_open_arg0;
uint8_t stub_valve_open_arg1;
bool valve_open(uint8_t valve, uint8_t level)
{
  stub_valve_open_calls++;
  stub_valve_open_arg0 = valve;
  stub_valve_open_arg1 = level;
  return in_valve_open();
}
