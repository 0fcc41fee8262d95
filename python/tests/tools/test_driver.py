"""The cases of fshell driver: what it writes, what it refuses, and that gcc and the program take what it writes."""

import os
import subprocess
from collections.abc import Iterator

from tests.tools import EXAMPLES, Case, example, put, run

NEEDS = ("gcc", "pycparser")
HEAD = """/* Written by fshell driver for {what}. What isn't an integer comes from input functions, which are named after it.
   Edit it as you like; fshell.toml names it under drivers. */
"""
BUS = {
    "bus.h": """#include <stdint.h>
#define MOST 2
enum state { IDLE, BUSY };
typedef struct { uint8_t id; uint16_t data[MOST]; } frame_t;
typedef struct { enum state state; int8_t count; } bus_t;
void bus_init(bus_t *bus, int8_t count);
int bus_step(bus_t *bus, const frame_t *frame, int8_t level);
int sum(const uint8_t *bytes, uint8_t length);
int32_t write_frame(int port, const frame_t *frame, uint8_t *written);
void log_it(const char *text, ...);
extern bus_t shared;
int look(enum state wanted);
""",
    "bus.c": """#include "bus.h"
bus_t shared;
void bus_init(bus_t *bus, int8_t count) { bus->state = IDLE; bus->count = count; }
int bus_step(bus_t *bus, const frame_t *frame, int8_t level) {
  uint8_t written = 0;
  if (frame->id > 3 && level > 0) { bus->count++; }
  int32_t given = write_frame(bus->count, frame, &written);
  return given + written;
}
int sum(const uint8_t *bytes, uint8_t length) {
  int all = 0;
  for (int i = 0; i < length; i++) { all += bytes[i]; }
  return all;
}
int look(enum state wanted) { return shared.state == wanted; }
static int hidden(int x) { return x; }
int blind(void *to) { return to != 0 && hidden(1); }
typedef struct { int x; } own_t;
int inner(own_t *own) { return own->x; }
float rate(float x) { return x; }
""",
}
STEP = (
    HEAD.format(what="bus_step of bus.c")
    + """#include "bus.h"

uint8_t in_frame_id(void);
uint16_t in_frame_data_0(void);
uint16_t in_frame_data_1(void);
int8_t in_level(void);

static bus_t drive_bus_step_state;
static frame_t drive_bus_step_frame;

int drive_bus_step(int8_t count)
{
  bus_init(&drive_bus_step_state, count);
  int result = 0;
  for (int step = 0; step < 3; step++) {
    drive_bus_step_frame.id = in_frame_id();
    drive_bus_step_frame.data[0] = in_frame_data_0();
    drive_bus_step_frame.data[1] = in_frame_data_1();
    result = bus_step(&drive_bus_step_state, &drive_bus_step_frame, in_level());
  }
  return result;
}
"""
)
SUM = (
    HEAD.format(what="sum of bus.c")
    + """#include "bus.h"

uint8_t in_bytes_0(void);
uint8_t in_bytes_1(void);
uint8_t in_bytes_2(void);

static uint8_t drive_sum_bytes[3];

int drive_sum(uint8_t length)
{
  drive_sum_bytes[0] = in_bytes_0();
  drive_sum_bytes[1] = in_bytes_1();
  drive_sum_bytes[2] = in_bytes_2();
  return sum(drive_sum_bytes, (uint8_t) ((unsigned long) length % 4u));
}
"""
)
LOOK = (
    HEAD.format(what="look of bus.c")
    + """#include "bus.h"

unsigned int in_shared_state(void);
int8_t in_shared_count(void);

int drive_look(unsigned int wanted)
{
  shared.state = (enum state) (in_shared_state() % 2u);
  shared.count = in_shared_count();
  return look((enum state) (wanted % 2u));
}
"""
)
STUBS = """/* Written by fshell driver: stubs of functions that no source defines. Each gives what an input function says, and notes
   its arguments. Edit it as you like; fshell.toml names it under drivers. */
#include "bus.h"

uint8_t in_write_frame_written(void);
int32_t in_write_frame(void);

unsigned int stub_write_frame_calls;
int stub_write_frame_arg0;
frame_t stub_write_frame_arg1;
int32_t write_frame(int port, const frame_t *frame, uint8_t *written)
{
  stub_write_frame_calls++;
  stub_write_frame_arg0 = port;
  stub_write_frame_arg1 = *frame;
  *written = in_write_frame_written();
  return in_write_frame();
}
"""


def refused(name: str, words: list[str], line: str) -> Case:
    """A case of words that are refused, with the line."""
    return Case(f"driver: {name}", ["driver", *words], BUS, 2, "", f"driver: {line}\n", needs=NEEDS)


CASES = [
    Case("driver: steps behind an init, with a state of their own", ["driver", "bus_step", "bus.c", "--init", "bus_init", "--steps", "3"], BUS, 0, STEP, "", needs=NEEDS),
    Case("driver: a pointer with a length", ["driver", "sum", "bus.c", "--length", "bytes=3"], BUS, 0, SUM, "", needs=NEEDS),
    Case("driver: a variable of a header is the state", ["driver", "look", "bus.c", "--state", "shared"], BUS, 0, LOOK, "", needs=NEEDS),
    Case("driver: stubs alone", ["driver", "-", "bus.c", "--stubs", "stubs.c"], BUS, 0, "", "", {"stubs.c": STUBS}, needs=NEEDS),
    refused("no such function", ["no", "bus.c"], "no source defines the function no; they define bus_init, bus_step, sum, look, hidden, blind, inner, rate"),
    refused("a static function", ["hidden", "bus.c"], "hidden is static, so no other file can call it; a function of its own file may"),
    refused("a pointer to void", ["blind", "bus.c"], "blind: to is a pointer to void"),
    refused("a struct of the source alone", ["inner", "bus.c"], "own_t is defined in bus.c alone; move it to a header, which the driver can include"),
    refused("a float", ["rate", "bus.c"], "rate: float, which is no integer"),
    refused("a length of no parameter", ["sum", "bus.c", "--length", "byte=3"], "sum has no parameter byte"),
    refused("a state that no header declares", ["look", "bus.c", "--state", "other"], "other is no variable that a header declares"),
    refused("a source that isn't there", ["f", "no.c"], "no.c: No such file or directory"),
    refused("nothing that is asked for", ["-", "bus.c"], "neither a FUNCTION nor --stubs is asked for"),
    Case("driver: no stub is wanted", ["driver", "-", "a.c", "--stubs", "s.c"], {"a.c": "int f(int x) { return x; }\n"}, 2, "",
         "driver: each function that is called is defined, or is an input function; no stub is wanted\n", needs=NEEDS),
    Case("driver: a header that isn't there", ["driver", "f", "a.c"], {"a.c": '#include "no.h"\nint f(int x) { return x; }\n'}, 2, "",
         "driver: a.c:1:10: fatal error: no.h: No such file or directory\n", needs=NEEDS),
]  # fmt: skip


def what_is_written_is_read(folder: str) -> Iterator[bool]:
    """gcc takes it without a warning, and the program once adapt has brought it into the profile: here the count reaches 3 only
    where each step's frame and level say so."""
    texts = {"bus.c": BUS["bus.c"][: BUS["bus.c"].index("static int hidden")]}
    put(folder, {**BUS, **texts, "step.c": STEP, "stubs.c": STUBS, "sum.c": SUM, "look.c": LOOK})
    for name in ("step.c", "stubs.c", "sum.c", "look.c"):
        words = ["gcc", "-Wall", "-Wextra", "-Werror", "-c", "-o", "/dev/null", name]
        yield subprocess.run(words, cwd=folder, capture_output=True).returncode == 0
    words = ["bus.c", "step.c", "stubs.c", "sum.c", "look.c"]
    ended = run(folder, ["adapt", *words])
    line = next((one for one in ended.stdout.splitlines() if one.startswith("wrote ")), ended.stderr)
    sources = line.split()[1:]
    made = run(
        folder,
        ["generate", "drive_bus_step", "cover {stub_write_frame_arg0 == 3}", *sources, "--answers", "18"],
    )
    yield made.stdout.endswith("covered 1 refuted 0 undecided 0 of 1\n")
    put(folder, {"in": '[{"args": [0], "answers": [4, 0, 0, 1, 0, 0, 4, 0, 0, 1, 0, 0, 4, 0, 0, 1, 7, 35]}]\n'})
    # by hand: three steps raise the count to 3, and the last one gives 35 + 7
    order = run(folder, ["runs", "drive_bus_step", "in", *sources]).stdout
    yield order.startswith("input 1 returned 42 ")


def drivers_of_the_example_are_as_written(folder: str) -> Iterator[bool]:
    module = os.path.join(EXAMPLES, "module")
    put(folder, {name: example(f"module/{name}") for name in ("boiler.h", "alarm.c", "control.c", "sensors.c")})
    os.mkdir(os.path.join(folder, "drivers"))
    for words in (
        ["alarm_of", "alarm.c"],
        ["count_hot", "alarm.c"],
        ["boiler_step", "control.c", "--init", "boiler_reset", "--steps", "4", "--stubs", "drivers/stubs.c"],
    ):
        yield run(folder, ["driver", *words, "-o", f"drivers/drive_{words[0]}.c"]).returncode == 0
    names = sorted(os.listdir(os.path.join(module, "drivers")))
    yield names == sorted(os.listdir(os.path.join(folder, "drivers")))
    for name in names:
        with open(os.path.join(folder, "drivers", name), encoding="utf-8") as file:
            yield file.read() == example(f"module/drivers/{name}")


TRIED = [(NEEDS, what_is_written_is_read), (NEEDS, drivers_of_the_example_are_as_written)]
