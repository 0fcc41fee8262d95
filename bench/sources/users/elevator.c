/* A lift between four floors: calls, doors and an overload, for so many ticks. */
#include <stdint.h>

uint8_t next_call(void);

static int floor_now;
static int wanted[4];
static int door_open;

static int nearest(void) {
  int best = -1;
  int distance = 9;
  for (int f = 0; f < 4; f++) {
    int away = f > floor_now ? f - floor_now : floor_now - f;
    if (wanted[f] && away < distance) {
      best = f;
      distance = away;
    }
  }
  return best;
}

int lift(void) {
  int moved = 0;
  floor_now = 0;
  door_open = 0;
  for (int f = 0; f < 4; f++) {
    wanted[f] = 0;
  }
  for (int tick = 0; tick < 5; tick++) {
    uint8_t call = next_call();
    int overloaded = (call & 0x80) != 0;
    if ((call & 0x40) == 0) {
      wanted[call & 3] = 1;
    }
    if (door_open) {
      if (overloaded) {
        continue;
      }
      door_open = 0;
    } else if (overloaded) {
      return -1;
    }
    int target = nearest();
    if (target < 0) {
      continue;
    }
    if (target == floor_now) {
      wanted[target] = 0;
      door_open = 1;
    } else {
      floor_now += target > floor_now ? 1 : -1;
      moved++;
    }
  }
  if (moved == 4 && floor_now == 0) {
    return 2;
  }
  if (floor_now == 3 && door_open) {
    return 1;
  }
  return 0;
}
