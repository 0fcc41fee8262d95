/* A slave's answer to a request of Modbus (application protocol 1.1b3): read and write of four registers. */
#include <stdint.h>

uint8_t next_byte(void);

static uint16_t registers[4];

static uint16_t pair(void) {
  uint16_t high = next_byte();
  return (uint16_t) (high << 8 | next_byte());
}

static int request(void) {
  uint8_t function = next_byte();
  if (function == 3) {
    uint16_t first = pair();
    uint16_t count = pair();
    if (count == 0 || count > 125) {
      return 3;
    }
    if (first > 3 || first + count > 4) {
      return 2;
    }
    int sum = 0;
    for (int i = 0; i < count; i++) {
      sum += registers[first + i];
    }
    return sum > 70000 ? 101 : 100;
  }
  if (function == 6) {
    uint16_t place = pair();
    uint16_t value = pair();
    if (place >= 4) {
      return 2;
    }
    if (place == 3 && value > 1) {
      return 3;
    }
    registers[place] = value;
    return 102;
  }
  return 1;
}

int serve(void) {
  int answer = 0;
  for (int i = 0; i < 4; i++) {
    registers[i] = 0;
  }
  for (int i = 0; i < 3; i++) {
    answer = request();
    if (answer < 100) {
      break;
    }
  }
  if (answer == 101) {
    return 4;
  }
  if (registers[3] == 1) {
    if (registers[0] == registers[1] && registers[0] > 4000) {
      return 5;
    }
    return 6;
  }
  return answer;
}
