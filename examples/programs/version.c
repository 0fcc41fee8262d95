/* Compares two versions of three numbers each. */
#include <stdint.h>

uint8_t next_number(void);

int compare(int known_as_beta) {
  uint8_t ours[3];
  uint8_t theirs[3];
  for (int i = 0; i < 3; i++) {
    ours[i] = next_number();
  }
  for (int i = 0; i < 3; i++) {
    theirs[i] = next_number();
  }
  for (int i = 0; i < 3; i++) {
    if (ours[i] < theirs[i]) {
      return -1;
    }
    if (ours[i] > theirs[i]) {
      return 1;
    }
  }
  return known_as_beta ? -1 : 0;
}
