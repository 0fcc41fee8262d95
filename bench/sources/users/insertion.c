/* A list of at most six numbers that is kept in order: numbers are put in by bisection, doubles are left out. */
#include <stdint.h>

int16_t next_number(void);

int kept(void) {
  int16_t list[6];
  int length = 0;
  int doubles = 0;
  for (int i = 0; i < 6; i++) {
    int16_t number = next_number();
    int low = 0;
    int high = length;
    while (low < high) {
      int middle = (low + high) / 2;
      if (list[middle] < number) {
        low = middle + 1;
      } else {
        high = middle;
      }
    }
    if (low < length && list[low] == number) {
      doubles++;
      continue;
    }
    for (int at = length; at > low; at--) {
      list[at] = list[at - 1];
    }
    list[low] = number;
    length++;
  }
  if (doubles == 5) {
    return 1;
  }
  if (length == 6 && list[5] - list[0] == 5) {
    return 2;
  }
  if (length > 2 && list[0] > list[1]) {
    return -1;
  }
  if (length == 4 && list[3] == 2 * list[2] && list[0] > 100) {
    return 3;
  }
  return 0;
}
