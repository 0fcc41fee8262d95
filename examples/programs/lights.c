/* Traffic lights with a button: green lasts three ticks at least, yellow one and red two. */
#include <assert.h>

int button(void);

enum { RED, GREEN, YELLOW };

int lights(int ticks) {
  int colour = RED;
  int left = 2;
  int asked = 0;
  int walks = 0;
  for (int i = 0; i < ticks; i++) {
    if (button() == 1) {
      asked = 1;
    }
    if (left > 0) {
      left--;
    }
    if (left == 0) {
      if (colour == RED) {
        colour = GREEN;
        left = 3;
      } else if (colour == GREEN) {
        if (asked) {
          colour = YELLOW;
          left = 1;
        }
      } else {
        colour = RED;
        left = 2;
        asked = 0;
        walks++;
      }
    }
    assert(left >= 0 && left <= 3);
  }
  return walks;
}
