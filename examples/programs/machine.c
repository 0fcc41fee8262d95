/* A door with a lock: events come one by one. */
int event(void);

enum { CLOSED, OPEN, LOCKED, BROKEN };

int door(int events) {
  int state = CLOSED;
  int tries = 0;
  for (int i = 0; i < events; i++) {
    int e = event();
    switch (state) {
      case CLOSED:
        if (e == 1) {
          state = OPEN;
        } else if (e == 2) {
          state = LOCKED;
          tries = 0;
        }
        break;
      case OPEN:
        if (e == 0) {
          state = CLOSED;
        }
        break;
      case LOCKED:
        if (e == 42) {
          state = CLOSED;
        } else if (e != 0) {
          tries++;
          if (tries == 3) {
            state = BROKEN;
          }
        }
        break;
      default:
        return -1;
    }
  }
  return state;
}
