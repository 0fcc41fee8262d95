/* The states of a TCP connection (RFC 9293) that is opened passively or actively, by segments and calls. */
#include <stdint.h>

uint8_t next_event(void);

enum { CLOSED, LISTEN, SYN_SENT, SYN_RECEIVED, ESTABLISHED, FIN_WAIT_1, FIN_WAIT_2, CLOSE_WAIT, CLOSING, LAST_ACK, TIME_WAIT };
enum { SYN = 1, ACK = 2, FIN = 4, RST = 8, OPEN = 16, CLOSE = 32 };

static int state;

static int next_state(uint8_t event) {
  if ((event & RST) && state > LISTEN) {
    return CLOSED;
  }
  switch (state) {
  case CLOSED:
    return event == OPEN ? LISTEN : event == (OPEN | SYN) ? SYN_SENT : -1;
  case LISTEN:
    return event == SYN ? SYN_RECEIVED : event == CLOSE ? CLOSED : -1;
  case SYN_SENT:
    if (event == (SYN | ACK)) {
      return ESTABLISHED;
    }
    return event == SYN ? SYN_RECEIVED : event == CLOSE ? CLOSED : -1;
  case SYN_RECEIVED:
    return event == ACK ? ESTABLISHED : event == CLOSE ? FIN_WAIT_1 : -1;
  case ESTABLISHED:
    if (event & FIN) {
      return CLOSE_WAIT;
    }
    return event == CLOSE ? FIN_WAIT_1 : ESTABLISHED;
  case FIN_WAIT_1:
    if (event == (FIN | ACK)) {
      return TIME_WAIT;
    }
    return event == FIN ? CLOSING : event == ACK ? FIN_WAIT_2 : -1;
  case FIN_WAIT_2:
    return event & FIN ? TIME_WAIT : FIN_WAIT_2;
  case CLOSE_WAIT:
    return event == CLOSE ? LAST_ACK : CLOSE_WAIT;
  case CLOSING:
    return event & ACK ? TIME_WAIT : -1;
  case LAST_ACK:
    return event & ACK ? CLOSED : -1;
  default:
    return CLOSED;
  }
}

int connection(void) {
  state = CLOSED;
  for (int i = 0; i < 7; i++) {
    state = next_state(next_event());
    if (state < 0) {
      return -1;
    }
    if (state == TIME_WAIT) {
      return 1;
    }
  }
  if (state == LAST_ACK) {
    return 2;
  }
  return 0;
}
