/* A field of a table of times, as cron has it: a star, a number, a range, and a step behind a slash. Does it meet minute 42? */
char next_char(void);

static char last;

static int number(void) {
  int value = -1;
  while (last >= '0' && last <= '9') {
    value = (value < 0 ? 0 : value * 10) + (last - '0');
    if (value > 59) {
      return -2;
    }
    last = next_char();
  }
  return value;
}

int field(void) {
  int first = 0;
  int end = 59;
  int step = 1;
  last = next_char();
  if (last == '*') {
    last = next_char();
  } else {
    first = number();
    if (first < 0) {
      return -1;
    }
    end = first;
    if (last == '-') {
      last = next_char();
      end = number();
      if (end < 0) {
        return -2;
      }
      if (end < first) {
        return -3;
      }
    }
  }
  if (last == '/') {
    last = next_char();
    step = number();
    if (step <= 0) {
      return -4;
    }
    if (end == first) {
      end = 59;
    }
  }
  if (last != '\0' && last != ' ') {
    return -5;
  }
  if (first > 42 || end < 42) {
    return 0;
  }
  if ((42 - first) % step != 0) {
    return 1;
  }
  return step > 7 ? 3 : 2;
}
