/* A number by the grammar of JSON (RFC 8259), read by a state machine: an integer, a fraction, one with an exponent, or none. */
char next_char(void);

enum { START, SIGN, ZERO, DIGITS, POINT, FRACTION, E, E_SIGN, EXPONENT };

int number(void) {
  int state = START;
  int length = 0;
  for (;;) {
    char c = next_char();
    int is_digit = c >= '0' && c <= '9';
    if (c == '\0') {
      break;
    }
    length++;
    if (length > 8) {
      return -1;
    }
    switch (state) {
    case START:
      if (c == '-') {
        state = SIGN;
        break;
      }
      state = c == '0' ? ZERO : is_digit ? DIGITS : -1;
      break;
    case SIGN:
      state = c == '0' ? ZERO : is_digit ? DIGITS : -1;
      break;
    case ZERO:
      state = c == '.' ? POINT : c == 'e' || c == 'E' ? E : -1;
      break;
    case DIGITS:
      if (!is_digit) {
        state = c == '.' ? POINT : c == 'e' || c == 'E' ? E : -1;
      }
      break;
    case POINT:
      state = is_digit ? FRACTION : -1;
      break;
    case FRACTION:
      if (!is_digit) {
        state = c == 'e' || c == 'E' ? E : -1;
      }
      break;
    case E:
      state = c == '+' || c == '-' ? E_SIGN : is_digit ? EXPONENT : -1;
      break;
    case E_SIGN:
      state = is_digit ? EXPONENT : -1;
      break;
    case EXPONENT:
      if (!is_digit) {
        state = -1;
      }
      break;
    }
    if (state < 0) {
      return -2;
    }
  }
  if (state == ZERO || state == DIGITS) {
    return 1;
  }
  if (state == FRACTION) {
    return 2;
  }
  if (state == EXPONENT) {
    return 3;
  }
  return -3;
}
