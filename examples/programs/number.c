/* A decimal number, read a character at a time. */
int next_character(void);

int parse(void) {
  int c = next_character();
  int negative = 0;
  if (c == '-') {
    negative = 1;
    c = next_character();
  }
  if (c < '0' || c > '9') {
    return -1;
  }
  int value = 0;
  int digits = 0;
  while (c >= '0' && c <= '9') {
    value = value * 10 + (c - '0');
    digits++;
    if (digits > 3) {
      return -2;
    }
    c = next_character();
  }
  if (c != 0) {
    return -3;
  }
  if (negative && value == 0) {
    return -4;
  }
  return negative ? -value : value;
}
