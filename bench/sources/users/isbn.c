/* An ISBN of ten characters, whose last one may be an X (ISO 2108): valid, for children, or how it is wrong. */
char next_char(void);

int isbn(void) {
  int sum = 0;
  int group = 0;
  int hyphens = 0;
  int weight = 10;
  for (int i = 0; i < 13; i++) {
    if (weight == 0) {
      break;
    }
    char c = next_char();
    if (c == '-') {
      hyphens++;
      if (hyphens > 3 || weight == 10) {
        return -1;
      }
      continue;
    }
    int value = c - '0';
    if (c == 'X' && weight == 1) {
      value = 10;
    } else if (c < '0' || c > '9') {
      return -2;
    }
    if (weight == 10) {
      group = value;
    }
    sum += weight * value;
    weight--;
  }
  if (weight != 0) {
    return -3;
  }
  if (sum % 11 != 0) {
    return -4;
  }
  if (group == 3 && hyphens == 3) {
    return 2;
  }
  if (hyphens == 1 || hyphens == 2) {
    return -5;
  }
  return 1;
}
