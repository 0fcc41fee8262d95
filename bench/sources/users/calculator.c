/* A sum of products of digits without parentheses, by two accumulators: the value, or how the text is wrong. */
char next_char(void);

int calculate(void) {
  int sum = 0;
  int product = 1;
  int sign = 1;
  int divide = 0;
  for (int i = 0; i < 5; i++) {
    char c = next_char();
    if (c < '0' || c > '9') {
      return -1000;
    }
    int digit = c - '0';
    if (divide) {
      if (digit == 0) {
        return -1001;
      }
      if (product % digit != 0) {
        return -1002;
      }
      product = product / digit;
    } else {
      product = product * digit;
    }
    c = next_char();
    if (c == '*') {
      divide = 0;
    } else if (c == '/') {
      divide = 1;
    } else {
      sum += sign * product;
      product = 1;
      divide = 0;
      if (c == '+') {
        sign = 1;
      } else if (c == '-') {
        sign = -1;
      } else if (c == '=') {
        if (sum == 24) {
          return 1;
        }
        if (sum < -80) {
          return 2;
        }
        return 0;
      } else {
        return -1003;
      }
    }
  }
  return -1004;
}
