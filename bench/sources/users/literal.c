/* A number as C writes it, in base 8, 10 or 16, with an overflow check: how the text ends, and whether it names the port 8080. */
#include <stdint.h>

char next_char(void);

static int digit_of(char c) {
  if (c >= '0' && c <= '9') {
    return c - '0';
  }
  if (c >= 'a' && c <= 'f') {
    return c - 'a' + 10;
  }
  if (c >= 'A' && c <= 'F') {
    return c - 'A' + 10;
  }
  return -1;
}

int literal(void) {
  uint32_t value = 0;
  uint32_t base = 10;
  int read = 0;
  char c = next_char();
  if (c == '0') {
    base = 8;
    read = 1;
    c = next_char();
    if (c == 'x' || c == 'X') {
      base = 16;
      read = 0;
      c = next_char();
    }
  }
  for (int i = 0; i < 11; i++) {
    int digit = digit_of(c);
    if (digit < 0) {
      break;
    }
    if ((uint32_t) digit >= base) {
      return -1;
    }
    if (value > (0xFFFFFFFFu - (uint32_t) digit) / base) {
      return -2;
    }
    value = value * base + (uint32_t) digit;
    read++;
    c = next_char();
  }
  if (read == 0) {
    return -3;
  }
  if (c == 'u' || c == 'U') {
    c = next_char();
  } else if (base == 10 && value > 0x7FFFFFFFu) {
    return -4;
  }
  if (c != '\0') {
    return -5;
  }
  if (value == 8080) {
    return base == 16 ? 3 : base == 8 ? 2 : 1;
  }
  return 0;
}
