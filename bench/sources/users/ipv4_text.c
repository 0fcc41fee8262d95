/* An IPv4 address in dotted decimal text: the class of the address, or how the text is wrong. */
#include <stdint.h>

char next_char(void);

int address(void) {
  int parts[4] = {0, 0, 0, 0};
  int part = 0;
  int digits = 0;
  for (int i = 0; i < 15; i++) {
    char c = next_char();
    if (c >= '0' && c <= '9') {
      if (digits == 1 && parts[part] == 0) {
        return -1;
      }
      parts[part] = parts[part] * 10 + (c - '0');
      digits++;
      if (parts[part] > 255) {
        return -2;
      }
    } else if (c == '.') {
      if (digits == 0) {
        return -3;
      }
      if (part == 3) {
        return -4;
      }
      part++;
      digits = 0;
    } else if (c == '\0') {
      break;
    } else {
      return -5;
    }
  }
  if (part != 3 || digits == 0) {
    return -6;
  }
  if (parts[0] == 127) {
    return 0;
  }
  if (parts[0] == 10 || (parts[0] == 192 && parts[1] == 168)) {
    return 1;
  }
  if (parts[0] == 172 && parts[1] >= 16 && parts[1] <= 31) {
    return 1;
  }
  if (parts[0] >= 224 && parts[0] < 240) {
    return 2;
  }
  return 3;
}
