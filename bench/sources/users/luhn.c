/* A card's number of eight digits: Luhn's checksum (ISO/IEC 7812-1), and who issues it. */
#include <stdint.h>

uint8_t next_digit(void);

int card(void) {
  int sum = 0;
  int issuer = 0;
  int equal = 1;
  int first = -1;
  for (int i = 0; i < 8; i++) {
    int digit = next_digit();
    if (digit > 9) {
      return -1;
    }
    if (first < 0) {
      first = digit;
    } else if (digit != first) {
      equal = 0;
    }
    if (i < 2) {
      issuer = issuer * 10 + digit;
    }
    if (i % 2 == 0) {
      digit = digit * 2;
      if (digit > 9) {
        digit -= 9;
      }
    }
    sum += digit;
  }
  if (sum % 10 != 0) {
    return -2;
  }
  if (equal) {
    return -3;
  }
  if (issuer / 10 == 4) {
    return 1;
  }
  if (issuer >= 51 && issuer <= 55) {
    return 2;
  }
  if (issuer == 34 || issuer == 37) {
    return 3;
  }
  return 0;
}
