/* Days between two dates of a contract, by day numbers; when it can be given notice. */
#include <stdint.h>

static int32_t number_of(int32_t year, int32_t month, int32_t day) {
  int32_t y = month > 2 ? year : year - 1;
  int32_t m = month > 2 ? month - 3 : month + 9;
  return 365 * y + y / 4 - y / 100 + y / 400 + (153 * m + 2) / 5 + day;
}

int notice(uint16_t first_year, uint8_t first_month, uint8_t first_day, uint16_t year, uint8_t month, uint8_t day) {
  if (first_year < 1990 || first_year > 2100 || year < 1990 || year > 2100) {
    return -1;
  }
  if (first_month < 1 || first_month > 12 || month < 1 || month > 12) {
    return -2;
  }
  if (first_day < 1 || first_day > 28 || day < 1 || day > 28) {
    return -3;
  }
  int32_t days = number_of(year, month, day) - number_of(first_year, first_month, first_day);
  if (days < 0) {
    return -4;
  }
  if (days < 14) {
    return 1;
  }
  if (days == 1000) {
    return first_month == month ? 5 : 4;
  }
  if (days > 365 * 10 + 3) {
    if (first_day == day && first_month == month) {
      return 3;
    }
    return 2;
  }
  return 0;
}
