/* A date of the Gregorian calendar: its day of the week by Zeller's congruence, and some days that are meant. */
#include <stdint.h>

static int is_leap(int year) {
  return (year % 4 == 0 && year % 100 != 0) || year % 400 == 0;
}

static int days_in(int month, int year) {
  switch (month) {
  case 2:
    return is_leap(year) ? 29 : 28;
  case 4:
  case 6:
  case 9:
  case 11:
    return 30;
  default:
    return 31;
  }
}

int weekday(int year, int month, int day) {
  if (year < 1583 || year > 4000) {
    return -1;
  }
  if (month < 1 || month > 12) {
    return -2;
  }
  if (day < 1 || day > days_in(month, year)) {
    return -3;
  }
  int shifted = month;
  int century_year = year;
  if (month < 3) {
    shifted += 12;
    century_year--;
  }
  int in_century = century_year % 100;
  int century = century_year / 100;
  int week = (day + 13 * (shifted + 1) / 5 + in_century + in_century / 4 + century / 4 + 5 * century) % 7;
  if (day == 13 && week == 6) {
    return month == 2 ? 11 : 10;
  }
  if (month == 2 && day == 29) {
    return week == 0 ? 13 : 12;
  }
  if (week == 1 && day <= 7 && year % 100 == 0) {
    return 14;
  }
  return week;
}
