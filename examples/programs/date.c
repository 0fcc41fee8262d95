/* The number of a day within its year, or 0 where there is no such day (Gregorian rule). */
static int is_leap(int year) {
  return (year % 4 == 0 && year % 100 != 0) || year % 400 == 0;
}

static int days_of(int month, int year) {
  switch (month) {
    case 2:
      return is_leap(year) ? 29 : 28;
    case 4:
    case 6:
    case 9:
    case 11:
      return 30;
    default:
      return 31;
  }
}

int day_of_year(int day, int month, int year) {
  if (year < 1583 || year > 9999 || month < 1 || month > 12) {
    return 0;
  }
  if (day < 1 || day > days_of(month, year)) {
    return 0;
  }
  int number = day;
  for (int m = 1; m < month; m++) {
    number += days_of(m, year);
  }
  return number;
}
