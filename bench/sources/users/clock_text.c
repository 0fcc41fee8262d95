/* A time of day as text, HH:MM or HH:MM:SS with am or pm: seconds since midnight, or how the text is wrong. */
char next_char(void);

static int two_digits(void) {
  char tens = next_char();
  char ones = next_char();
  if (tens < '0' || tens > '9' || ones < '0' || ones > '9') {
    return -1;
  }
  return (tens - '0') * 10 + (ones - '0');
}

int clock(void) {
  int seconds = 0;
  int hours = two_digits();
  if (hours < 0 || hours > 23) {
    return -1;
  }
  if (next_char() != ':') {
    return -2;
  }
  int minutes = two_digits();
  if (minutes < 0 || minutes > 59) {
    return -3;
  }
  char c = next_char();
  if (c == ':') {
    seconds = two_digits();
    if (seconds < 0 || seconds > 60) {
      return -4;
    }
    if (seconds == 60 && (hours != 23 || minutes != 59)) {
      return -5;
    }
    c = next_char();
  }
  if (c == 'a' || c == 'p') {
    if (hours == 0 || hours > 12) {
      return -6;
    }
    if (next_char() != 'm') {
      return -7;
    }
    if (c == 'p' && hours != 12) {
      hours += 12;
    } else if (c == 'a' && hours == 12) {
      hours = 0;
    }
    c = next_char();
  }
  if (c != '\0') {
    return -8;
  }
  int all = hours * 3600 + minutes * 60 + seconds;
  if (all == 86399) {
    return 1;
  }
  if (all > 64800 && minutes % 15 == 0 && seconds == 0) {
    return 2;
  }
  return 0;
}
