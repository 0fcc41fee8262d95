/* A letter in two words of Hamming's code of seven bits with four of data, each of which may have one wrong bit. */
#include <stdint.h>

static int corrected;

static int data_of(uint8_t word) {
  int syndrome = 0;
  for (int place = 1; place <= 7; place++) {
    if (word >> (place - 1) & 1) {
      syndrome = syndrome ^ place;
    }
  }
  if (syndrome != 0) {
    corrected++;
    word = (uint8_t) (word ^ 1 << (syndrome - 1));
  }
  return (word >> 2 & 1) | (word >> 4 & 1) << 1 | (word >> 5 & 1) << 2 | (word >> 6 & 1) << 3;
}

int letter(uint8_t first, uint8_t second) {
  corrected = 0;
  if (first > 127 || second > 127) {
    return -1;
  }
  int code = data_of(first) << 4 | data_of(second);
  if (corrected == 2) {
    if (code == 'Z') {
      return 3;
    }
    return -2;
  }
  if (code < ' ') {
    return corrected ? -3 : -4;
  }
  if (code >= 'a' && code <= 'z') {
    return 1;
  }
  if (code > 255) {
    return -5;
  }
  return corrected ? 2 : 0;
}
