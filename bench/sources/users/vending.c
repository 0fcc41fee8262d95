/* A machine that sells two goods for coins, and gives change while it has coins. */
#include <stdint.h>

uint8_t next_key(void);

static int credit;
static int tens;
static int stock;

static int change(void) {
  while (credit >= 10 && tens > 0) {
    credit -= 10;
    tens--;
  }
  return credit == 0;
}

int session(int first_tens, int first_stock) {
  int sold = 0;
  if (first_tens < 0 || first_tens > 8 || first_stock < 0 || first_stock > 2) {
    return -1;
  }
  credit = 0;
  tens = first_tens;
  stock = first_stock;
  for (int i = 0; i < 5; i++) {
    uint8_t key = next_key();
    if (key == 10 || key == 50) {
      if (credit + key > 200) {
        return -2;
      }
      credit += key;
      if (key == 10) {
        tens++;
      }
    } else if (key == 'a' || key == 'b') {
      int price = key == 'a' ? 60 : 110;
      if (credit < price) {
        continue;
      }
      if (stock == 0) {
        return -3;
      }
      stock--;
      sold++;
      credit -= price;
    } else if (key == 'r') {
      break;
    } else {
      return -4;
    }
  }
  if (!change()) {
    return -5;
  }
  if (sold == 2 && tens == 0) {
    return 2;
  }
  return sold > 0;
}
