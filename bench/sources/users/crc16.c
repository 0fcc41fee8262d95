/* A frame of two bytes behind its CRC-16 (CCITT, polynomial 0x1021, initial value 0xFFFF), as a meter sends it. */
#include <stdint.h>

static uint16_t crc_of(uint16_t crc, uint8_t byte) {
  crc = (uint16_t) (crc ^ byte << 8);
  for (int bit = 0; bit < 8; bit++) {
    if (crc & 0x8000) {
      crc = (uint16_t) (crc << 1 ^ 0x1021);
    } else {
      crc = (uint16_t) (crc << 1);
    }
  }
  return crc;
}

int frame(uint16_t crc, uint8_t address, uint8_t function) {
  uint16_t own = crc_of(crc_of(0xFFFF, address), function);
  if (own != crc) {
    return -1;
  }
  if (crc == 0xBEEF) {
    return 5;
  }
  if (address == 0) {
    return function == 6 ? 1 : -2;
  }
  if (address > 247) {
    return -3;
  }
  switch (function) {
  case 3:
  case 4:
    return 2;
  case 6:
    return 3;
  default:
    return function > 127 ? -4 : 4;
  }
}
