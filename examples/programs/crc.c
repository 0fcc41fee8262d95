/* A frame of three bytes whose last one is the CRC-8 of the others (polynomial 0x07). */
#include <stdint.h>

uint8_t next_byte(void);

static uint8_t crc_of(uint8_t crc, uint8_t byte) {
  crc = (uint8_t) (crc ^ byte);
  for (int bit = 0; bit < 8; bit++) {
    if (crc & 0x80) {
      crc = (uint8_t) ((crc << 1) ^ 0x07);
    } else {
      crc = (uint8_t) (crc << 1);
    }
  }
  return crc;
}

int frame(void) {
  uint8_t crc = 0;
  uint8_t address = next_byte();
  crc = crc_of(crc, address);
  uint8_t command = next_byte();
  crc = crc_of(crc, command);
  if (next_byte() != crc) {
    return -1;
  }
  if (address != 0x11) {
    return 0;
  }
  if (command == 0x42) {
    return 2;
  }
  return 1;
}
