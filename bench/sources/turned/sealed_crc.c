/* A block of four bytes that must have a given CRC-32 (IEEE 802.3), as a boot loader asks for; the CRC can be turned round. */
#include <stdint.h>

int boot(uint32_t block) {
  uint32_t crc = 0xFFFFFFFFu;
  for (int byte = 0; byte < 4; byte++) {
    crc ^= block >> (8 * byte) & 0xFFu;
    for (int bit = 0; bit < 8; bit++) {
      if (crc & 1u) {
        crc = crc >> 1 ^ 0xEDB88320u;
      } else {
        crc = crc >> 1;
      }
    }
  }
  if (crc == 0xDEADBEEFu) {
    return 1;
  }
  if (crc == ~block) {
    return 2;
  }
  return 0;
}
