/* A key of three bytes by the hash FNV-1a of 32 bits, whose slot is full. */
#include <stdint.h>

int slot(uint8_t a, uint8_t b, uint8_t c) {
  uint32_t hash = 2166136261u;
  hash = (hash ^ a) * 16777619u;
  hash = (hash ^ b) * 16777619u;
  hash = (hash ^ c) * 16777619u;
  if (hash >> 24 == 0x5A && (hash & 0xFF) == 0xA5) {
    return 1;
  }
  if (hash == 0) {
    return 2;
  }
  return 0;
}
