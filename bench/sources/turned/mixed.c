/* The end of a hash (the finaliser of MurmurHash3, public domain): products by odd numbers and shifts, which can be turned round. */
#include <stdint.h>

static uint32_t mixed(uint32_t h) {
  h ^= h >> 16;
  h *= 0x85EBCA6Bu;
  h ^= h >> 13;
  h *= 0xC2B2AE35u;
  h ^= h >> 16;
  return h;
}

int slot(uint32_t key) {
  uint32_t h = mixed(key);
  if (h == 0x12345678u) {
    return 1;
  }
  if (h == key && key != 0) {
    return 2;
  }
  return (h & 1023) == 77 ? 3 : 0;
}
