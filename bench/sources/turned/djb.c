/* A word of five letters whose hash (Bernstein's, times 33) is a given one, as a table of commands has it. */
#include <stdint.h>

char next_char(void);

int command(void) {
  uint32_t hash = 5381;
  for (int i = 0; i < 5; i++) {
    char c = next_char();
    if (c < 'a' || c > 'z') {
      return -1;
    }
    hash = hash * 33 + (uint32_t) c;
  }
  if (hash == 261238937u) {
    return 1;
  }
  if (hash % 1024 == 7) {
    return 2;
  }
  return 0;
}
