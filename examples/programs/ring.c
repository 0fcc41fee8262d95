/* A ring buffer of four bytes between two readers. */
#include <stdint.h>
#include <assert.h>

#define SIZE 4

int next_byte(void);

static uint8_t ring[SIZE];
static unsigned head;
static unsigned count;

static int put(uint8_t byte) {
  if (count == SIZE) {
    return 0;
  }
  ring[(head + count) % SIZE] = byte;
  count++;
  return 1;
}

static int take(void) {
  if (count == 0) {
    return -1;
  }
  int byte = ring[head];
  head = (head + 1) % SIZE;
  count--;
  return byte;
}

int run(int puts, int takes) {
  int dropped = 0;
  for (int i = 0; i < puts; i++) {
    if (!put((uint8_t) next_byte())) {
      dropped++;
    }
  }
  int last = -1;
  for (int i = 0; i < takes; i++) {
    last = take();
  }
  if (dropped > 0 && last == 7) {
    return 2;
  }
  if (last < 0) {
    return 1;
  }
  return 0;
}
