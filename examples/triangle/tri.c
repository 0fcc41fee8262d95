#include <stdint.h>
#include <assert.h>

#define SIZE 4
#define BAD 0

enum { SCALENE = 1, ISOSCELES, EQUILATERAL };

int next_side(void);

static uint8_t ring[SIZE];
static unsigned head;
static unsigned count;

/* Store one side, dropping it when the ring is full. */
static int put(uint8_t v) {
  if (count == SIZE) {
    return 0;
  }
  ring[(head + count) % SIZE] = v;
  count++;
  return 1;
}

static uint8_t take(void) {
  assert(count > 0);
  uint8_t v = ring[head];
  head = (head + 1) % SIZE;
  count--;
  return v;
}

int classify(int a, int b, int c) {
  if (a <= 0 || b <= 0 || c <= 0) {
    return BAD;
  }
  if (a + b <= c || b + c <= a || a + c <= b) {
    return BAD;
  }
  if (a == b && b == c) {
    return EQUILATERAL;
  }
  if (a == b || b == c || a == c) {
    return ISOSCELES;
  }
  return SCALENE;
}

int main_loop(int n) {
  for (int i = 0; i < n; i++) {
    put((uint8_t) next_side());
  }
  if (count < 3) {
    return BAD;
  }
  int a = take();
  int b = take();
  int c = take();
  return classify(a, b, c);
}
