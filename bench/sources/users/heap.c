/* A queue of tasks by priority in an array of five: put in and taken out by a heap. */
#include <stdint.h>

int8_t next_task(void);

static int8_t heap[5];
static int size;

static void put(int8_t task) {
  int at = size;
  size++;
  while (at > 0 && heap[(at - 1) / 2] < task) {
    heap[at] = heap[(at - 1) / 2];
    at = (at - 1) / 2;
  }
  heap[at] = task;
}

static int8_t take(void) {
  int8_t top = heap[0];
  size--;
  int8_t task = heap[size];
  int at = 0;
  while (2 * at + 1 < size) {
    int child = 2 * at + 1;
    if (child + 1 < size && heap[child + 1] > heap[child]) {
      child++;
    }
    if (heap[child] <= task) {
      break;
    }
    heap[at] = heap[child];
    at = child;
  }
  heap[at] = task;
  return top;
}

int schedule(void) {
  int last = 127;
  size = 0;
  for (int i = 0; i < 5; i++) {
    int8_t task = next_task();
    if (task < 0) {
      if (size == 0) {
        return -1;
      }
      if (take() == 99) {
        return 2;
      }
    } else {
      put(task);
    }
  }
  if (size == 4) {
    int8_t first = take();
    int8_t second = take();
    if (second > first) {
      return -2;
    }
    last = first - second;
  }
  return last == 7;
}
