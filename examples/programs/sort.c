/* An insertion sort of three numbers, and what its callers rely on. */
#include <assert.h>

static int sorted[3];

int middle(int a, int b, int c) {
  sorted[0] = a;
  sorted[1] = b;
  sorted[2] = c;
  for (int i = 1; i < 3; i++) {
    int value = sorted[i];
    int j = i;
    while (j > 0 && sorted[j - 1] > value) {
      sorted[j] = sorted[j - 1];
      j--;
    }
    sorted[j] = value;
  }
  assert(sorted[0] <= sorted[1]);
  assert(sorted[1] <= sorted[2]);
  return sorted[1];
}
