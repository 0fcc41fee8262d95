/* A binary search in a sorted table. */
static const int table[8] = {2, 3, 5, 7, 11, 13, 17, 19};

int place(int wanted) {
  int low = 0;
  int high = 8;
  while (low < high) {
    int middle = (low + high) / 2;
    if (table[middle] == wanted) {
      return middle;
    }
    if (table[middle] < wanted) {
      low = middle + 1;
    } else {
      high = middle;
    }
  }
  return -1;
}
