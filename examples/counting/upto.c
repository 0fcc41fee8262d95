int upto(int n) {
  assume(n <= 4);
  int i = 0;
  while (i < n) {
    i = i + 1;
  }
  return i;
}
