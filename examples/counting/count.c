int count(int n) {
  int i = 0;
  while (i < n) {
    i = i + 1;
  }
  if (i == 3) {
    return 1;
  }
  return 0;
}
