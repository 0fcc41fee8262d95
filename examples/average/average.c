int average(int last) {
  int sum = 0;
  int i = 0;
  while (i < last) {
    i = i + 1;
    sum = sum + i;
  }
  return quotient(sum, i);
}
