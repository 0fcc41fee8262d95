int f(int x) {
  if (x > 10 && x < 5) {
    return 1;
  }
  return 0;
}
