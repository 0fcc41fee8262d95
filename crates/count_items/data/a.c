int f(int x) {
  if (x > 10) {
    return 1;
  }
  return 0;
}
