int pick(int x, int y, int z) {
  if (x ? y : z) {
    return 1;
  }
  return 0;
}
