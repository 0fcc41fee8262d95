int clamp(int x, int low, int high) {
  int y = x;
  if (x < low) { y = low; }
  if (y > high) { y = high; }
  assert(low <= y);
  return y;
}
