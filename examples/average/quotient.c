int quotient(int sum, int count) {
  if (count < 0) {
    return -1;
  }
  return sum / count;
}
