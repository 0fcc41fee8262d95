int in(void);
int both(int x) {
  int s = 0;
  if (x == 1) {
    s = in();
  }
  int t = in();
  if (s == 5 && t == 9) {
    return 1;
  }
  return 0;
}
