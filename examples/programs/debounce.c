/* A key counts as pressed once four samples in a row say so, and as released likewise. */
int sample(void);

int presses(int samples) {
  int pressed = 0;
  int run = 0;
  int count = 0;
  for (int i = 0; i < samples; i++) {
    int level = sample() != 0;
    if (level == pressed) {
      run = 0;
      continue;
    }
    run++;
    if (run == 4) {
      pressed = level;
      run = 0;
      if (pressed) {
        count++;
      }
    }
  }
  return count;
}
