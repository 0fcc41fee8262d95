/* The least and the greatest of the last four samples, and whether they differ by too much. */
#define LENGTH 4

int sample(void);

int steady(int limit) {
  int kept[LENGTH];
  for (int i = 0; i < LENGTH; i++) {
    kept[i] = sample();
  }
  int least = kept[0];
  int greatest = kept[0];
  for (int i = 1; i < LENGTH; i++) {
    if (kept[i] < least) {
      least = kept[i];
    }
    if (kept[i] > greatest) {
      greatest = kept[i];
    }
  }
  if (least < -1000 || greatest > 1000) {
    return -1;
  }
  return greatest - least <= limit;
}
