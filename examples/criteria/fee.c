/* What a parcel costs: by its weight, by the days that it was kept, and by whether it goes as express. */
static int by_weight(int grams) {
  if (grams > 1000) {
    return 9;
  }
  return 5;
}

int fee(int grams, int days, int express) {
  if (grams <= 0 || days < 0) {
    return -1;
  }
  int sum = by_weight(grams);
  for (int i = 0; i < days; i++) {
    sum = sum + 1;
  }
  if (express) {
    sum = sum * 2;
  }
  assert(sum <= 40);
  return sum;
}
