int parts[4] = {1, 2, 4, 8};

int share(int total, int people) {
  int weight = 0;
  for (int i = 0; i < 4; i++) {
    weight += parts[i];
  }
  if (people <= 0) {
    return -1;
  }
  return total / people * weight;
}
