/* control as the system calls it: a target in tenths of a degree, and at most four ticks. */
int control_of_four(int16_t target, int ticks) {
  assume(target >= 50 && target <= 300);
  assume(ticks >= 0 && ticks <= 4);
  return control(target, ticks);
}
