/* A gauge with operations of four verdicts of fshell rte; what stands behind a line is the verdict of its operations. */
#define WIDTH 32

static const int curve[4] = {3, 9, 27, 81};
static int log_of[8];

/* What the level means, by the curve. It is called where the order of evaluation matters, so by
   another order than FShell's it may be called where it fails. */
int smoothed(unsigned char level) {
  int low = curve[level & 3]; /* open */
  int high = curve[3 - (level & 3)]; /* open */
  int step = high / (low + 1); /* open */
  int rest = high % (low + 2); /* open */
  int fine = step << (level & 7); /* open */
  int coarse = rest >> (level & 15); /* open */
  assert(low > 0); /* open */
  return fine + coarse + log_of[level & 7]; /* open */
}

/* What a reading costs, where the settings are as they should be: nothing here ever fails. */
int sure(unsigned char raw, unsigned char gain) {
  int sum = raw / (gain + 1); /* never */
  sum += raw % (gain + 1); /* never */
  sum += curve[raw & 3]; /* never */
  sum += 1 << (raw & 15); /* never */
  sum = sum >> (gain & 31); /* never */
  assert(sum >= 0); /* never */
  if (gain > 0) {
    sum += 100 / gain; /* never */
  }
  for (int i = 0; i < 4; i++) {
    sum += curve[i]; /* never */
  }
  return sum;
}

/* What comes of settings that nobody looked at. */
int careless(unsigned char raw, unsigned char gain) {
  int sum = 0;
  if (raw == 1) {
    sum = 100 / gain; /* fails */
  }
  if (raw == 3 && gain <= 4) {
    sum = curve[gain]; /* fails */
  }
  if (raw == 4) {
    log_of[gain & 15] = raw; /* fails */
  }
  if (raw == 5 && gain <= WIDTH) {
    sum = 1 << gain; /* fails */
  }
  if (raw == 6) {
    sum = 1000 >> (gain - 1); /* fails */
  }
  if (raw == 7) {
    assert(gain != 200); /* fails */
  }
  return sum;
}

/* A mode that no reading has. */
int dead(unsigned char raw, unsigned char gain) {
  int sum = 0;
  if (raw > 10 && raw < 5) {
    sum = 7 / gain; /* not reached */
    sum += 7 % gain; /* not reached */
    sum += curve[gain]; /* not reached */
    log_of[raw] = sum; /* not reached */
    sum += 1 << gain; /* not reached */
    sum += sum >> raw; /* not reached */
    assert(sum > raw); /* not reached */
    sum = sum / (raw - 1); /* not reached */
  }
  return sum;
}

static int low(unsigned char bits) {
  return bits & 3;
}

int gauge(unsigned char raw, unsigned char gain) {
  int sum = sure(raw, gain);
  sum += careless(raw, gain);
  sum += dead(raw, gain);
  if (raw == 200) {
    /* where gain is 9 the division fails, and whether smoothed has been called by then is open in C */
    sum += 64 / (gain - 9) + smoothed(raw); /* fails */
  }
  if (raw == 100) {
    /* one step with nine operations, of which the remainder fails; what calls give has no name by which the others could
       be told apart from it */
    sum += 1000 % (gain - 20) /* fails */
           + curve[low(gain)] + curve[low(raw)] + log_of[low(gain)] + log_of[low(raw)] /* open */
           + (sum >> low(gain)) + (sum << low(raw)) + (raw >> low(raw)) + (gain << low(gain)); /* open */
  }
  return sum;
}
