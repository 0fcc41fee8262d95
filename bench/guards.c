// Functions of users' kinds: guards against overflow, saturation, ranges, and what is read in a loop. Each is a source of its own.

// saturating add
int f(int a, int b) {
  if (a > 0 && b > 2147483647 - a) {
    return 2147483647;
  }
  if (a < 0 && b < -2147483647 - 1 - a) {
    return -2147483647 - 1;
  }
  return a + b;
}

// wide saturating add
int f(int a, int b) {
  long s = (long)a + (long)b;
  if (s > 0x7fffffffL) {
    return 0x7fffffff;
  }
  if (s < -0x7fffffffL - 1L) {
    return -0x7fffffff - 1;
  }
  return (int)s;
}

// signs of a sum
int f(int a, int b) {
  int s = (int)((unsigned)a + (unsigned)b);
  if (a >= 0 && b >= 0 && s < 0) {
    return 1;
  }
  if (a < 0 && b < 0 && s >= 0) {
    return -1;
  }
  if (a < 0 && b >= 0 && s < 0) {
    return 2;
  }
  return 0;
}

// signs of a difference
int f(int a, int b) {
  int d = (int)((unsigned)a - (unsigned)b);
  if (a >= 0 && b < 0 && d < 0) {
    return 1;
  }
  if (a < 0 && b >= 0 && d >= 0) {
    return 2;
  }
  if (a > b && d < 0) {
    return 3;
  }
  return 0;
}

// signs of a long sum
int f(long a, long b) {
  long s = (long)((unsigned long)a + (unsigned long)b);
  if (a > 0L && b > 0L && s < 0L) {
    return 1;
  }
  if (a < 0L && b < 0L && s >= 0L) {
    return -1;
  }
  return 0;
}

// absolute value
int f(int a, int limit) {
  int v = a;
  if (v < 0) {
    v = -v;
  }
  if (v < 0) {
    return -1;
  }
  if (v > limit && limit > 0) {
    return limit;
  }
  return v;
}

// unsigned carry
int f(unsigned a, unsigned b) {
  unsigned s = a + b;
  if (s < a) {
    return 1;
  }
  if (s == 0u) {
    return 2;
  }
  return 0;
}

// carry of three
int f(unsigned char a, unsigned char b, unsigned char c) {
  unsigned char s = (unsigned char)(a + b);
  unsigned char t;
  int carry = 0;
  if (s < a) {
    carry = carry + 1;
  }
  t = (unsigned char)(s + c);
  if (t < s) {
    carry = carry + 1;
  }
  if (carry == 2) {
    return 9;
  }
  if (t == 255) {
    return 8;
  }
  return carry;
}

// wide product
int f(unsigned a, unsigned b) {
  unsigned p;
  if (a == 0u) {
    return 0;
  }
  p = a * b;
  if (p / a != b) {
    return -1;
  }
  if (p > 1000000u) {
    return 1;
  }
  return 2;
}

// safe division
int f(int a, int b) {
  if (b == 0) {
    return 0;
  }
  if (a == -2147483647 - 1 && b == -1) {
    return 2147483647;
  }
  return a / b;
}

// safe division without names
int f(long a, long b) {
  if (b == 0L) {
    return 0;
  }
  if (b == -1L && a == -a && a != 0L) {
    return 1;
  }
  return 2;
}

// midpoint
int f(int low, int high) {
  int m = low + (high - low) / 2;
  if (low > high) {
    return -1;
  }
  if (m < low) {
    return 1;
  }
  if (m > high) {
    return 2;
  }
  return 0;
}

// clamp
int f(int v, int low, int high) {
  int r = v;
  if (low > high) {
    return 0;
  }
  if (r < low) {
    r = low;
  }
  if (r > high) {
    r = high;
  }
  if (r == low && r != v) {
    return 1;
  }
  if (r == high && r != v) {
    return 2;
  }
  return 3;
}

// clamp of a change
int f(short old, short wanted, short step) {
  int d = wanted - old;
  if (step <= 0) {
    return old;
  }
  if (d > step) {
    return old + step;
  }
  if (d < -step) {
    return old - step;
  }
  if (d > 32767) {
    return 7;
  }
  return wanted;
}

// short change
int f(short old, short wanted) {
  short d = (short)(wanted - old);
  if (wanted > old && d < 0) {
    return 1;
  }
  if (wanted < old && d > 0) {
    return 2;
  }
  return 0;
}

// three mins
int f(int a, int b, int c, int d) {
  int m = a;
  int n = a;
  if (b < m) {
    m = b;
  }
  if (c < m) {
    m = c;
  }
  if (d < m) {
    m = d;
  }
  if (b > n) {
    n = b;
  }
  if (c > n) {
    n = c;
  }
  if (d > n) {
    n = d;
  }
  if (n - m < 0) {
    return -1;
  }
  if (m == d && n == a) {
    return 1;
  }
  return n - m;
}

// range of five
int f(int a, int b, int c, int d, int e) {
  int m = a;
  int n = a;
  if (b < m) {
    m = b;
  }
  if (c < m) {
    m = c;
  }
  if (d < m) {
    m = d;
  }
  if (e < m) {
    m = e;
  }
  if (b > n) {
    n = b;
  }
  if (c > n) {
    n = c;
  }
  if (d > n) {
    n = d;
  }
  if (e > n) {
    n = e;
  }
  if (n > 0 && m < 0 && n - m < 0) {
    return -1;
  }
  if (m == e && n == d) {
    return 1;
  }
  return 0;
}

// timer
int f(unsigned now, unsigned then, unsigned period) {
  unsigned d = now - then;
  if (now < then && d < period) {
    return 1;
  }
  if (d >= period) {
    return 2;
  }
  return 0;
}

// narrow timer
int f(unsigned short now, unsigned short then) {
  unsigned short d = (unsigned short)(now - then);
  if (d > 60000) {
    return 1;
  }
  if (now < then && d < 10) {
    return 2;
  }
  return 0;
}

// sat cast
int f(long v) {
  if (v > 2147483647L) {
    return 2147483647;
  }
  if (v < -2147483648L) {
    return -2147483647 - 1;
  }
  return (int)v;
}

// narrowing
int f(int v, int w) {
  signed char c = (signed char)v;
  short s = (short)w;
  if (c != v && s != w) {
    return 1;
  }
  if (c != v) {
    return 2;
  }
  if (s != w) {
    return 3;
  }
  return 0;
}

// round up
int f(unsigned n, unsigned unit) {
  unsigned r;
  if (unit == 0u) {
    return -1;
  }
  r = (n + unit - 1u) / unit * unit;
  if (r < n) {
    return 1;
  }
  if (r == n) {
    return 2;
  }
  return 0;
}

// length check
int f(unsigned offset, unsigned length, unsigned size) {
  if (offset + length > size) {
    return 1;
  }
  if (offset > size) {
    return 2;
  }
  return 0;
}

// length check of bytes
int f(unsigned char offset, unsigned char length, unsigned char size) {
  unsigned char end = (unsigned char)(offset + length);
  if (end > size) {
    return 1;
  }
  if (offset > size) {
    return 2;
  }
  if (length > size) {
    return 3;
  }
  return 0;
}

// average
int f(int a, int b) {
  int m = (int)((unsigned)a + (unsigned)b) / 2;
  if (a > 0 && b > 0 && m < 0) {
    return 1;
  }
  if (a < m && b < m) {
    return 2;
  }
  if (a > m && b > m) {
    return 3;
  }
  return 0;
}

// pid
int f(int error, int last, int sum) {
  long out = (long)error * 12L + (long)(error - last) * 5L + (long)sum / 4L;
  if (out > 1000L) {
    out = 1000L;
  }
  if (out < -1000L) {
    out = -1000L;
  }
  if (error > 0 && error - last < 0) {
    return 7;
  }
  return (int)out;
}

// hysteresis
int f(int level, int low, int high, int on) {
  if (low >= high) {
    return -1;
  }
  if (on) {
    if (level < low) {
      return 0;
    }
    return 1;
  }
  if (level > high) {
    return 1;
  }
  return 0;
}

// accumulate
int next(void);
int f(int n) {
  int s = 0;
  int i = 0;
  while (i < 4) {
    int v = next();
    if (v > 0 && s > 2147483647 - v) {
      return -1;
    }
    if (v < 0 && s < -2147483647 - 1 - v) {
      return -2;
    }
    s = s + v;
    i = i + 1;
  }
  if (s == n) {
    return 1;
  }
  return 0;
}

// accumulate by sign
int next(void);
int f(int n) {
  int s = 0;
  int i = 0;
  while (i < 4) {
    int v = next();
    int t = (int)((unsigned)s + (unsigned)v);
    if (v > 0 && t < s) {
      return -1;
    }
    if (v < 0 && t > s) {
      return -2;
    }
    s = t;
    i = i + 1;
  }
  if (s > n) {
    return 1;
  }
  return 0;
}

// sensor
short read(void);
int f(int last) {
  int a = read();
  int b = read();
  int c = read();
  int d;
  if (a > b) {
    d = a;
    a = b;
    b = d;
  }
  if (b > c) {
    d = b;
    b = c;
    c = d;
  }
  if (a > b) {
    d = a;
    a = b;
    b = d;
  }
  if (c - a > 40000) {
    return -1;
  }
  if (b - last > 30000) {
    return 1;
  }
  if (last - b > 30000) {
    return 2;
  }
  return b;
}

// byte sum
unsigned char rx(void);
int f(unsigned char want) {
  unsigned char s = 0;
  unsigned char wraps = 0;
  int i = 0;
  while (i < 3) {
    unsigned char b = rx();
    unsigned char t = (unsigned char)(s + b);
    if (t < s) {
      wraps = (unsigned char)(wraps + 1);
    }
    s = t;
    i = i + 1;
  }
  if (wraps == 2) {
    return 2;
  }
  if (s == want && wraps == 1) {
    return 1;
  }
  return 0;
}

// counter
unsigned char tick(void);
int f(unsigned char start) {
  unsigned char c = start;
  int i = 0;
  while (i < 3) {
    if (tick()) {
      c = (unsigned char)(c + 1);
      if (c == 0) {
        return 1;
      }
    }
    i = i + 1;
  }
  if (c > start) {
    return 2;
  }
  return 0;
}

// shift guard
int f(unsigned v, int n) {
  if (n < 0 || n > 31) {
    return -1;
  }
  if (v << n >> n != v) {
    return 1;
  }
  if (n > 24 && v != 0u) {
    return 2;
  }
  return 0;
}

// index guard
int f(int i, int n) {
  int a[8];
  int k = 0;
  for (k = 0; k < 4; k = k + 1) {
    a[k] = k * n;
  }
  if (i < 0 || i >= 4) {
    return -1;
  }
  if (a[i] < 0 && n > 0) {
    return 1;
  }
  if (a[i] > n) {
    return 2;
  }
  return 0;
}

// negate
int f(signed char a, signed char b) {
  signed char n = (signed char)-a;
  if (n == a && a != 0) {
    return 1;
  }
  if (n < 0 && a < 0) {
    return 2;
  }
  if (n < b && b < 0 && a > 0) {
    return 3;
  }
  return 0;
}

// duty
int f(unsigned char duty, unsigned char limit, unsigned char trim) {
  unsigned char d = (unsigned char)(duty + trim);
  if (d < duty) {
    d = 255;
  }
  if (d > limit) {
    d = limit;
  }
  if (d == 255 && limit == 255) {
    return 1;
  }
  if (d == limit) {
    return 2;
  }
  return 0;
}

// window
int f(int t, int begin, int length) {
  int end = begin + length;
  if (length < 0) {
    return -1;
  }
  if (end < begin) {
    return 1;
  }
  if (t >= begin && t < end) {
    return 2;
  }
  return 0;
}

// window of shorts
int f(short t, short begin, short length) {
  short end = (short)(begin + length);
  if (length < 0) {
    return -1;
  }
  if (end < begin) {
    if (t >= begin || t < end) {
      return 1;
    }
    return 2;
  }
  if (t >= begin && t < end) {
    return 3;
  }
  return 0;
}

// sequence numbers
int f(unsigned char got, unsigned char want) {
  signed char d = (signed char)(got - want);
  if (d == 0) {
    return 0;
  }
  if (d > 0) {
    if (got < want) {
      return 3;
    }
    return 1;
  }
  if (got > want) {
    return 4;
  }
  return 2;
}

// long sequence numbers
int f(unsigned got, unsigned want) {
  int d = (int)(got - want);
  if (d == 0) {
    return 0;
  }
  if (d > 0) {
    if (got < want) {
      return 3;
    }
    return 1;
  }
  if (got > want) {
    return 4;
  }
  return 2;
}

// balance
int f(long balance, long amount, long limit) {
  long after = (long)((unsigned long)balance - (unsigned long)amount);
  if (amount < 0L) {
    return -1;
  }
  if (after > balance) {
    return 1;
  }
  if (after < -limit) {
    return 2;
  }
  if (limit < 0L) {
    return 3;
  }
  return 0;
}

// scale
int f(int raw, int gain, int offset) {
  int v = (int)((unsigned)raw * (unsigned)gain) / 100 + offset;
  if (raw > 0 && gain > 0 && v < offset) {
    return 1;
  }
  if (v < 0 && offset >= 0 && raw > 0) {
    return 2;
  }
  return 0;
}

// date
int f(int y, int m, int d) {
  int last = 31;
  if (m < 1 || m > 12 || d < 1) {
    return 0;
  }
  if (m == 4 || m == 6 || m == 9 || m == 11) {
    last = 30;
  }
  if (m == 2) {
    last = 28;
    if (y % 4 == 0 && (y % 100 != 0 || y % 400 == 0)) {
      last = 29;
    }
  }
  if (d > last) {
    return 0;
  }
  if (d == last) {
    return 2;
  }
  return 1;
}

// triangle
int f(int a, int b, int c) {
  if (a <= 0 || b <= 0 || c <= 0) {
    return 0;
  }
  if (a + b <= c || a + c <= b || b + c <= a) {
    return 0;
  }
  if (a == b && b == c) {
    return 3;
  }
  if (a == b || b == c || a == c) {
    return 2;
  }
  return 1;
}

// triangle with overflow
int f(int a, int b, int c) {
  if (a <= 0 || b <= 0 || c <= 0) {
    return 0;
  }
  if (a + b < 0) {
    return 7;
  }
  if (b + c < 0) {
    return 8;
  }
  if (a + c < 0) {
    return 9;
  }
  if (a + b <= c) {
    return 0;
  }
  return 1;
}

// lights
int press(void);
int f(int state) {
  int s = state & 3;
  int i = 0;
  while (i < 4) {
    int p = press();
    if (p == 1) {
      if (s == 3) {
        s = 0;
      } else {
        s = s + 1;
      }
    } else if (p == -1) {
      if (s == 0) {
        s = 3;
      } else {
        s = s - 1;
      }
    }
    i = i + 1;
  }
  if (s == state) {
    return 1;
  }
  return 0;
}

// heap order
int f(int a, int b, int c, int d) {
  if (a >= b && a >= c) {
    if (b >= d) {
      return 2;
    }
    return 1;
  }
  if (a < b && b < c && c < d) {
    return 3;
  }
  return 0;
}

// version
int f(int a, int b, int c, int x, int y, int z) {
  if (a != x) {
    if (a < x) {
      return -1;
    }
    return 1;
  }
  if (b != y) {
    if (b < y) {
      return -1;
    }
    return 1;
  }
  if (c != z) {
    if (c < z) {
      return -1;
    }
    return 1;
  }
  return 0;
}

// compare by difference
int f(int a, int b) {
  int d = (int)((unsigned)a - (unsigned)b);
  if (d < 0 && a > b) {
    return 1;
  }
  if (d > 0 && a < b) {
    return 2;
  }
  if (d == 0) {
    return 3;
  }
  return 0;
}

// sum of four
int f(short a, short b, short c, short d) {
  short s = (short)(a + b);
  short t = (short)(c + d);
  if (a > 0 && b > 0 && s < 0) {
    return 1;
  }
  if (c > 0 && d > 0 && t < 0) {
    return 2;
  }
  if (s > 0 && t > 0 && (short)(s + t) < 0) {
    return 3;
  }
  if (a < 0 && d < 0 && (short)(a + d) > 0) {
    return 4;
  }
  return 0;
}

// high bytes
int f(unsigned a, unsigned b) {
  if (a > b + 100u && b > a + 100u) {
    return 1;
  }
  if (a - b > 4000000000u && b > a) {
    return 2;
  }
  if (b - a > 4000000000u && a > b) {
    return 3;
  }
  return 0;
}

// retry
int send(void);
int f(int limit) {
  int n = 0;
  int r = send();
  while (r < 0 && n < limit && n < 3) {
    n = n + 1;
    r = send();
  }
  if (r < 0) {
    return -1;
  }
  if (n == 3) {
    return 3;
  }
  if (n > 0) {
    return 2;
  }
  return 1;
}

// battery
int adc(void);
int f(int min, int max) {
  int v = adc();
  int span = max - min;
  if (span <= 0) {
    return -1;
  }
  if (v < min) {
    return 0;
  }
  if (v > max) {
    return 100;
  }
  if (v - min > span / 2) {
    return 75;
  }
  return 25;
}

// queue index
int f(unsigned char head, unsigned char tail, unsigned char size) {
  unsigned char used = (unsigned char)(tail - head);
  if (used == size) {
    return 1;
  }
  if (used > size) {
    return 2;
  }
  if (tail < head && used < 4) {
    return 3;
  }
  return 0;
}

// config
int f(int enabled, int mode, int count, int low, int high, int step) {
  int r = 0;
  if (!enabled) {
    return 0;
  }
  if (mode < 0 || mode > 3) {
    return -1;
  }
  if (count - 1 > count) {
    r = r + 1;
  }
  if (high - low < 0 && high > low) {
    r = r + 2;
  }
  if (step < 0 && -step < 0) {
    r = r + 4;
  }
  return r;
}

// six sums
int f(short a, short b, short c, short d, short e, short g) {
  short s = (short)(a + 1);
  if (s < a) {
    return 1;
  }
  s = (short)(b - 1);
  if (s > b) {
    return 2;
  }
  s = (short)(c + 2);
  if (s < c) {
    return 3;
  }
  s = (short)(d - 2);
  if (s > d) {
    return 4;
  }
  s = (short)-e;
  if (s == e && e != 0) {
    return 5;
  }
  s = (short)(g * 2);
  if (g > 0 && s < 0) {
    return 6;
  }
  return 0;
}

// four ints
int f(int a, int b, int c, int d) {
  if (a + 1 < a) {
    return 1;
  }
  if (b - 1 > b) {
    return 2;
  }
  if (c < 0 && -c < 0) {
    return 3;
  }
  if (d > 0 && d + d < 0) {
    return 4;
  }
  return 0;
}

// eight bytes
int f(unsigned char a, unsigned char b, unsigned char c, unsigned char d, unsigned char e, unsigned char g,
      unsigned char h, unsigned char i) {
  int n = 0;
  if ((unsigned char)(a + 1) == 0) {
    n = n + 1;
  }
  if ((unsigned char)(b - 1) > b) {
    n = n + 1;
  }
  if ((unsigned char)(c + d) < c) {
    n = n + 1;
  }
  if ((unsigned char)(e + g) < e && h < 2) {
    n = n + 1;
  }
  if (h > i && (unsigned char)(i + 1) == 0) {
    n = n + 8;
  }
  if (n > 3) {
    return 2;
  }
  if (n > 0) {
    return 1;
  }
  return 0;
}

// next id
unsigned f(unsigned last, unsigned taken, unsigned reserved) {
  unsigned n = last + 1u;
  if (n == 0u) {
    n = 1u;
  }
  if (n == taken) {
    n = n + 1u;
    if (n == 0u) {
      n = 1u;
    }
  }
  if (n == reserved) {
    n = n + 1u;
  }
  return n;
}

// tariff
long f(long base, int units, int rebate) {
  long t;
  if (units < 0) {
    return -1L;
  }
  t = base + (long)units * 3L;
  if (t < base) {
    return -2L;
  }
  if (rebate > 100 || rebate < 0) {
    return t;
  }
  if (t - (long)rebate > t) {
    return -3L;
  }
  return t - (long)rebate;
}

// deadline
int f(long now, long wait, long deadline) {
  long end = now + wait;
  if (wait > 0L && end < now) {
    return 1;
  }
  if (wait < 0L && end > now) {
    return 2;
  }
  if (end > deadline) {
    return 3;
  }
  return 0;
}

// odometer
unsigned pulses(void);
int f(unsigned start) {
  unsigned total = start;
  int wraps = 0;
  int i = 0;
  while (i < 3) {
    unsigned p = pulses();
    if (total + p < total) {
      wraps = wraps + 1;
    }
    total = total + p;
    i = i + 1;
  }
  if (wraps > 1) {
    return 2;
  }
  return wraps;
}

// integrator
short sample(void);
int f(short gain) {
  short acc = 0;
  int i = 0;
  while (i < 4) {
    short v = sample();
    short n = (short)(acc + v);
    if (v > 0 && n < acc) {
      return 1;
    }
    if (v < 0 && n > acc) {
      return 2;
    }
    acc = n;
    i = i + 1;
  }
  if (acc == 0 && gain != 0) {
    return 3;
  }
  return 0;
}

// peak hold
int sample(void);
int f(int decay) {
  int peak = sample();
  int floor = peak;
  int i = 0;
  while (i < 3) {
    int v = sample();
    if (v > peak) {
      peak = v;
    } else if (v < floor) {
      floor = v;
    }
    i = i + 1;
  }
  if (peak - floor < 0) {
    return -1;
  }
  if (peak - decay > peak) {
    return -2;
  }
  return peak;
}

// message
unsigned char rx(void);
int f(void) {
  int length;
  int sum = 0;
  int i = 0;
  if (rx() != 0x7e) {
    return -1;
  }
  length = rx();
  if (length > 4) {
    return -2;
  }
  while (i < length) {
    sum = sum + rx();
    i = i + 1;
  }
  if (rx() != (sum & 255)) {
    return -3;
  }
  if (sum > 255) {
    return 2;
  }
  return 1;
}

// keypad
int key(void);
int f(int pin) {
  int i = 0;
  int bad = 0;
  while (i < 3) {
    int k = key();
    if (k < 0 || k > 9) {
      return -1;
    }
    if (k != pin % 10) {
      bad = bad + 1;
    }
    pin = pin / 10;
    i = i + 1;
  }
  if (bad == 0) {
    return 1;
  }
  if (bad == 3) {
    return 3;
  }
  return 0;
}

// gear
int speed(void);
int f(int gear) {
  int s = speed();
  int g = gear;
  if (g < 1) {
    g = 1;
  }
  if (g > 5) {
    g = 5;
  }
  if (s > g * 30 && g < 5) {
    g = g + 1;
  } else if (s < (g - 1) * 20 && g > 1) {
    g = g - 1;
  }
  if (s < 0) {
    return -1;
  }
  if (g == gear && s > 200) {
    return 9;
  }
  return g;
}

// pool of blocks
int f(unsigned size, unsigned count, unsigned room) {
  unsigned bytes;
  if (size == 0u || count == 0u) {
    return 0;
  }
  bytes = size * count;
  if (bytes / count != size) {
    return -1;
  }
  if (bytes > room) {
    return -2;
  }
  if (bytes == room) {
    return 2;
  }
  return 1;
}

// alignment
int f(unsigned long address, unsigned long align) {
  unsigned long up;
  if (align == 0UL || (align & (align - 1UL)) != 0UL) {
    return -1;
  }
  up = (address + align - 1UL) & ~(align - 1UL);
  if (up < address) {
    return -2;
  }
  if (up == address) {
    return 1;
  }
  return 0;
}

// percent
int f(int part, int whole) {
  int p;
  if (whole <= 0 || part < 0) {
    return -1;
  }
  p = part * 100 / whole;
  if (p < 0) {
    return -2;
  }
  if (p == 100) {
    return 2;
  }
  return 1;
}

// rgb
int f(int r, int g, int b) {
  int m;
  if (r < 0 || r > 255 || g < 0 || g > 255 || b < 0 || b > 255) {
    return -1;
  }
  m = r;
  if (g > m) {
    m = g;
  }
  if (b > m) {
    m = b;
  }
  if (m == 255 && r == 0 && g == 255) {
    return 2;
  }
  if (r == g && g == b) {
    return 1;
  }
  if (m == b && b == 255 && r + g == 0) {
    return 3;
  }
  return 0;
}

// stack depth
int f(int depth, int limit, int frame, int guard) {
  int need = depth * frame;
  if (depth < 0 || frame < 0) {
    return -1;
  }
  if (need + guard < need) {
    return 2;
  }
  if (need + guard > limit) {
    return 1;
  }
  return 0;
}

// date difference
int f(int a, int b, int zone) {
  long d = (long)a - (long)b;
  if (d > 2147483647L) {
    return 1;
  }
  if (d < -2147483647L - 1L) {
    return 2;
  }
  if (zone < -12 || zone > 14) {
    return 3;
  }
  if ((int)d + zone < (int)d && zone > 0) {
    return 4;
  }
  return 0;
}

// motor
int f(int target, int actual, int kp, int limit) {
  long u = ((long)target - (long)actual) * (long)kp;
  if (limit < 0) {
    return -1;
  }
  if (u > (long)limit) {
    return limit;
  }
  if (u < -(long)limit) {
    return -limit;
  }
  if (u == 0L && kp != 0 && target == limit) {
    return 5;
  }
  return (int)u;
}

// fifo
unsigned char get(void);
int f(unsigned char head, unsigned char tail) {
  int n = 0;
  while (n < 3) {
    unsigned char c = get();
    if (c == 0) {
      tail = (unsigned char)(tail + 1);
    } else {
      head = (unsigned char)(head + 1);
    }
    if (head == tail) {
      return n;
    }
    if (head == 0) {
      return 10;
    }
    n = n + 1;
  }
  return -1;
}

// log2
int f(unsigned v) {
  int n = 0;
  if (v == 0u) {
    return -1;
  }
  if (v >= 65536u) {
    v = v >> 16;
    n = n + 16;
  }
  if (v >= 256u) {
    v = v >> 8;
    n = n + 8;
  }
  if (v >= 16u) {
    v = v >> 4;
    n = n + 4;
  }
  if (v >= 4u) {
    v = v >> 2;
    n = n + 2;
  }
  if (v >= 2u) {
    n = n + 1;
  }
  if (n == 31) {
    return 31;
  }
  return n;
}

// sorted four
int f(int a, int b, int c, int d) {
  if (a < b) {
    if (b < c) {
      if (c < d) {
        return 1;
      }
      if (c == d) {
        return 2;
      }
    } else if (b == c && c > d) {
      return 3;
    }
  } else if (a == b && b == c && c == d) {
    return 4;
  } else if (a > b && b > c && c > d) {
    return 5;
  }
  return 0;
}

// lru
int use(void);
int f(int a, int b, int c) {
  int i = 0;
  while (i < 3) {
    int u = use();
    if (u == c) {
      int t = b;
      b = c;
      c = t;
    } else if (u == b) {
      int t = a;
      a = b;
      b = t;
    } else if (u != a) {
      c = u;
    }
    i = i + 1;
  }
  if (a == b && b != c) {
    return 1;
  }
  if (a > b && b > c) {
    return 2;
  }
  return 0;
}

// commands
int cmd(void);
int f(int start) {
  int x = start & 7;
  int i = 0;
  while (i < 4) {
    int c = cmd();
    if (c == 'u') {
      x = x + 1;
    } else if (c == 'd') {
      x = x - 1;
    } else if (c == 'r') {
      x = 0;
    } else if (c == 'q') {
      break;
    }
    i = i + 1;
  }
  if (x < 0) {
    return -1;
  }
  if (x > 7) {
    return 1;
  }
  if (x == 7 && i == 4) {
    return 2;
  }
  return 0;
}

// two answers
int a(void);
int b(void);
int f(int n) {
  int x = a();
  int y = b();
  int z = a();
  if (x + y < x && y > 0) {
    return 1;
  }
  if (x - z > x && z > 0) {
    return 2;
  }
  if (y == z && x != y && n < x) {
    return 3;
  }
  if (-y == y && y != 0) {
    return 4;
  }
  return 0;
}

// ramp
int f(int now, int goal, int up, int down) {
  if (up <= 0 || down <= 0) {
    return now;
  }
  if (goal > now) {
    if (goal - now < 0) {
      return now + up;
    }
    if (goal - now <= up) {
      return goal;
    }
    return now + up;
  }
  if (now - goal <= down) {
    return goal;
  }
  return now - down;
}

// moving sum
int f(int a, int b, int c, int d, int e) {
  int s = a + b + c + d;
  int t = s - a + e;
  if (s < 0 && a > 0 && b >= 0 && c >= 0 && d >= 0) {
    return 1;
  }
  if (t < s && e > a) {
    return 2;
  }
  if (t == s && a != 0) {
    return 3;
  }
  return 0;
}

// checked increments
int f(int a, int b, long c, unsigned char d) {
  int n = 0;
  if (a > a + 1) {
    n = n + 1;
  }
  if (b < b - 1) {
    n = n + 2;
  }
  if (c > c + 1L) {
    n = n + 4;
  }
  if (d > (unsigned char)(d + 1)) {
    n = n + 8;
  }
  if (n == 8 || n == 4) {
    return 1;
  }
  if (n == 1 && b == 1) {
    return 2;
  }
  if (n == 2 && a == 0) {
    return 3;
  }
  return n;
}

// quota
int f(unsigned used, unsigned asked, unsigned quota, int strict) {
  if (used > quota) {
    return -1;
  }
  if (asked > quota - used) {
    if (strict == 1) {
      return -2;
    }
    if (used + asked < used) {
      return -3;
    }
    return 1;
  }
  if (asked == quota - used && asked != 0u) {
    return 2;
  }
  return 0;
}
