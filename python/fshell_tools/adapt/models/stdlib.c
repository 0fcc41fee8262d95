/* Models of stdlib.h (7.22) and of the functions of string.h that aren't in string.c. One with pointers is written anew for
   each call, so that its pointers meet what that call hands over alone. */

int abs(int x) { return x < 0 ? -x : x; }
long labs(long x) { return x < 0 ? -x : x; }
long long llabs(long long x) { return x < 0 ? -x : x; }
void abort(void) { assert(0); }
long atol(const char *s) {
  long n = 0;
  int minus = 0, i = 0;
  while (s[i] == ' ' || (s[i] >= 9 && s[i] <= 13)) { i++; }
  if (s[i] == '-' || s[i] == '+') { minus = s[i] == '-'; i++; }
  while (s[i] >= '0' && s[i] <= '9') { n = minus ? n * 10 - (s[i] - '0') : n * 10 + (s[i] - '0'); i++; }
  return n;
}
int atoi(const char *s) { return atol(s); }
long long atoll(const char *s) { return atol(s); }
unsigned long strnlen(const char *s, unsigned long n) {
  unsigned long i = 0;
  while (i < n && s[i] != 0) { i++; }
  return i;
}
char *strncat(char *to, const char *from, unsigned long n) {
  int j = 0, i = 0;
  while (to[j] != 0) { j++; }
  while (i < n && from[i] != 0) { to[j] = from[i]; i++; j++; }
  to[j] = 0;
  return to;
}
unsigned long strspn(const char *s, const char *set) {
  int i = 0;
  while (s[i] != 0) {
    int k = 0;
    while (set[k] != 0 && set[k] != s[i]) { k++; }
    if (set[k] == 0) { break; }
    i++;
  }
  return i;
}
unsigned long strcspn(const char *s, const char *set) {
  int i = 0;
  while (s[i] != 0) {
    int k = 0;
    while (set[k] != 0 && set[k] != s[i]) { k++; }
    if (set[k] != 0) { break; }
    i++;
  }
  return i;
}
char *strpbrk(const char *s, const char *set) {
  int i = 0;
  while (s[i] != 0) {
    int k = 0;
    while (set[k] != 0 && set[k] != s[i]) { k++; }
    if (set[k] != 0) { return (char *) s + i; }
    i++;
  }
  return 0;
}
char *strstr(const char *s, const char *part) {
  int i = 0;
  for (;;) {
    int k = 0;
    while (part[k] != 0 && s[i + k] == part[k]) { k++; }
    if (part[k] == 0) { return (char *) s + i; }
    if (s[i + k] == 0) { return 0; }
    i++;
  }
}
int strcasecmp(const char *a, const char *b) {
  int i = 0;
  for (;;) {
    int x = (unsigned char) a[i], y = (unsigned char) b[i];
    x += ((x >= 'A') & (x <= 'Z')) << 5;
    y += ((y >= 'A') & (y <= 'Z')) << 5;
    if (x != y || x == 0) { return x - y; }
    i++;
  }
}
int strncasecmp(const char *a, const char *b, unsigned long n) {
  int i = 0;
  while (i < n) {
    int x = (unsigned char) a[i], y = (unsigned char) b[i];
    x += ((x >= 'A') & (x <= 'Z')) << 5;
    y += ((y >= 'A') & (y <= 'Z')) << 5;
    if (x != y || x == 0) { return x - y; }
    i++;
  }
  return 0;
}
char *stpcpy(char *to, const char *from) {
  int i = 0;
  while (from[i] != 0) { to[i] = from[i]; i++; }
  to[i] = 0;
  return to + i;
}
char *strdup(const char *s) {
  unsigned long n = 0;
  char *made;
  while (s[n] != 0) { n++; }
  made = malloc(n + 1);
  if (made != 0) {
    unsigned long i = 0;
    for (; i < n; i++) { made[i] = s[i]; }
    made[n] = 0;
  }
  return made;
}
