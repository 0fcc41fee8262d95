/* Models of qsort and bsearch (7.22.5). Each is written anew for each call: `element` is the type of what the call's pointer leads to, and
   the size is that of it. Sorting is by insertion, so that equal elements keep their order, as glibc's mostly do; C leaves it open
   (7.22.5.2p4), and which of several equal elements bsearch finds (7.22.5.1p4). No object has more than 32,768 elements, and one of all these isn't sorted; `short` keeps indexes light. */

typedef int element;
void assert(int);

void qsort(void *base, unsigned long n, unsigned long size, int (*compare)(const void *, const void *)) {
  element *all = (element *) base;
  short i = 1;
  assert(n < 32768);
  for (; i < (short) n; i++) {
    short j = i;
    for (; j > 0; j--) {
      int order = compare(all + (short) (j - 1), all + j);
      if (order <= 0) { break; }
      element old = all[j];
      all[j] = all[(short) (j - 1)];
      all[(short) (j - 1)] = old;
    }
  }
}
void *bsearch(const void *key, const void *base, unsigned long n, unsigned long size, int (*compare)(const void *, const void *)) {
  const element *all = (const element *) base;
  short low = 0, high = n;
  assert(n < 32768);
  while (low < high) {
    short at = (low + high) >> 1;
    int order = compare(key, all + at);
    if (order == 0) { return (void *) (all + at); }
    if (order < 0) { high = at; } else { low = at + 1; }
  }
  return 0;
}
