/* Models of the library's functions on memory and strings (7.24), which a person may read and replace. Each is written once
   for each pair of columns that its calls meet; a[..] and b[..] are elements there, whose index is checked. `int` in place of a
   pointer's index, and NULL, are as in what is written. A run past an object ends it as any other access does. */

void *memcpy(void *a, const void *b, size_t n) { for (int i = 0; i < n; i++) { a[i] = b[i]; } return a; }
void *memmove(void *a, const void *b, size_t n) { if (a <= b) { for (int i = 0; i < n; i++) { a[i] = b[i]; } } else { for (int i = n; i > 0; i--) { a[i - 1] = b[i - 1]; } } return a; }
void *memset(void *a, int c, size_t n) { for (int i = 0; i < n; i++) { a[i] = c; } return a; }
int memcmp(const void *a, const void *b, size_t n) { for (int i = 0; i < n; i++) { if ((unsigned char) a[i] != (unsigned char) b[i]) { return (unsigned char) a[i] - (unsigned char) b[i]; } } return 0; }
void *memchr(const void *a, int c, size_t n) { for (int i = 0; i < n; i++) { if ((unsigned char) a[i] == (unsigned char) c) { return a + i; } } return NULL; }
size_t strlen(const char *a) { int i = 0; while (a[i] != 0) { i++; } return i; }
char *strcpy(char *a, const char *b) { int i = 0; while (b[i] != 0) { a[i] = b[i]; i++; } a[i] = 0; return a; }
char *strncpy(char *a, const char *b, size_t n) { int i = 0; for (; i < n; i++) { if (b[i] == 0) { break; } a[i] = b[i]; } for (; i < n; i++) { a[i] = 0; } return a; }
char *strcat(char *a, const char *b) { int j = 0; while (a[j] != 0) { j++; } int i = 0; while (b[i] != 0) { a[j] = b[i]; i++; j++; } a[j] = 0; return a; }
int strcmp(const char *a, const char *b) { int i = 0; while ((unsigned char) a[i] == (unsigned char) b[i]) { if (a[i] == 0) { return 0; } i++; } return (unsigned char) a[i] - (unsigned char) b[i]; }
int strncmp(const char *a, const char *b, size_t n) { for (int i = 0; i < n; i++) { if ((unsigned char) a[i] != (unsigned char) b[i]) { return (unsigned char) a[i] - (unsigned char) b[i]; } if (a[i] == 0) { return 0; } } return 0; }
char *strchr(const char *a, int c) { int i = 0; while ((char) a[i] != (char) c) { if (a[i] == 0) { return NULL; } i++; } return a + i; }
char *strrchr(const char *a, int c) { int last = NULL; int i = 0; for (;;) { if ((char) a[i] == (char) c) { last = a + i; } if (a[i] == 0) { return last; } i++; } }
