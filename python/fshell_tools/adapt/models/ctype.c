/* Models of ctype.h (7.4) in the locale "C". What is no character gives 0; what C calls nonzero is 1. */

int isdigit(int c) { return (c >= '0') & (c <= '9'); }
int isupper(int c) { return (c >= 'A') & (c <= 'Z'); }
int islower(int c) { return (c >= 'a') & (c <= 'z'); }
int isalpha(int c) { return ((c | 32) >= 'a') & ((c | 32) <= 'z') & (c >= 0) & (c < 128); }
int isalnum(int c) { return ((c >= '0') & (c <= '9')) | (((c | 32) >= 'a') & ((c | 32) <= 'z') & (c >= 0) & (c < 128)); }
int isxdigit(int c) { return ((c >= '0') & (c <= '9')) | (((c | 32) >= 'a') & ((c | 32) <= 'f') & (c >= 0) & (c < 128)); }
int isblank(int c) { return (c == ' ') | (c == 9); }
int isspace(int c) { return (c == ' ') | ((c >= 9) & (c <= 13)); }
int iscntrl(int c) { return ((c >= 0) & (c < 32)) | (c == 127); }
int isprint(int c) { return (c >= 32) & (c < 127); }
int isgraph(int c) { return (c > 32) & (c < 127); }
int ispunct(int c) { return (c > 32) & (c < 127) & !(((c >= '0') & (c <= '9')) | (((c | 32) >= 'a') & ((c | 32) <= 'z'))); }
int tolower(int c) { return c + (((c >= 'A') & (c <= 'Z')) << 5); }
int toupper(int c) { return c - (((c >= 'a') & (c <= 'z')) << 5); }
