#ifndef ADAPT_STDIO_H
#define ADAPT_STDIO_H
#include <stddef.h>
#define EOF (-1)
#define BUFSIZ 8192
typedef struct adapt_file FILE;
extern FILE *stdin, *stdout, *stderr;
int printf(const char *, ...);
int fprintf(FILE *, const char *, ...);
int puts(const char *);
int fputs(const char *, FILE *);
int putchar(int);
int putc(int, FILE *);
int fputc(int, FILE *);
int fflush(FILE *);
void perror(const char *);
int getchar(void);
int getc(FILE *);
int fgetc(FILE *);
int sprintf(char *, const char *, ...);
int snprintf(char *, size_t, const char *, ...);
int sscanf(const char *, const char *, ...);
int scanf(const char *, ...);
FILE *fopen(const char *, const char *);
int fclose(FILE *);
size_t fread(void *, size_t, size_t, FILE *);
size_t fwrite(const void *, size_t, size_t, FILE *);
char *fgets(char *, int, FILE *);
int ferror(FILE *);
int feof(FILE *);
int remove(const char *);
#endif
