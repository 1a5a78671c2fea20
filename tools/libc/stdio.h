/* What the hosts in C use of stdio, for a machine whose own headers are for other programs (tools/build-host). */
#include <stddef.h>

#define EOF (-1)

typedef struct _IO_FILE FILE;

extern FILE *stdin;
extern FILE *stdout;
extern FILE *stderr;

size_t fread(void *, size_t, size_t, FILE *);
int getchar(void);
int putchar(int);
int puts(const char *);
int printf(const char *, ...);
int fprintf(FILE *, const char *, ...);
int fflush(FILE *);
