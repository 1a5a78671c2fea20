/* What the hosts in C use of stdlib: see stdio.h. */
#include <stddef.h>

#define EXIT_SUCCESS 0
#define EXIT_FAILURE 1

void *malloc(size_t);
void free(void *);
void exit(int);
void _Exit(int);
void qsort(void *, size_t, size_t, int (*)(const void *, const void *));
