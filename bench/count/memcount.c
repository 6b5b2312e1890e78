// Counts the copies of at least 3,000 bytes: preload it, and it writes the count to standard error at the end.
#define _GNU_SOURCE
#include <stddef.h>
#include <stdio.h>
static unsigned long copies;
void *memcpy(void *d, const void *s, size_t n) { if (n >= 3000) copies++; char *a = d; const char *b = s; for (size_t i = 0; i < n; i++) a[i] = b[i]; return d; }
void *memmove(void *d, const void *s, size_t n) { if (n >= 3000) copies++; char *a = d; const char *b = s; if (a < b) { for (size_t i = 0; i < n; i++) a[i] = b[i]; } else { while (n--) a[n] = b[n]; } return d; }
__attribute__((destructor)) static void say(void) { fprintf(stderr, "copies %lu\n", copies); }
