// Declarations for the kit's clang, which comes without headers: only what the C files here use.
#ifndef ORATJOLET_STRING_H
#define ORATJOLET_STRING_H
#include <stddef.h>
void *memcpy(void *restrict to, const void *restrict from, size_t length);
void *memmove(void *to, const void *from, size_t length);
void *memset(void *to, int byte, size_t length);
int memcmp(const void *a, const void *b, size_t length);
int strcmp(const char *a, const char *b);
char *strcpy(char *restrict to, const char *restrict from);
#endif
