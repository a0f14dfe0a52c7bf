// Declarations for the kit's clang, which comes without headers: only what the C files here use.
#ifndef ORATJOLET_STDIO_H
#define ORATJOLET_STDIO_H
int printf(const char *restrict format, ...);
int getchar(void);
#endif
