// Declarations for the kit's clang, which comes without headers: only what the C files here use.
#ifndef ORATJOLET_STDDEF_H
#define ORATJOLET_STDDEF_H
typedef __SIZE_TYPE__ size_t;
#define NULL ((void *)0)
#endif
