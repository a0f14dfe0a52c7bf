// Declarations for the kit's clang, which comes without headers: only what the C files here use.
#ifndef ORATJOLET_STDINT_H
#define ORATJOLET_STDINT_H
typedef __UINT16_TYPE__ uint16_t;
typedef __UINT64_TYPE__ uint64_t;
#endif
