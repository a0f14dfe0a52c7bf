// Declarations for the kit's clang, which comes without headers: only what the C files here use.
#ifndef ORATJOLET_STDBOOL_H
#define ORATJOLET_STDBOOL_H
#define bool _Bool
#define true 1
#define false 0
#endif
