// Declarations for the kit's clang, which comes without headers: what sqlite3.h asks for.
#ifndef ORATJOLET_STDARG_H
#define ORATJOLET_STDARG_H
typedef __builtin_va_list va_list;
#endif
