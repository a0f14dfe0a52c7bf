// Declarations for the kit's clang, which comes without headers: only what the C files here use.
#ifndef ORATJOLET_TIME_H
#define ORATJOLET_TIME_H
struct timespec {
    long tv_sec;
    long tv_nsec;
};
#define CLOCK_MONOTONIC 1
int clock_gettime(int clock, struct timespec *time);
#endif
