/* The kit's compiler brings no headers: what tools/bench uses of this one. */
#ifndef SHIM_TIME_H
#define SHIM_TIME_H
struct timespec {
    long tv_sec;
    long tv_nsec;
};
#define CLOCK_MONOTONIC 1
int clock_gettime(int clock, struct timespec *now);
#endif
