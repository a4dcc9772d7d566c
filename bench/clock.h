// The time.
#ifndef CLOCK_H
#define CLOCK_H

#include <time.h>

inline double clock_of(clockid_t clock) {
    timespec t;
    clock_gettime(clock, &t);
    return 1e9 * (double)t.tv_sec + (double)t.tv_nsec;
}

// The time that the process had, in ns: what others took from it on the way is not in it.
inline double now() { return clock_of(CLOCK_PROCESS_CPUTIME_ID); }

#endif
