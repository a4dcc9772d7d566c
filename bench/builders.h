// Who builds a table for a prime that is given, and the primes. Ours is the first.
#ifndef BUILDERS_H
#define BUILDERS_H

#include "primes.h"

extern "C" {
decltype(glass_build_for) yard_build_for, yardgcc_build_for;
}

struct Builder {
    const char *name;
    decltype(&glass_build_for) build;
};

const Builder builders[] = {{"ours", glass_build_for}, {"C, same format (clang)", yard_build_for}, {"C, same format (gcc)", yardgcc_build_for}};
enum { BUILDERS = 3 };

const uint32_t primes[] = {65537, 1000003, 2147483647};
enum { PRIMES = 3 };

#endif
