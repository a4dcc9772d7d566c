/* The function of primes_c, for the benchmark alone: no part of the interface of glass.h. Memory is lent as there. */
#ifndef PRIMES_H
#define PRIMES_H

#include "glass.h"

#ifdef __cplusplus
extern "C" {
#endif

/* A build with one of three primes, 65537, 1000003 or 2147483647, for codes from 1 to the prime less one; otherwise as glass_build. Numbers: 0, 76 for another
 * prime, then 1 to 6. */
glass_answer glass_build_for(uint32_t prime, const uint32_t *codes, size_t codes_len, const uint32_t *schedules, size_t schedules_len,
                             uint32_t *words, size_t words_len);

#ifdef __cplusplus
}
#endif

#endif
