/* One structure of the benchmark: how it is built, asked and read back. Each runs its own query loops, compiled with it, so that no call of the
 * harness stands between two queries. */
#ifndef STRUCTURE_H
#define STRUCTURE_H

#include <stddef.h>
#include <stdint.h>

#ifdef __cplusplus
extern "C" {
#endif

typedef struct {
    const char *name;
    /* from n pairs, in lent memory of glass_words(n) words or in its own; null where it cannot */
    void *(*build)(const uint32_t *codes, const uint32_t *schedules, size_t n, uint32_t *lent);
    void (*drop)(void *);
    /* the schedule of each code, 0 where it is absent */
    void (*answers)(const void *, const uint32_t *codes, size_t count, uint32_t *out);
    /* their sum */
    uint64_t (*sum)(const void *, const uint32_t *codes, size_t count);
    /* the last of them, where each lookup waits for the answer before it: zero is 0, which the compiler does not know */
    uint32_t (*chain)(const void *, const uint32_t *codes, size_t count, uint32_t zero);
    /* the sum of the answers to panels of so many codes each: the schedule with the longest of the 999 holds, of several the least; 0 where a hold is
     * above 10,080, or a code is absent or its schedule not in use */
    uint64_t (*panels)(const void *, const uint32_t *holds, const uint32_t *codes, size_t each, size_t count);
    /* the pairs by rising code */
    size_t (*pairs)(const void *, uint32_t *codes, uint32_t *schedules);
    /* 0 where the structure is whole; null where there is no such test */
    uint32_t (*check)(const void *);
    /* its bytes; null where it takes them from the heap, which is asked */
    size_t (*bytes)(const void *);
    /* the only n that it is built for, by its own compiler; 0: any */
    size_t only;
} structure;

/* What panels are decided by in the structures that know schedules alone, as the yardstick does it. Whether a hold is too long is asked of each panel
 * anew: through a pointer that the compiler does not know it cannot be asked once for all of them. */
static inline int holds_refused(const uint32_t *holds) {
    const uint32_t *volatile unknown = holds;
    const uint32_t *of_panel = unknown;
    uint32_t wrong = 0;
    for (size_t i = 0; i < 999; i++) wrong |= 0 - (uint32_t)(of_panel[i] > 10080);
    return wrong != 0;
}
/* The schedule with the highest rank decides; 0 where the code is absent or the schedule not in use. */
static inline uint32_t rank_of(const uint32_t *holds, uint32_t schedule) {
    uint32_t hold = schedule ? holds[schedule - 1] : 0;
    return hold ? hold << 10 | (1023 - schedule) : 0;
}
static inline uint32_t ranked(uint32_t rank) { return rank ? 1023 - (rank & 1023) : 0; }

#ifdef __cplusplus
}
#endif

#endif
