/* The hash that gperf found for the fixed list of N codes, with a check of the code: compiled once for each N, with -DN=.. and
 * -DGENERATED="..". gperf works when a program is compiled, so there is no build to time, and no other list. */
#include "structure.h"

#include <string.h>

#define JOIN2(a, b) a##b
#define JOIN(a, b) JOIN2(a, b)

/* gperf's own lookup compares words; it is not used */
#define in_word_set JOIN(in_word_set_, N)
#include GENERATED

static inline uint32_t get(uint32_t code) {
    uint32_t a = code - 1;
    char word[4] = {(char)('a' + (a >> 12)), (char)('a' + (a >> 8 & 15)), (char)('a' + (a >> 4 & 15)), (char)('a' + (a & 15))};
    unsigned key = hash(word, 4);
    return key <= MAX_HASH_VALUE && wordlist[key].code == a ? wordlist[key].schedule : 0;
}

static void answers(const void *map, const uint32_t *codes, size_t count, uint32_t *out) {
    (void)map;
    for (size_t i = 0; i < count; i++) out[i] = get(codes[i]);
}

static uint64_t sum(const void *map, const uint32_t *codes, size_t count) {
    (void)map;
    uint64_t s = 0;
    for (size_t i = 0; i < count; i++) s += get(codes[i]);
    return s;
}

static uint32_t chain(const void *map, const uint32_t *codes, size_t count, uint32_t zero) {
    (void)map;
    uint32_t last = 0;
    for (size_t i = 0; i < count; i++) last = get(codes[i] + (last & zero));
    return last;
}

static uint64_t panels(const void *map, const uint32_t *holds, const uint32_t *codes, size_t each, size_t count) {
    (void)map;
    uint64_t s = 0;
    for (size_t i = 0; i < count; i++) {
        if (holds_refused(holds)) continue;
        uint32_t highest = 0;
        for (size_t t = 0; t < each; t++) {
            uint32_t rank = rank_of(holds, get(codes[each * i + t]));
            if (rank == 0) {
                highest = 0;
                break;
            }
            highest = rank > highest ? rank : highest;
        }
        s += ranked(highest);
    }
    return s;
}

structure JOIN(gperf_structure_, N)(void) {
    structure s = {"gperf", 0, 0, answers, sum, chain, panels, 0, 0, 0, N};
    return s;
}
