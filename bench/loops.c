/* The query loops of the functions of glass.h, and of the yardstick's under their own names: compiled once for each, with
 * -DPREFIX=glass, -DPREFIX=yard and -DPREFIX=yardgcc, apart from the functions themselves, so that each query is a call, which gives the cell too. The
 * loops take the schedule alone, as those of the other structures do, which have no cells. */
#include "glass.h"
#include "structure.h"

#define JOIN2(a, b) a##_##b
#define JOIN(a, b) JOIN2(a, b)
#define NAME(f) JOIN(PREFIX, f)

glass_answer NAME(build)(const uint32_t *, size_t, const uint32_t *, size_t, uint32_t *, size_t);
glass_answer NAME(check)(const uint32_t *, size_t);
glass_found NAME(lookup)(const uint32_t *, size_t, uint32_t);
glass_found NAME(panel)(const uint32_t *, size_t, const uint32_t *, size_t, const uint32_t *, size_t);
glass_answer NAME(pairs)(const uint32_t *, size_t, uint32_t *, size_t, uint32_t *, size_t);

static size_t total(const uint32_t *words) { return 3 + 2 * ((size_t)words[0] + words[1]); }

static void *build(const uint32_t *codes, const uint32_t *schedules, size_t n, uint32_t *lent) {
    return NAME(build)(codes, n, schedules, n, lent, glass_words(n)).number == 0 ? lent : 0;
}

static void drop(void *words) { (void)words; }

static void answers(const void *words, const uint32_t *codes, size_t count, uint32_t *out) {
    size_t len = total(words);
    for (size_t i = 0; i < count; i++) {
        glass_found a = NAME(lookup)(words, len, codes[i]);
        /* a refusal is no answer of the benchmark */
        out[i] = a.number == 0 || a.number == GLASS_ABSENT ? a.value : ~(uint32_t)0;
    }
}

static uint64_t sum(const void *words, const uint32_t *codes, size_t count) {
    size_t len = total(words);
    uint64_t s = 0;
    for (size_t i = 0; i < count; i++) s += NAME(lookup)(words, len, codes[i]).value;
    return s;
}

static uint32_t chain(const void *words, const uint32_t *codes, size_t count, uint32_t zero) {
    size_t len = total(words);
    uint32_t last = 0;
    for (size_t i = 0; i < count; i++) last = NAME(lookup)(words, len, codes[i] + (last & zero)).value;
    return last;
}

static uint64_t panels(const void *words, const uint32_t *holds, const uint32_t *codes, size_t each, size_t count) {
    size_t len = total(words);
    uint64_t s = 0;
    for (size_t i = 0; i < count; i++) {
        glass_found a = NAME(panel)(words, len, holds, 999, codes + each * i, each);
        s += a.number == 0 ? a.value : 0;
    }
    return s;
}

static size_t pairs(const void *words, uint32_t *codes, uint32_t *schedules) {
    size_t n = *(const uint32_t *)words;
    glass_answer a = NAME(pairs)(words, total(words), codes, n, schedules, n);
    return a.number == 0 ? a.value : ~(size_t)0;
}

static uint32_t check(const void *words) { return NAME(check)(words, total(words)).number; }

static size_t bytes(const void *words) { return total(words) * sizeof(uint32_t); }

structure NAME(structure)(const char *name) {
    structure s = {name, build, drop, answers, sum, chain, panels, pairs, check, bytes, 0};
    return s;
}
