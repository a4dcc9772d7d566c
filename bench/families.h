// The lists with the longest searches: their codes differ by multiples of n or of its divisors, which most multipliers leave in few places.
#ifndef FAMILIES_H
#define FAMILIES_H

#include "lists.h"

#include <algorithm>
#include <set>

using Codes = std::vector<uint32_t>;

struct SlowList {
    const char *name;
    Codes (*codes)(uint32_t p);
};

inline Codes steps_of(uint64_t first, uint64_t step, uint64_t n) {
    Codes c;
    for (uint64_t i = 0; i < n; i++) c.push_back((uint32_t)(first + i * step));
    return c;
}

const SlowList slow_lists[] = {{"1, 5", [](uint32_t) { return steps_of(1, 4, 2); }},
                               {"2, 6", [](uint32_t) { return steps_of(2, 4, 2); }},
                               {"1, 4, 7", [](uint32_t) { return steps_of(1, 3, 3); }},
                               {"3, 6, 9", [](uint32_t) { return steps_of(3, 3, 3); }},
                               {"6 from 1295268587 mod p, in steps of 6", [](uint32_t p) { return steps_of(1295268587 % p, 6, 6); }}};
enum { SLOW_LISTS = 5 };

enum Family { OF_N, OF_DIVISOR, ANY_STEP, SMALL, ANYWHERE, ABOUT, NEGATIVES, WITH_OTHERS, GRID, TRIPLES, POWERS, FOUR_APART, FAMILIES };
const char *const family_names[] = {"multiples of n",
                                    "multiples of a divisor of n",
                                    "progressions of any step",
                                    "x + n i, x small",
                                    "x + n i, x anywhere",
                                    "x + n i, x about j p / i",
                                    "p less the codes of those above",
                                    "n - r of those above, r at random",
                                    "progressions of two dimensions",
                                    "triples x, x + n, x + 2n",
                                    "powers of a number",
                                    "1, 5; 2, 6; x, x + 4"};

// from low to high
inline uint64_t between(uint64_t low, uint64_t high, Random &r) { return low + r.below((uint32_t)(high - low + 1)); }

inline uint64_t power(uint64_t base, uint64_t i, uint64_t p) {
    uint64_t x = 1;
    for (; i > 0; i >>= 1, base = base * base % p)
        if (i & 1) x = x * base % p;
    return x;
}

// Some codes of a family, not always different nor all from 1 to p - 1. A progression's span is at most p - 1.
inline Codes any_codes(Family f, uint64_t p, uint64_t n, Random &r) {
    const uint64_t widest = (p - 1) / n;
    if (f == OF_N || f == OF_DIVISOR) {
        uint64_t d = n;
        if (f == OF_DIVISOR) do d = between(1, n / 2, r);
            while (n % d);
        const uint64_t step = d * between(1, std::min<uint64_t>(widest / d, r.below(2) ? 4 : widest), r);
        return steps_of(step, step, n);
    }
    if (f == ANY_STEP) {
        const uint64_t step = between(1, r.below(2) ? std::min(widest, 4 * n) : widest, r);
        return steps_of(between(1, p - 1 - step * (n - 1), r), step, n);
    }
    if (f == SMALL || f == ANYWHERE || f == ABOUT) {
        const uint64_t step = n * between(1, std::min<uint64_t>(widest / n, r.below(2) ? 1 : 4), r), last = p - 1 - step * (n - 1);
        uint64_t first = between(1, f == SMALL ? std::min<uint64_t>(last, 20) : last, r);
        if (f == ABOUT) {
            const uint64_t i = between(2, 12, r), at = between(1, i - 1, r) * p / i + between(0, 6, r);
            first = std::min(last, at - std::min(at - 1, between(0, 1, r) * step * (n - 1)));
        }
        return steps_of(first, step, n);
    }
    if (f == NEGATIVES || f == WITH_OTHERS) {
        Codes c = any_codes((Family)r.below(NEGATIVES), p, n, r);
        const uint64_t others = f == WITH_OTHERS ? between(1, (n + 3) / 4, r) : 0;
        if (f == NEGATIVES)
            for (uint32_t &a : c) a = (uint32_t)(p - a);
        for (uint64_t i = 0; i < others; i++) c[i] = (uint32_t)between(1, p - 1, r);
        return c;
    }
    Codes c;
    const uint64_t base = r.below(2) ? between(2, 9, r) : between(2, p - 1, r), rows = between(2, std::max<uint64_t>(2, n / 2), r);
    const uint64_t step = n * between(1, 4, r), second = r.below(2) ? n * between(1, 4 * n, r) : between(1, p - 1, r), first = between(1, p - 1, r);
    uint64_t x = first;
    for (uint64_t i = 0; i < n; i++) {
        if (i % 3 == 0) x = between(1, p - 1, r);
        if (f == GRID) c.push_back((uint32_t)((first + i % rows * step + i / rows * second) % p));
        else if (f == TRIPLES) c.push_back((uint32_t)((x + n * (i % 3)) % p));
        else c.push_back((uint32_t)power(base, i, p));
    }
    return c;
}

// A valid list of a family, of n codes; FOUR_APART has 2.
inline List list_of_family(Family f, uint32_t p, size_t n, Random &r) {
    Codes c;
    if (f == FOUR_APART) {
        const uint64_t which = r.below(6), first = which < 2 ? which + 1 : between(1, p - 5, r);
        c = steps_of(first, 4, 2);
    } else {
        do c = any_codes(f, p, n, r);
        while (std::set<uint32_t>(c.begin(), c.end()).size() < n || *std::min_element(c.begin(), c.end()) == 0);
    }
    List l;
    for (uint32_t a : c) l.add(a, r);
    return l;
}

#endif
