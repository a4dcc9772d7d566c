// The tables of the benchmark: that of a list, and damaged ones.
#ifndef TABLES_H
#define TABLES_H

#include "lists.h"

#include <algorithm>
#include <utility>

using Words = std::vector<uint32_t>;

// A well-formed table of a list by a builder that is not timed: its multipliers are the first to fit of those that come after 0.
template <class Next> Words table_by(const List &l, Next next) {
    const uint64_t n = l.codes.size();
    if (n == 0) return {0, 0, 1};
    uint64_t k = 0, c, start = 0;
    std::vector<Words> blocks;
    auto hash = [](uint64_t m, uint64_t a, uint64_t w) { return m * a % 65537 % w; };
    do {
        k = next(k);
        blocks.assign(n, {});
        for (uint32_t i = 0; i < n; i++) blocks[hash(k, l.codes[i], n)].push_back(i);
        c = 0;
        for (const Words &b : blocks) c += b.size() * b.size();
    } while (c > 3 * n - 2);
    Words table(3 + 2 * n + 2 * c);
    table[0] = (uint32_t)n, table[1] = (uint32_t)c, table[2] = (uint32_t)k;
    for (uint32_t j = 0; j < n; j++) {
        const uint64_t w = blocks[j].size() * blocks[j].size(), first = 3 + 2 * n + start;
        uint64_t q = 0;
        for (bool fits = false; !fits;) {
            q = next(q), fits = true;
            std::fill_n(table.begin() + (ptrdiff_t)first, w, 0);
            for (uint32_t i : blocks[j]) {
                uint32_t &cell = table[first + hash(q, l.codes[i], w)];
                fits = fits && cell == 0;
                cell = l.codes[i];
            }
        }
        for (uint32_t i : blocks[j]) table[first + c + hash(q, l.codes[i], w)] = l.schedules[i];
        table[3 + j] = (uint32_t)start, table[3 + n + j] = (uint32_t)q;
        start += w;
    }
    return table;
}

// The table of a valid list.
inline Words table_of(const List &l) {
    return table_by(l, [](uint64_t m) { return m + 1; });
}

// One or two words are changed, or a cell is emptied, or the words are cut or go on.
inline void damage(Words &t, Random &r) {
    uint32_t n = t[0], c = t[1];
    for (uint32_t left = 1 + r.below(2); left > 0; left--) {
        uint32_t size = (uint32_t)t.size(), at = r.below(4) == 0 ? r.below(3) : r.below(size);
        switch (r.below(12)) {
        case 0: t[at] = r.next(); break;
        case 1: t[at] = 0; break;
        case 2: t[at]++; break;
        case 3: t[at]--; break;
        case 4: t[at] = 65536 + r.below(2); break;
        case 5: t[at] = 999 + r.below(2); break;
        case 6: std::swap(t[at], t[r.below(size)]); break;
        case 7: t[at] = 1 + r.below(65536); break;
        case 8: t[at] ^= 1u << r.below(32); break;
        case 9: // a cell is emptied, or takes another's pair
            if (c) {
                uint32_t i = r.below(c), u = r.below(c), first = 3 + 2 * n;
                bool empty = r.below(2);
                t[first + i] = empty ? 0 : t[first + u];
                t[first + c + i] = empty ? 0 : t[first + c + u];
            }
            break;
        case 10: // a start or a multiplier
            if (n) t[3 + r.below(2 * n)] = r.below(c + 2);
            break;
        case 11:
            if (r.below(2)) t.resize(r.below(size + 1));
            else t.push_back(r.next());
            return;
        }
    }
}

#endif
