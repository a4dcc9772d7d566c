// The lists and queries of the benchmark, from fixed seeds: the same in every run.
#ifndef LISTS_H
#define LISTS_H

#include <cstddef>
#include <cstdint>
#include <string>
#include <unordered_set>
#include <vector>

// 65,536 for 65536
inline std::string grouped(uint64_t x) {
    std::string s = std::to_string(x);
    for (size_t at = s.size(); at > 3;) s.insert(at -= 3, ",");
    return s;
}

// splitmix64
struct Random {
    uint64_t state;
    explicit Random(uint64_t seed) : state(seed) {}
    uint32_t next() {
        uint64_t z = state += 0x9e3779b97f4a7c15u;
        z = (z ^ z >> 30) * 0xbf58476d1ce4e5b9u;
        z = (z ^ z >> 27) * 0x94d049bb133111ebu;
        return (uint32_t)((z ^ z >> 31) >> 32);
    }
    // from 0 to n - 1
    uint32_t below(uint32_t n) { return (uint32_t)((uint64_t)next() * n >> 32); }
};

struct List {
    std::vector<uint32_t> codes, schedules;
    void add(uint32_t code, Random &r) {
        codes.push_back(code);
        schedules.push_back(1 + r.below(999));
    }
};

// the lines of the pairs
inline std::string lines_of(const std::vector<uint32_t> &codes, char between, const std::vector<uint32_t> &schedules) {
    std::string s;
    for (size_t i = 0; i < codes.size(); i++) s += std::to_string(codes[i]) + between + std::to_string(schedules[i]) + "\n";
    return s;
}

// for any prime; that for 65,537 below is quicker
inline List random_list_for(uint32_t p, size_t n, Random &r) {
    std::unordered_set<uint32_t> in;
    List l;
    while (l.codes.size() < n) {
        uint32_t a = 1 + r.below(p - 1);
        if (in.insert(a).second) l.add(a, r);
    }
    return l;
}

inline List random_list(size_t n, Random &r) {
    static std::vector<bool> in(65537);
    List l;
    while (l.codes.size() < n) {
        uint32_t a = 1 + r.below(65536);
        if (in[a]) continue;
        in[a] = true;
        l.add(a, r);
    }
    for (uint32_t a : l.codes) in[a] = false;
    return l;
}

// the list of n codes that lookups are asked of
inline List fixed_list(size_t n) {
    Random r(1000 + n);
    return random_list(n, r);
}

// The holds that panels are timed with: all schedules are in use, whole hours in no order, so that many are equal.
inline std::vector<uint32_t> fixed_holds() {
    Random r(999);
    std::vector<uint32_t> holds(999);
    for (uint32_t &hold : holds) hold = 60 * (1 + r.below(168));
    return holds;
}

enum Kind { RANDOM, PROGRESSION, MULTIPLES, RESIDUES, KINDS };

// an arithmetic progression, the multiples of a number, or codes r + 4,096 t
inline List list_of(Kind kind, size_t n, Random &r) {
    if (kind == RANDOM) return random_list(n, r);
    List l;
    uint32_t size = (uint32_t)n, step = 1 + r.below(65536 / size);
    if (kind == PROGRESSION) {
        uint32_t first = 1 + r.below(65536 - (size - 1) * step);
        for (uint32_t i = 0; i < size; i++) l.add(first + i * step, r);
    } else if (kind == MULTIPLES) {
        for (uint32_t i = 1; i <= size; i++) l.add(i * step, r);
    } else {
        uint32_t residues = size / 16, between = 1 + r.below(4096 / residues), first = r.below(4096);
        for (uint32_t i = 0; i < size; i++) l.add(1 + (first + i / 16 * between) % 4096 + 4096 * (i % 16), r);
    }
    return l;
}

#endif
