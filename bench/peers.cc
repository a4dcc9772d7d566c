// The maps of C and C++ beside ours: code and schedule are 32-bit words in all, room is reserved for n pairs before they are put in.
#include "peers.h"

#include <cmph.h>
#include <glib.h>

#include <absl/container/flat_hash_map.h>
#include <boost/unordered/unordered_flat_map.hpp>

#include <algorithm>
#include <cstdlib>
#include <unordered_map>
#include <utility>
#include <vector>

namespace {

using Pairs = std::vector<std::pair<uint32_t, uint32_t>>;

// A standard map, or one with its interface.
template <class M> struct Standard {
    M map;
    Standard(const uint32_t *codes, const uint32_t *schedules, size_t n) {
        map.reserve(n);
        for (size_t i = 0; i < n; i++) map.emplace(codes[i], schedules[i]);
    }
    bool whole() const { return true; }
    inline uint32_t get(uint32_t code) const {
        auto at = map.find(code);
        return at == map.end() ? 0 : at->second;
    }
    void list(Pairs &out) const {
        for (const auto &p : map) out.emplace_back(p.first, p.second);
    }
};

// GLib: the code and the schedule are the pointers themselves.
struct Glib {
    GHashTable *map;
    Glib(const uint32_t *codes, const uint32_t *schedules, size_t n) : map(g_hash_table_new(g_direct_hash, nullptr)) {
        for (size_t i = 0; i < n; i++) g_hash_table_insert(map, GUINT_TO_POINTER(codes[i]), GUINT_TO_POINTER(schedules[i]));
    }
    Glib(const Glib &) = delete;
    ~Glib() { g_hash_table_destroy(map); }
    bool whole() const { return true; }
    inline uint32_t get(uint32_t code) const { return GPOINTER_TO_UINT(g_hash_table_lookup(map, GUINT_TO_POINTER(code))); }
    void list(Pairs &out) const {
        GHashTableIter at;
        gpointer code, schedule;
        g_hash_table_iter_init(&at, map);
        while (g_hash_table_iter_next(&at, &code, &schedule)) out.emplace_back(GPOINTER_TO_UINT(code), GPOINTER_TO_UINT(schedule));
    }
};

// cmph: a minimal perfect hash of the codes' four bytes, packed, and the pairs by their number; a number of a code that is not there is checked.
template <CMPH_ALGO A> struct Cmph {
    size_t n;
    uint32_t *codes = nullptr, *schedules = nullptr;
    char *packed = nullptr;
    Cmph(const uint32_t *c, const uint32_t *s, size_t count) : n(count) {
        cmph_io_adapter_t *source = cmph_io_struct_vector_adapter((void *)c, sizeof *c, 0, sizeof *c, (cmph_uint32)n);
        cmph_config_t *config = cmph_config_new(source);
        cmph_config_set_algo(config, A);
        cmph_t *hash = cmph_new(config);
        cmph_config_destroy(config);
        if (hash) {
            packed = (char *)std::malloc(cmph_packed_size(hash));
            cmph_pack(hash, packed);
            cmph_destroy(hash);
            codes = (uint32_t *)std::calloc(n, sizeof *codes);
            schedules = (uint32_t *)std::calloc(n, sizeof *schedules);
            for (size_t i = 0; i < n; i++) {
                uint32_t h = number(c[i]);
                codes[h] = c[i];
                schedules[h] = s[i];
            }
        }
        cmph_io_struct_vector_adapter_destroy(source);
    }
    Cmph(const Cmph &) = delete;
    ~Cmph() {
        std::free(packed);
        std::free(codes);
        std::free(schedules);
    }
    bool whole() const { return packed != nullptr; }
    inline uint32_t number(uint32_t code) const { return cmph_search_packed(packed, (const char *)&code, sizeof code); }
    inline uint32_t get(uint32_t code) const {
        uint32_t h = number(code);
        return h < n && codes[h] == code ? schedules[h] : 0;
    }
    void list(Pairs &out) const {
        for (size_t i = 0; i < n; i++) out.emplace_back(codes[i], schedules[i]);
    }
};

// A sorted array; the search halves it without a branch. A last code above all others ends it.
struct Sorted {
    size_t n;
    std::vector<uint32_t> codes, schedules;
    Sorted(const uint32_t *c, const uint32_t *s, size_t count) : n(count), codes(count + 1), schedules(count + 1) {
        Pairs pairs(n);
        for (size_t i = 0; i < n; i++) pairs[i] = {c[i], s[i]};
        std::sort(pairs.begin(), pairs.end());
        for (size_t i = 0; i < n; i++) codes[i] = pairs[i].first, schedules[i] = pairs[i].second;
        codes[n] = ~(uint32_t)0;
    }
    bool whole() const { return true; }
    inline uint32_t get(uint32_t code) const {
        const uint32_t *at = codes.data();
        for (size_t left = n; left > 0;) {
            size_t half = (left + 1) / 2;
            const uint32_t *upper = at + half;
            at = upper[-1] < code ? upper : at;
            left -= half;
        }
        uint32_t found = 0u - (uint32_t)(*at == code);
        return schedules[(size_t)(at - codes.data())] & found;
    }
    void list(Pairs &out) const {
        for (size_t i = 0; i < n; i++) out.emplace_back(codes[i], schedules[i]);
    }
};

// A place for each code that there can be: the limit of what a lookup can cost.
struct Direct {
    uint16_t *schedules;
    Direct(const uint32_t *c, const uint32_t *s, size_t n) : schedules((uint16_t *)std::calloc(65536, sizeof *schedules)) {
        for (size_t i = 0; i < n; i++) schedules[c[i] - 1] = (uint16_t)s[i];
    }
    Direct(const Direct &) = delete;
    ~Direct() { std::free(schedules); }
    bool whole() const { return true; }
    inline uint32_t get(uint32_t code) const { return schedules[code - 1]; }
    void list(Pairs &out) const {
        for (uint32_t a = 0; a < 65536; a++)
            if (schedules[a]) out.emplace_back(a + 1, schedules[a]);
    }
};

template <class T> void *build(const uint32_t *codes, const uint32_t *schedules, size_t n, uint32_t *) {
    T *t = new T(codes, schedules, n);
    if (t->whole()) return t;
    delete t;
    return nullptr;
}

template <class T> void drop(void *t) { delete (T *)t; }

template <class T> void answers(const void *v, const uint32_t *codes, size_t count, uint32_t *out) {
    const T &t = *(const T *)v;
    for (size_t i = 0; i < count; i++) out[i] = t.get(codes[i]);
}

template <class T> uint64_t sum(const void *v, const uint32_t *codes, size_t count) {
    const T &t = *(const T *)v;
    uint64_t s = 0;
    for (size_t i = 0; i < count; i++) s += t.get(codes[i]);
    return s;
}

template <class T> uint32_t chain(const void *v, const uint32_t *codes, size_t count, uint32_t zero) {
    const T &t = *(const T *)v;
    uint32_t last = 0;
    for (size_t i = 0; i < count; i++) last = t.get(codes[i] + (last & zero));
    return last;
}

template <class T> uint64_t panels(const void *v, const uint32_t *holds, const uint32_t *codes, size_t each, size_t count) {
    const T &t = *(const T *)v;
    uint64_t s = 0;
    for (size_t i = 0; i < count; i++) {
        if (holds_refused(holds)) continue;
        uint32_t highest = 0;
        for (size_t u = 0; u < each; u++) {
            uint32_t rank = rank_of(holds, t.get(codes[each * i + u]));
            if (rank == 0) {
                highest = 0;
                break;
            }
            highest = std::max(highest, rank);
        }
        s += ranked(highest);
    }
    return s;
}

template <class T> size_t pairs(const void *v, uint32_t *codes, uint32_t *schedules) {
    static Pairs list;
    list.clear();
    ((const T *)v)->list(list);
    std::sort(list.begin(), list.end());
    for (size_t i = 0; i < list.size(); i++) codes[i] = list[i].first, schedules[i] = list[i].second;
    return list.size();
}

template <class T> structure made(const char *name) {
    return {name, build<T>, drop<T>, answers<T>, sum<T>, chain<T>, panels<T>, pairs<T>, nullptr, nullptr, 0};
}

} // namespace

extern "C" {
#define OF_RUST(map)                                                                         \
    void *map##_build(const uint32_t *, const uint32_t *, size_t, uint32_t *);               \
    void map##_drop(void *);                                                                 \
    void map##_answers(const void *, const uint32_t *, size_t, uint32_t *);                  \
    uint64_t map##_sum(const void *, const uint32_t *, size_t);                              \
    uint32_t map##_chain(const void *, const uint32_t *, size_t, uint32_t);                  \
    uint64_t map##_panels(const void *, const uint32_t *, const uint32_t *, size_t, size_t); \
    size_t map##_pairs(const void *, uint32_t *, uint32_t *);
OF_RUST(std)
OF_RUST(fx)
OF_RUST(phf)

structure gperf_structure_16(void);
structure gperf_structure_256(void);
structure gperf_structure_2048(void);
}

#define MADE_OF_RUST(name, map) \
    structure { name, map##_build, map##_drop, map##_answers, map##_sum, map##_chain, map##_panels, map##_pairs, nullptr, nullptr, 0 }

std::vector<structure> peers() {
    return {
        made<Standard<std::unordered_map<uint32_t, uint32_t>>>("std::unordered_map"),
        made<Standard<boost::unordered_flat_map<uint32_t, uint32_t>>>("boost::unordered_flat_map"),
        made<Standard<absl::flat_hash_map<uint32_t, uint32_t>>>("absl::flat_hash_map"),
        made<Glib>("GHashTable"),
        MADE_OF_RUST("Rust std HashMap", std),
        MADE_OF_RUST("hashbrown, Fx hash", fx),
        MADE_OF_RUST("phf", phf),
        made<Cmph<CMPH_CHD>>("cmph CHD, key checked"),
        made<Cmph<CMPH_BDZ>>("cmph BDZ, key checked"),
        gperf_structure_16(),
        gperf_structure_256(),
        gperf_structure_2048(),
        made<Sorted>("sorted array"),
        made<Direct>("array of 65,536"),
    };
}
