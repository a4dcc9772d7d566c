#include "searches.h"

#include "builders.h"
#include "clock.h"
#include "families.h"
#include "tables.h"

#include <cstdio>
#include <cstdlib>

namespace {

const size_t family_sizes[] = {3, 4, 6, 8, 12, 16, 24, 32, 48, 64, 96, 128, 192, 256};
enum { LISTS_OF_SIZE = 4 };
// what plain search takes where it is slow, in ns
const double SLOW = 1e5;
// Whose plain search was the quicker one when both were tried: gcc's of 3 and 4 codes, otherwise clang's.
const Builder &plain(size_t n) { return builders[n == 3 || n == 4 ? 2 : 1]; }

// One build in ns, the least of some where it is quick, and its words.
struct Built {
    double ns;
    Words words;
};

Built timed(const Builder &b, uint32_t p, const List &l) {
    Built best{0, Words(glass_words(l.codes.size()))};
    double all = 0;
    for (int i = 0; i < 20 && (i == 0 || all < 2e6); i++) {
        double t = now();
        glass_answer a = b.build(p, l.codes.data(), l.codes.size(), l.schedules.data(), l.codes.size(), best.words.data(), best.words.size());
        t = now() - t;
        if (a.number) std::fprintf(stderr, "%s: a list is refused by %u\n", b.name, a.number), std::exit(1);
        all += t;
        if (i == 0 || t < best.ns) best.ns = t;
    }
    return best;
}

void same(const char *who, const Built &ours, const Built &other) {
    if (ours.words == other.words) return;
    std::fprintf(stderr, "%s: another table of a list with a long search\n", who);
    std::exit(1);
}

std::string figure(double x) {
    char b[32];
    std::snprintf(b, sizeof b, x < 0.1 ? "%.3f" : x < 10 ? "%.2f" : x < 100 ? "%.1f" : "%.0f", x);
    return x < 10000 ? b : grouped((uint64_t)(x + 0.5));
}
// two digits that count, two places at least
std::string ratio(double x) {
    int places = 2;
    for (double y = x; y > 0 && y < 0.1 && places < 12; y *= 10) places++;
    char b[32];
    std::snprintf(b, sizeof b, "%.*f", places, x);
    return b;
}

std::string each_slow_list() {
    std::string s = "\n### Some slow lists\n\nIn microseconds a build; in brackets ours / other.\n\n| prime | codes";
    for (const Builder &b : builders) s += std::string(" | ") + b.name;
    s += " |\n|---|---|---|---|---|\n";
    for (uint32_t p : primes)
        for (const SlowList &slow : slow_lists) {
            Random r(43);
            List l;
            for (uint32_t a : slow.codes(p)) l.add(a, r);
            const Built ours = timed(builders[0], p, l);
            s += "| " + grouped(p) + " | " + slow.name + " | " + figure(ours.ns / 1e3);
            for (size_t b = 1; b < BUILDERS; b++) {
                const Built other = timed(builders[b], p, l);
                same(builders[b].name, ours, other);
                s += " | " + figure(other.ns / 1e3) + " (" + ratio(ours.ns / other.ns) + ")";
            }
            s += " |\n";
        }
    return s;
}

// The largest ours / plain, and what plain took there.
struct Largest {
    double most = 0, ns = 0;
    void add(double ours, double other) {
        if (ours / other > most) most = ours / other, ns = other;
    }
    std::string shown() const { return most > 0 ? ratio(most) + " (" + figure(ns / 1e6) + ")" : "-"; }
};

std::string row_of(Family f, uint32_t p) {
    Random r(((uint64_t)p << 8) + f);
    List worst;
    double worst_ns = 0;
    bool worst_compared = false;
    Largest any, slow;
    uint64_t lists = 0, beside = 0;
    auto compared = [&](const List &l, const Built &ours) {
        const Builder &it = plain(l.codes.size());
        const Built other = timed(it, p, l);
        same(it.name, ours, other);
        any.add(ours.ns, other.ns);
        if (other.ns >= SLOW) slow.add(ours.ns, other.ns);
        return other.ns;
    };
    for (size_t n : family_sizes)
        for (int i = 0; i < LISTS_OF_SIZE; i++, lists++) {
            const List l = list_of_family(f, p, n, r);
            const Built ours = timed(builders[0], p, l);
            if (ours.ns > worst_ns) worst_ns = ours.ns, worst = l, worst_compared = i == 0;
            if (i == 0) compared(l, ours), beside++;
        }
    // again, since the slowest of many is also the most disturbed
    const Built ours = timed(builders[0], p, worst);
    const double other = compared(worst, ours);
    beside += !worst_compared;
    return std::string("| ") + family_names[f] + " | " + grouped(lists) + " | " + figure(ours.ns / 1e6) + " | " + grouped(worst.codes.size()) + " | " +
           figure(other / 1e6) + " (" + ratio(ours.ns / other) + ") | " + grouped(beside) + " | " + any.shown() + " | " + slow.shown() + " |\n";
}

} // namespace

std::string long_searches() {
    std::string s = each_slow_list();
    s += "\n### Families of lists\n\n" + grouped(LISTS_OF_SIZE) + " lists of each of the sizes";
    for (size_t n : family_sizes) s += (n == *family_sizes ? " " : ", ") + grouped(n);
    s += ", those of the last row of 2 codes. In ms a build; in brackets ours / other. The slowest of ours, and the first list of each size, are also built by "
         "the yardstick, which tries each multiplier: of 3 and 4 codes by gcc, otherwise by clang. The last two columns have the largest ours / C of these lists, "
         "with what C took there in brackets, and the same of those that took it " +
         figure(SLOW / 1e6) + " ms or more.\n";
    for (uint32_t p : primes) {
        s += "\n#### Prime " + grouped(p) + "\n\n| lists | how many | ours, the slowest | its codes | C, the same list | beside C | largest ours / C | where C took " +
             figure(SLOW / 1e6) + " ms |\n|---|---|---|---|---|---|---|---|\n";
        for (int f = 0; f < FAMILIES; f++) s += row_of((Family)f, p);
    }
    return s;
}
