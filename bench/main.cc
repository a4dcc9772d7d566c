// The benchmark: compares the answers of all structures, then times them in one process, each round all of them one after the other, and writes
// the tables. bench/run calls it:
//
//   main bytes                          prints the bytes of each structure for each size; without the allocator's cache of freed memory, which it
//                                       counts as taken
//   main RESULTS BYTES OURS LINE...     RESULTS is the file to write, BYTES what was printed, OURS says what is linked as glass.h, each LINE goes
//                                       into the results
#include "builders.h"
#include "clock.h"
#include "compare.h"
#include "functions.h"
#include "generators.h"
#include "gperf_bytes.h"
#include "listers.h"
#include "lists.h"
#include "peers.h"
#include "searches.h"
#include "stack.h"
#include "tables.h"

#include <malloc.h>
#include <sched.h>

#include <algorithm>
#include <cstdio>
#include <cstdlib>
#include <cstring>
#include <fstream>
#include <iostream>
#include <string>
#include <vector>

extern "C" {
structure glass_structure(const char *);
structure yard_structure(const char *);
structure yardgcc_structure(const char *);
decltype(glass_read_list) plain_read_list;
decltype(glass_write_list) plain_write_list;
}

namespace {

using std::size_t;
using std::string;

// A round asks in parts, and all structures one part before the next: what else the machine does meets all of them.
enum { ROUNDS = 31, QUERIES = 65536, PARTS = 4, QUERIES_OF_PART = QUERIES / PARTS, BUILT = 16384, OTHER_BUILT = 4096 };

const size_t sizes[] = {16, 256, 2048};
enum { SIZES = 3 };

enum Operation { HITS, MISSES, HALF, CHAIN, PANEL_64, PANEL_4, BUILD, CHECK, PAIRS, OPERATIONS };
const char *const operation_names[] = {"hits", "misses", "half", "chain", "panel of 64", "panel of 4", "build", "check", "read back"};
const char *const kind_names[] = {"random", "arithmetic progressions", "multiples of a number", "r + 4,096 t"};

// what is timed by the size of the table
const size_t table_sizes[] = {1, 2, 4, 8, 12, 16, 24, 31, 32, 33, 48, 64, 128, 256, 257, 300, 512, 1000, 1500, 2048};
enum { TABLE_SIZES = 20 };
// in so many processes: where the system puts one changes short calls more than its rounds differ
enum { PROCESSES = 7 };
enum Sized { SIZED_BUILD, SIZED_CHECK, SIZED_PAIRS, SIZED_INSERT_NEW, SIZED_INSERT_PRESENT, SIZED_REMOVE, SIZED };
const char *const sized_names[] = {"Build", "Check", "Read back", "Put in, a new code", "Put in, a present code", "Take out"};

// of these, builds for each of three primes
const size_t prime_sizes[] = {1, 2, 4, 8, 16, 32, 64, 128, 256, 512, 1000, 2048};
enum { PRIME_SIZES = 12 };

// the lists of two codes that take the longest search
struct Two {
    const char *name;
    uint32_t codes[2], schedules[2];
};
const Two twos[] = {{"{2, 6}", {2, 6}, {1, 2}}, {"{1, 5}", {1, 5}, {1, 2}}};
enum { TWOS = 2, TWO_TIMES = 8 };

// who reads and writes lists as text
struct TextFunctions {
    const char *name;
    decltype(&glass_read_list) read;
    decltype(&glass_write_list) write;
};
const TextFunctions text_functions[] = {{"ours", glass_read_list, glass_write_list},
                                        {"C, same passes (clang)", yard_read_list, yard_write_list},
                                        {"C, same passes (gcc)", yardgcc_read_list, yardgcc_write_list},
                                        {"strtoul, snprintf", plain_read_list, plain_write_list}};
enum { TEXT_FUNCTIONS = 4 };

// the texts of a row: their lines, and whether codes are any of 32 bits
struct TextKind {
    size_t lines;
    bool any_code;
};
const TextKind text_kinds[] = {{1, false}, {16, false}, {256, false}, {2048, false}, {2048, true}};
enum { TEXT_KINDS = 5 };

const size_t load_lengths[] = {1, 16, 256, 999, 2048};
enum { LOAD_LENGTHS = 5, GENERATED = 65536 };

const size_t byte_counts[] = {108, 4096, 65536};
enum { BYTE_COUNTS = 3, BYTES_READ = 1 << 22 };

// ns a query, a code, a line or a call, by round
using Series = std::vector<double>;

struct Results {
    std::vector<Series> of[SIZES][OPERATIONS], structured[SIZES][KINDS], two[TWOS], read[TEXT_KINDS], written[TEXT_KINDS], generated[LOAD_LENGTHS];
    std::vector<Series> sized[SIZED][TABLE_SIZES], for_prime[PRIMES][PRIME_SIZES], words[BYTE_COUNTS], listed[SIZES];
    std::vector<double> bytes[SIZES];
    std::vector<size_t> failed;
};

void wrong(const char *who, const char *what) {
    std::fprintf(stderr, "%s: wrong %s\n", who, what);
    std::exit(1);
}

bool has(const structure &s, size_t n) { return s.only == 0 || s.only == n; }
bool builds(const structure &s) { return s.build != nullptr; }

// Each time another order, so that none always follows the same one.
std::vector<size_t> order(size_t count, Random &r) {
    std::vector<size_t> o(count);
    for (size_t i = 0; i < count; i++) {
        size_t at = r.below((uint32_t)i + 1);
        o[i] = o[at], o[at] = i;
    }
    return o;
}

// Does the work from another place of the stack. The system picks a place for each run, in steps of 16 bytes, and calls of tens of ns differ by it by up to a
// quarter: so a run has many.
template <class Work> __attribute__((noinline)) void from_place(size_t place, Work work) {
    volatile char *above = (volatile char *)__builtin_alloca(16 * place + 1);
    *above = 0;
    work();
}
size_t place(Random &r) { return r.below(4096 / 16); }

// Functions by name do the same work, from one place of the stack: adds the time of each to what it spent.
template <class Function, size_t count, class Work, class Right>
void in_turn(const Function (&functions)[count], Random &r, std::vector<double> &spent, const char *what, Work work, Right right) {
    const size_t here = place(r);
    for (size_t f : order(count, r)) {
        from_place(here, [&] {
            double t = now();
            work(functions[f]);
            spent[f] += now() - t;
        });
        if (!right(functions[f])) wrong(functions[f].name, what);
    }
}

void add_round(std::vector<Series> &results, const std::vector<double> &spent, double units) {
    for (size_t f = 0; f < spent.size(); f++) results[f].push_back(spent[f] / units);
}

// ---- lookups

const Words holds = fixed_holds();

// the codes of each panel; 0 where there are none
size_t each_panel(Operation o) { return o == PANEL_64 ? 64 : o == PANEL_4 ? 4 : 0; }

// Which of two schedules decides a panel: that with the longer hold, of equal holds the lesser.
bool decides(uint32_t s, uint32_t t) { return holds[s - 1] != holds[t - 1] ? holds[s - 1] > holds[t - 1] : s < t; }

// What is asked in one part of a round.
struct Asked {
    Words codes, answers;
    uint64_t sum = 0, panels = 0;
};

Asked asked(const List &l, const std::vector<uint16_t> &schedule_of, Operation o, int part) {
    Asked a;
    Random r(((uint64_t)l.codes.size() << 32) + ((uint64_t)o << 16) + (uint64_t)part);
    a.codes.resize(QUERIES_OF_PART), a.answers.resize(QUERIES_OF_PART);
    for (size_t i = 0; i < QUERIES_OF_PART; i++) {
        bool hit = o == MISSES ? false : o == HALF ? r.next() >> 31 : true;
        uint32_t code;
        if (hit) code = l.codes[r.below((uint32_t)l.codes.size())];
        else do code = 1 + r.below(65536);
            while (schedule_of[code]);
        a.codes[i] = code, a.answers[i] = schedule_of[code];
        a.sum += a.answers[i];
    }
    if (const size_t each = each_panel(o))
        for (size_t i = 0; i < QUERIES_OF_PART; i += each) a.panels += *std::min_element(&a.answers[i], &a.answers[i] + each, decides);
    return a;
}

volatile uint32_t zero = 0;

uint64_t run(const structure &s, const void *t, const Asked &a, Operation o) {
    if (o == CHAIN) return s.chain(t, a.codes.data(), QUERIES_OF_PART, zero);
    if (const size_t each = each_panel(o)) return s.panels(t, holds.data(), a.codes.data(), each, QUERIES_OF_PART / each);
    return s.sum(t, a.codes.data(), QUERIES_OF_PART);
}

uint64_t expected(const Asked &a, Operation o) { return o == CHAIN ? a.answers.back() : each_panel(o) ? a.panels : a.sum; }

// The fixed list of a size, and its table in each structure.
struct Tables {
    size_t n;
    List list;
    std::vector<uint16_t> schedule_of;
    std::vector<void *> tables;
    std::vector<Words> lent;
    const std::vector<structure> &all;

    Tables(const std::vector<structure> &structures, size_t size)
        : n(size), list(fixed_list(n)), schedule_of(65537), tables(structures.size()), lent(structures.size(), Words(glass_words(n))),
          all(structures) {
        for (size_t i = 0; i < n; i++) schedule_of[list.codes[i]] = (uint16_t)list.schedules[i];
    }
    void build(size_t s) {
        if (!has(all[s], n) || !builds(all[s])) return;
        tables[s] = all[s].build(list.codes.data(), list.schedules.data(), n, lent[s].data());
        if (!tables[s]) wrong(all[s].name, "build of the list that is asked");
    }
    ~Tables() {
        for (size_t s = 0; s < all.size(); s++)
            if (tables[s]) all[s].drop(tables[s]);
    }
};

size_t heap() {
    struct mallinfo2 m = mallinfo2();
    return m.uordblks + m.hblkhd;
}

void print_bytes(const std::vector<structure> &all) {
    for (int size = 0; size < SIZES; size++) {
        Tables t(all, sizes[size]);
        for (size_t s = 0; s < all.size(); s++) {
            size_t before = heap();
            t.build(s);
            size_t taken = heap() - before;
            if (t.tables[s] && all[s].bytes) taken = all[s].bytes(t.tables[s]);
            if (!builds(all[s])) taken = has(all[s], t.n) ? gperf_bytes[size] : 0;
            std::printf("%.2f\n", (double)taken / (double)t.n);
        }
    }
}

void lookups(const std::vector<structure> &all, int size, bool timed, Results &results) {
    Tables t(all, sizes[size]);
    for (size_t s = 0; s < all.size(); s++) t.build(s);
    Words out(QUERIES_OF_PART);
    Random r(11);
    for (int round = 0; round < ROUNDS; round++)
        for (int o = HITS; o <= PANEL_4; o++) {
            std::vector<double> spent(all.size());
            for (int part = 0; part < PARTS; part++) {
                Asked a = asked(t.list, t.schedule_of, (Operation)o, PARTS * round + part);
                const size_t here = place(r);
                for (size_t s : order(all.size(), r)) {
                    if (!has(all[s], t.n)) continue;
                    if (!timed) {
                        all[s].answers(t.tables[s], a.codes.data(), QUERIES_OF_PART, out.data());
                        if (out != a.answers) wrong(all[s].name, operation_names[o]);
                    }
                    uint64_t got = 0;
                    from_place(here, [&] {
                        double start = now();
                        got = run(all[s], t.tables[s], a, (Operation)o);
                        spent[s] += now() - start;
                    });
                    if (got != expected(a, (Operation)o)) wrong(all[s].name, operation_names[o]);
                }
            }
            for (size_t s = 0; timed && s < all.size(); s++)
                if (has(all[s], t.n)) results.of[size][o][s].push_back(spent[s] / QUERIES);
        }
}

// ---- build, check, read back

// The lists of one round, and their pairs by rising code.
struct Lists {
    std::vector<List> lists, sorted;
};

Lists lists_of(Kind kind, size_t n, size_t codes, int round) {
    Lists ls;
    Random r(((uint64_t)n << 32) + ((uint64_t)(100 + kind) << 16) + (uint64_t)round);
    for (size_t i = 0; i < codes / n; i++) {
        List l = list_of(kind, n, r), s;
        std::vector<std::pair<uint32_t, uint32_t>> p;
        for (size_t u = 0; u < n; u++) p.emplace_back(l.codes[u], l.schedules[u]);
        std::sort(p.begin(), p.end());
        for (auto &x : p) s.codes.push_back(x.first), s.schedules.push_back(x.second);
        ls.lists.push_back(l), ls.sorted.push_back(s);
    }
    return ls;
}

// Brings what a build reads and writes near, whoever was there before.
uint32_t touch(const List &l, Words &lent) {
    uint32_t x = 0;
    for (size_t i = 0; i < l.codes.size(); i++) x ^= l.codes[i] ^ l.schedules[i];
    for (uint32_t &w : lent) w = x;
    return x;
}

// Fresh lists, some at a time, so that few tables are there at once. The first `count` structures take part: all, or ours and the yardstick's.
void builds_of(const std::vector<structure> &all, size_t count, Kind kind, int size, size_t codes, bool timed, Results &results) {
    size_t n = sizes[size], at_once = std::max<size_t>(1, 4096 / n);
    std::vector<void *> tables(at_once);
    std::vector<Words> lent(at_once, Words(glass_words(n)));
    Words out_codes(n), out_schedules(n);
    Random r(13);
    for (int round = 0; round < ROUNDS; round++) {
        Lists ls = lists_of(kind, n, codes, round);
        std::vector<double> build(count), check(count), pairs(count);
        for (size_t from = 0; from < ls.lists.size(); from += at_once) {
            size_t here = std::min(at_once, ls.lists.size() - from), stack = place(r);
            for (size_t s : order(count, r)) {
                const structure &it = all[s];
                if (!builds(it)) continue;
                for (size_t u = 0; u < here; u++) touch(ls.lists[from + u], lent[u]);
                size_t got = 0, gone = 0, bad = 0;
                from_place(stack, [&] {
                    double t0 = now();
                    for (size_t u = 0; u < here; u++) {
                        const List &l = ls.lists[from + u];
                        tables[u] = it.build(l.codes.data(), l.schedules.data(), n, lent[u].data());
                    }
                    double t1 = now();
                    for (size_t u = 0; u < here; u++) {
                        if (!tables[u]) gone++;
                        else got += it.pairs(tables[u], out_codes.data(), out_schedules.data());
                        const List &l = ls.sorted[from + u];
                        if (!timed && tables[u] && (out_codes != l.codes || out_schedules != l.schedules)) wrong(it.name, "pairs");
                    }
                    double t2 = now();
                    if (it.check)
                        for (size_t u = 0; u < here; u++) bad |= it.check(tables[u]);
                    build[s] += t1 - t0, pairs[s] += t2 - t1, check[s] += now() - t2;
                });
                if (got != (here - gone) * n || bad) wrong(it.name, "check or read back");
                for (size_t u = 0; u < here; u++)
                    if (tables[u]) it.drop(tables[u]);
                if (timed) results.failed[s] += gone;
            }
        }
        if (!timed) continue;
        double all_codes = (double)(ls.lists.size() * n);
        for (size_t s = 0; s < count; s++) {
            if (!builds(all[s])) continue;
            results.structured[size][kind][s].push_back(build[s] / all_codes);
            if (kind != RANDOM) continue;
            results.of[size][BUILD][s].push_back(build[s] / all_codes);
            results.of[size][PAIRS][s].push_back(pairs[s] / all_codes);
            if (all[s].check) results.of[size][CHECK][s].push_back(check[s] / all_codes);
        }
    }
}

void builds_of_two(const std::vector<structure> &all, size_t count, Results &results) {
    uint32_t lent[8 * 2 - 1];
    Random r(17);
    for (int round = 0; round < ROUNDS; round++)
        for (int two = 0; two < TWOS; two++)
            for (size_t s : order(count, r)) {
                double t = now();
                for (int u = 0; u < TWO_TIMES; u++)
                    if (!all[s].build(twos[two].codes, twos[two].schedules, 2, lent)) wrong(all[s].name, twos[two].name);
                results.two[two][s].push_back((now() - t) / (2 * TWO_TIMES));
            }
}

// ---- by size

// One call: what is given, lent memory at its end, and the answer.
struct Case {
    List list;
    Words table, filled;
    size_t value;
};

// Fresh lists in each part. Their tables are by a builder that is not timed: the branch predictor has met them with nobody.
template <class Make, class Call> void by_size(Sized o, int row, Results &results, Make make, Call call) {
    const size_t n = table_sizes[row];
    Random r(37);
    for (int round = 0; round < ROUNDS; round++) {
        std::vector<double> spent(FUNCTIONS);
        size_t codes = 0;
        for (int part = 0; part < PARTS; part++) {
            const Lists ls = lists_of(RANDOM, n, BUILT / PARTS, (o * ROUNDS + round) * PARTS + part);
            std::vector<Case> cases;
            for (size_t i = 0; i < ls.lists.size(); i++) cases.push_back(make(ls.lists[i], ls.sorted[i]));
            std::vector<Words> lent(cases.size(), Words(glass_words(n)));
            size_t refused;
            auto work = [&](const Functions &f) {
                refused = 0;
                for (size_t u = 0; u < cases.size(); u++) {
                    glass_answer a = call(f, cases[u], lent[u]);
                    refused += a.number || a.value != cases[u].value;
                }
            };
            auto right = [&](const Functions &) {
                bool same = refused == 0;
                for (size_t u = 0; u < cases.size(); u++) {
                    same = same && std::equal(cases[u].filled.begin(), cases[u].filled.end(), lent[u].begin());
                    std::fill(lent[u].begin(), lent[u].end(), 0);
                }
                return same;
            };
            in_turn(functions, r, spent, sized_names[o], work, right);
            codes += n * cases.size();
        }
        add_round(results.sized[o][row], spent, (double)codes);
    }
}

// What is put in or taken out is the last code of a list.
void of_size(int row, Results &results) {
    auto without = [](List l) { return l.codes.pop_back(), l.schedules.pop_back(), l; };
    auto changed = [](List l) { return l.schedules.back() = l.schedules.back() % 999 + 1, l; };
    auto made = [](const List &l, const Words &table, const Words &filled) { return Case{l, table, filled, filled.size()}; };
    auto put_in = [](const Functions &f, const Case &c, Words &lent) {
        return f.insert(c.table.data(), c.table.size(), c.list.codes.back(), c.list.schedules.back(), lent.data(), lent.size());
    };
    by_size(
        SIZED_BUILD, row, results, [=](const List &l, const List &) { return made(l, {}, table_of(l)); },
        [](const Functions &f, const Case &c, Words &lent) {
            return f.build(c.list.codes.data(), c.list.codes.size(), c.list.schedules.data(), c.list.codes.size(), lent.data(), lent.size());
        });
    by_size(
        SIZED_CHECK, row, results,
        [](const List &l, const List &) {
            Words table = table_of(l);
            return Case{l, table, {}, table.size()};
        },
        [](const Functions &f, const Case &c, Words &) { return f.check(c.table.data(), c.table.size()); });
    by_size(
        SIZED_PAIRS, row, results,
        [](const List &l, const List &sorted) {
            // the codes, and the schedules after them
            Words pairs = sorted.codes;
            pairs.insert(pairs.end(), sorted.schedules.begin(), sorted.schedules.end());
            return Case{l, table_of(l), pairs, l.codes.size()};
        },
        [](const Functions &f, const Case &c, Words &lent) {
            return f.pairs(c.table.data(), c.table.size(), lent.data(), c.value, lent.data() + c.value, c.value);
        });
    by_size(SIZED_INSERT_NEW, row, results, [=](const List &l, const List &) { return made(l, table_of(without(l)), table_of(l)); }, put_in);
    by_size(SIZED_INSERT_PRESENT, row, results, [=](const List &l, const List &) { return made(l, table_of(changed(l)), table_of(l)); }, put_in);
    by_size(
        SIZED_REMOVE, row, results, [=](const List &l, const List &) { return made(l, table_of(l), table_of(without(l))); },
        [](const Functions &f, const Case &c, Words &lent) {
            return f.remove(c.table.data(), c.table.size(), c.list.codes.back(), lent.data(), lent.size());
        });
}

// Fresh lists in each part, as above. All builders give the words of the one that was first.
void builds_for(int prime, int row, Results &results) {
    const uint32_t p = primes[prime];
    const size_t n = prime_sizes[row];
    Random r(47);
    for (int round = 0; round < ROUNDS; round++) {
        std::vector<double> spent(BUILDERS);
        size_t codes = 0;
        for (int part = 0; part < PARTS; part++) {
            Random seeds(((uint64_t)n << 48) + ((uint64_t)(300 + prime) << 32) + (uint64_t)(round * PARTS + part));
            std::vector<List> lists;
            for (size_t i = 0; i < BUILT / PARTS / n; i++) lists.push_back(random_list_for(p, n, seeds));
            std::vector<Words> lent(lists.size(), Words(glass_words(n))), first;
            size_t refused;
            auto work = [&](const Builder &b) {
                refused = 0;
                for (size_t u = 0; u < lists.size(); u++)
                    refused += b.build(p, lists[u].codes.data(), n, lists[u].schedules.data(), n, lent[u].data(), lent[u].size()).number;
            };
            auto right = [&](const Builder &) {
                if (first.empty()) first = lent;
                bool same = refused == 0 && lent == first;
                for (Words &w : lent) std::fill(w.begin(), w.end(), 0);
                return same;
            };
            in_turn(builders, r, spent, "table for a prime", work, right);
            codes += n * lists.size();
        }
        add_round(results.for_prime[prime][row], spent, (double)codes);
    }
}

// ---- lists as text

// One list, and its text with a null byte after it.
struct Text {
    List list;
    std::vector<uint8_t> bytes;
};

Text text_of(const TextKind &kind, Random &r) {
    Text t;
    for (size_t i = 0; i < kind.lines; i++) t.list.add(kind.any_code ? r.next() : 1 + r.below(65536), r);
    string s = lines_of(t.list.codes, ',', t.list.schedules);
    t.bytes.assign(s.c_str(), s.c_str() + s.size() + 1);
    return t;
}

// Fresh texts, some at a time: each is read by one function after the other, and its list written.
void texts_of(int kind, bool timed, Results &results) {
    size_t n = text_kinds[kind].lines, at_once = std::max<size_t>(1, 4096 / n);
    List out;
    out.codes.resize(n), out.schedules.resize(n);
    std::vector<uint8_t> written(glass_text_bytes(n) + 1);
    Random r(19);
    for (int round = 0; round < ROUNDS; round++) {
        std::vector<double> read(TEXT_FUNCTIONS), write(TEXT_FUNCTIONS);
        for (size_t from = 0; from < BUILT / n; from += at_once) {
            Random seeds(((uint64_t)(200 + kind) << 32) + ((uint64_t)round << 16) + from);
            std::vector<Text> texts;
            size_t bytes = 0;
            for (size_t u = 0; u < at_once; u++) texts.push_back(text_of(text_kinds[kind], seeds)), bytes += texts[u].bytes.size() - 1;
            for (size_t f : order(TEXT_FUNCTIONS, r)) {
                const TextFunctions &it = text_functions[f];
                size_t lines = 0, got = 0;
                double t0 = now();
                for (const Text &t : texts)
                    lines += it.read(t.bytes.data(), t.bytes.size() - 1, out.codes.data(), n, out.schedules.data(), n).value;
                double t1 = now();
                for (const Text &t : texts)
                    got += it.write(t.list.codes.data(), n, t.list.schedules.data(), n, written.data(), glass_text_bytes(n)).value;
                double t2 = now();
                if (lines != at_once * n || got != bytes) wrong(it.name, "text");
                read[f] += t1 - t0, write[f] += t2 - t1;
                for (const Text &t : texts) {
                    if (timed) break;
                    it.read(t.bytes.data(), t.bytes.size() - 1, out.codes.data(), n, out.schedules.data(), n);
                    it.write(t.list.codes.data(), n, t.list.schedules.data(), n, written.data(), glass_text_bytes(n));
                    if (out.codes != t.list.codes || out.schedules != t.list.schedules) wrong(it.name, "list read");
                    if (std::memcmp(written.data(), t.bytes.data(), t.bytes.size() - 1)) wrong(it.name, "text written");
                }
            }
        }
        if (timed) add_round(results.read[kind], read, BUILT), add_round(results.written[kind], write, BUILT);
    }
}

// ---- test loads

void loads_of(int row, bool timed, Results &results) {
    size_t n = load_lengths[row], times = GENERATED / n;
    List ours, out;
    for (List *l : {&ours, &out}) l->codes.resize(n), l->schedules.resize(n);
    glass_generate(n, ours.codes.data(), n, ours.schedules.data(), n);
    Random r(23);
    for (int round = 0; round < ROUNDS; round++) {
        std::vector<double> spent(GENERATORS);
        size_t codes;
        auto generate = [&](const Generator &it) {
            codes = 0;
            for (size_t u = 0; u < times; u++) codes += it.generate(n, out.codes.data(), n, out.schedules.data(), n).value;
        };
        auto right = [&](const Generator &) { return codes == times * n && out.codes == ours.codes && out.schedules == ours.schedules; };
        in_turn(generators, r, spent, "load", generate, right);
        if (timed) add_round(results.generated[row], spent, (double)codes);
    }
}

// ---- words of bytes, the listing

// Bytes and words are half a page apart: where they are whole pages apart, loads wait for stores to the same place of another page.
struct Lent {
    alignas(4096) uint8_t bytes[65536];
    uint8_t apart[2048];
    uint32_t words[16384];
};

void words_of(int row, bool timed, Results &results) {
    static Lent lent;
    size_t n = byte_counts[row], times = BYTES_READ / n;
    Random r(29);
    for (int round = 0; round < ROUNDS; round++) {
        for (size_t i = 0; i < n; i++) lent.bytes[i] = (uint8_t)r.next();
        std::vector<double> spent(WORD_MAKERS);
        size_t words;
        auto make = [&](const WordMaker &it) {
            words = 0;
            for (size_t u = 0; u < times; u++) words += it.words_of(lent.bytes, n, lent.words, n / 4);
        };
        // the least byte of a word is its first here
        auto right = [&](const WordMaker &) {
            bool same = words == times * (n / 4) && !std::memcmp(lent.words, lent.bytes, n);
            std::memset(lent.words, 0, n);
            return same;
        };
        in_turn(word_makers, r, spent, "words", make, right);
        if (timed) add_round(results.words[row], spent, (double)times);
    }
}

// A table file, and its listing.
struct File {
    std::vector<uint8_t> bytes;
    string text;
};

std::vector<File> files_of(size_t n, int round) {
    Lists ls = lists_of(RANDOM, n, BUILT, round);
    std::vector<File> files(ls.lists.size());
    for (size_t i = 0; i < files.size(); i++) {
        const List &s = ls.sorted[i];
        const Words words = table_of(ls.lists[i]);
        const uint8_t *bytes = (const uint8_t *)words.data();
        files[i].bytes.assign(bytes, bytes + 4 * words.size());
        files[i].text = "codes " + std::to_string(n) + " cells " + std::to_string(words[1]) + " multiplier " + std::to_string(words[2]) + "\n" +
                        lines_of(s.codes, ' ', s.schedules);
    }
    return files;
}

// Fresh tables, some at a time.
void listed(int size, bool timed, Results &results) {
    static uint8_t text[FILES_MOST_TEXT];
    size_t n = sizes[size], at_once = std::max<size_t>(1, 4096 / n);
    Random r(31);
    for (int round = 0; round < ROUNDS; round++) {
        const std::vector<File> files = files_of(n, round);
        std::vector<double> spent(LISTERS);
        for (auto from = files.begin(); from < files.end(); from += (ptrdiff_t)at_once) {
            const auto end = from + (ptrdiff_t)at_once;
            size_t bytes = 0, got;
            for (auto f = from; f < end; f++) bytes += f->text.size();
            auto list = [&](const Lister &it) {
                got = 0;
                for (auto f = from; f < end; f++) got += it.list(f->bytes.data(), f->bytes.size(), text);
            };
            auto right = [&](const Lister &it) {
                for (auto f = from; !timed && f < end; f++)
                    if (it.list(f->bytes.data(), f->bytes.size(), text) != f->text.size() || std::memcmp(text, f->text.data(), f->text.size())) return false;
                return got == bytes;
            };
            in_turn(listers, r, spent, "listing", list, right);
        }
        if (timed) add_round(results.listed[size], spent, (double)(files.size() * (n + 1)));
    }
}

// ---- the tables

double part(Series s, double p) {
    std::sort(s.begin(), s.end());
    return s[(size_t)(p * (double)(s.size() - 1))];
}

string number(double x) {
    char b[32];
    std::snprintf(b, sizeof b, x < 10 ? "%.2f" : x < 100 ? "%.1f" : "%.0f", x);
    return b;
}

// the 20th percentile, and the median of ours / other
string cell(const std::vector<Series> &of, size_t s) {
    if (of[s].empty()) return "-";
    string c = number(part(of[s], 0.2));
    if (s == 0) return c;
    Series ratios;
    for (size_t i = 0; i < of[s].size(); i++) ratios.push_back(of[0][i] / of[s][i]);
    char b[32];
    std::snprintf(b, sizeof b, " (%.2f)", part(ratios, 0.5));
    return c + b;
}

string processor() {
    std::ifstream f("/proc/cpuinfo");
    for (string line; std::getline(f, line);)
        if (line.compare(0, 10, "model name") == 0) return line.substr(line.find(':') + 2);
    return "unknown";
}

string report(const std::vector<structure> &all, const Results &results, const string &compared, const string &stacks, const string &searches,
              double load, int argc, char **argv) {
    char date[64], loads[64];
    time_t t = time(nullptr);
    strftime(date, sizeof date, "%Y-%m-%d", localtime(&t));
    double load_now = 0;
    getloadavg(&load_now, 1);
    std::snprintf(loads, sizeof loads, "%.1f at the start, %.1f at the end", load, load_now);
    string s = "# What the benchmark measured\n\nWritten by `bench/run`; bench/README.md says how to read it.\n\n";
    s += "- Processor: " + processor() + ". Date: " + date + ". Load average: " + loads + ".\n";
    s += string("- Ours: ") + argv[3] + ".\n";
    for (int i = 4; i < argc; i++) s += string("- ") + argv[i] + ".\n";
    s += "- " + grouped(ROUNDS) + " rounds of " + grouped(QUERIES) + " queries, and of " + grouped(BUILT) +
         " codes in fresh lists or tables or lines in fresh texts, of about " + grouped(GENERATED) + " codes in test loads, and of about " +
         grouped(BYTES_READ) + " bytes made words. A figure is the 20th percentile of the rounds, in ns a query (hits, misses, half, chain), a code of a panel, "
         "a code of the table (build, check, read back), a line of a text or a listing, a code of a load, or all the bytes of a row. In brackets the median of ours / other: below 1 ours is faster.\n";
    for (int size = 0; size < SIZES; size++) {
        size_t n = sizes[size];
        s += "\n## " + grouped(n) + " codes\n\n|";
        for (const char *o : operation_names) s += string(" | ") + o;
        s += " | bytes a code |\n|---|";
        for (int o = 0; o <= OPERATIONS; o++) s += "---|";
        s += "\n";
        for (size_t i = 0; i < all.size(); i++) {
            if (!has(all[i], n)) continue;
            s += string("| ") + all[i].name;
            for (int o = 0; o < OPERATIONS; o++) s += " | " + cell(results.of[size][o], i);
            s += " | " + number(results.bytes[size][i]) + " |\n";
        }
    }
    // a row for each size, a column for each function
    auto table = [&](const string &head, const auto &functions, const auto &rows, const std::vector<Series> *of) {
        s += head;
        for (const auto &f : functions) s += string(" | ") + f.name;
        s += " |\n|---|";
        for (size_t f = 0; f < std::size(functions); f++) s += "---|";
        s += "\n";
        for (size_t row = 0; row < std::size(rows); row++) {
            s += "| " + grouped(rows[row]);
            for (size_t f = 0; f < std::size(functions); f++) s += " | " + cell(of[row], f);
            s += " |\n";
        }
    };
    s += "\n## By the size of the table\n\nOf random lists, in ns a code: of the new table where a new code is put in, of the old one where a code is taken out. The rounds of " + grouped(PROCESSES) + " processes.\n";
    for (int o = 0; o < SIZED; o++) table(string("\n### ") + sized_names[o] + "\n\n| codes", functions, table_sizes, results.sized[o]);
    s += "\n## Build, by the shape of the list\n\n| list | codes";
    for (size_t i = 0; i < FUNCTIONS; i++) s += string(" | ") + all[i].name;
    s += " |\n|---|---|---|---|---|\n";
    auto row = [&](const char *name, size_t n, const std::vector<Series> &of) {
        s += string("| ") + name + " | " + grouped(n);
        for (size_t i = 0; i < FUNCTIONS; i++) s += " | " + cell(of, i);
        s += " |\n";
    };
    for (int kind = 0; kind < KINDS; kind++)
        for (int size = 0; size < SIZES; size++) row(kind_names[kind], sizes[size], results.structured[size][kind]);
    for (int two = 0; two < TWOS; two++) row(twos[two].name, 2, results.two[two]);
    s += "\n## Builds for three primes\n\n### Random lists\n\nFresh ones, codes from 1 to the prime less one, in ns a code. The rounds of " + grouped(PROCESSES) +
         " processes.\n";
    for (int prime = 0; prime < PRIMES; prime++) table("\n#### Prime " + grouped(primes[prime]) + "\n\n| codes", builders, prime_sizes, results.for_prime[prime]);
    s += searches;
    s += "\n## Lists as text\n\nIn ns a line.\n\n| | lines | codes";
    for (const TextFunctions &f : text_functions) s += string(" | ") + f.name;
    s += " |\n|---|---|---|---|---|---|---|\n";
    for (int write = 0; write < 2; write++)
        for (int kind = 0; kind < TEXT_KINDS; kind++) {
            s += string(write ? "| write | " : "| read | ") + grouped(text_kinds[kind].lines);
            s += text_kinds[kind].any_code ? " | any 32 bits" : " | 1 to 65,536";
            for (size_t f = 0; f < TEXT_FUNCTIONS; f++) s += " | " + cell(write ? results.written[kind] : results.read[kind], f);
            s += " |\n";
        }
    table("\n## Test loads\n\nIn ns a code.\n\n| length", generators, load_lengths, results.generated);
    table("\n## Words of bytes\n\nIn ns for all the bytes of a row.\n\n| bytes", word_makers, byte_counts, results.words);
    table("\n## The listing\n\nFrom the bytes of a table file to the text in lent memory, in ns a line.\n\n| codes", listers, sizes, results.listed);
    s += "\n## Stack\n\n" + stacks;
    s += "\n## Compared before anything was timed\n\n" + compared;
    s += "\nAll structures gave the same answers to every query that was timed, and read back the same pairs; all texts were read and written, all loads "
         "generated, all bytes made words and all tables listed alike. By size, every build, put in and take out gave the table of a plain builder; "
         "for each prime, every list that C built had the same words.";
    size_t lists = 0;
    for (size_t n : sizes) lists += ROUNDS * (BUILT / n);
    for (size_t i = 0; i < all.size(); i++)
        if (results.failed[i])
            s += string(" ") + all[i].name + ": no hash found for " + grouped(results.failed[i]) + " of " + grouped(lists) + " lists.";
    return s + "\n";
}

// one processor, the last that is allowed
void pin() {
    cpu_set_t cpus;
    if (sched_getaffinity(0, sizeof cpus, &cpus) != 0) return;
    int last = CPU_SETSIZE - 1;
    while (last > 0 && !CPU_ISSET(last, &cpus)) last--;
    CPU_ZERO(&cpus);
    CPU_SET(last, &cpus);
    sched_setaffinity(0, sizeof cpus, &cpus);
}

// The rounds of the tables by size, as one process hands them to another.
template <class Each> void each_sized(Results &results, Each each) {
    for (auto &o : results.sized)
        for (auto &size : o) {
            size.resize(FUNCTIONS);
            for (Series &f : size) each(f);
        }
    for (auto &prime : results.for_prime)
        for (auto &size : prime) {
            size.resize(BUILDERS);
            for (Series &f : size) each(f);
        }
}

void all_sized(Results &results) {
    for (int row = 0; row < TABLE_SIZES; row++) of_size(row, results);
    for (int prime = 0; prime < PRIMES; prime++)
        for (int row = 0; row < PRIME_SIZES; row++) builds_for(prime, row, results);
}

void print_sized() {
    Results results;
    each_sized(results, [](Series &) {});
    all_sized(results);
    each_sized(results, [](Series &f) {
        for (double ns : f) std::printf("%.4f\n", ns);
    });
}

// Adds the rounds of another process.
void read_sized(const string &program, Results &results) {
    FILE *in = popen(("'" + program + "' sized").c_str(), "r");
    if (!in) wrong(program.c_str(), "process");
    each_sized(results, [&](Series &f) {
        for (int round = 0; round < ROUNDS; round++) {
            double ns;
            if (std::fscanf(in, "%lf", &ns) != 1) wrong(program.c_str(), "rounds");
            f.push_back(ns);
        }
    });
    if (pclose(in) != 0) wrong(program.c_str(), "process");
}

} // namespace

int main(int argc, char **argv) {
    std::vector<structure> all = {glass_structure(functions[0].name), yard_structure(functions[1].name), yardgcc_structure(functions[2].name)};
    for (const structure &s : peers()) all.push_back(s);
    pin();
    if (argc == 2 && !std::strcmp(argv[1], "bytes")) return print_bytes(all), 0;
    if (argc == 2 && !std::strcmp(argv[1], "sized")) return print_sized(), 0;
    if (argc < 4) return 2;
    double load = 0;
    getloadavg(&load, 1);

    Results results;
    std::ifstream bytes(argv[2]);
    results.failed.resize(all.size());
    for (int size = 0; size < SIZES; size++) {
        for (auto &o : results.of[size]) o.resize(all.size());
        for (auto &o : results.structured[size]) o.resize(all.size());
        results.bytes[size].resize(all.size());
        for (double &b : results.bytes[size]) bytes >> b;
    }
    if (!bytes) wrong(argv[2], "bytes");
    for (auto &o : results.two) o.resize(all.size());
    each_sized(results, [](Series &) {});
    for (int kind = 0; kind < TEXT_KINDS; kind++) results.read[kind].resize(TEXT_FUNCTIONS), results.written[kind].resize(TEXT_FUNCTIONS);
    for (auto &o : results.generated) o.resize(GENERATORS);
    for (auto &o : results.words) o.resize(WORD_MAKERS);
    for (auto &o : results.listed) o.resize(LISTERS);

    double t = clock_of(CLOCK_MONOTONIC);
    auto step = [&t](const char *what) {
        double end = clock_of(CLOCK_MONOTONIC);
        std::fprintf(stderr, "%5.1f s  %s\n", (end - t) / 1e9, what);
        t = end;
    };
    const string compared = compare_all();
    step("ours and the yardstick compared");
    const string stacks = stacks_of_calls();
    step("stacks measured");
    for (int timed = 0; timed < 2; timed++) {
        for (int size = 0; size < SIZES; size++) lookups(all, size, timed, results);
        step(timed ? "lookups and panels timed" : "lookups and panels compared");
        for (int size = 0; size < SIZES; size++) builds_of(all, all.size(), RANDOM, size, BUILT, timed, results);
        for (int kind = PROGRESSION; kind < KINDS; kind++)
            for (int size = 0; size < SIZES; size++) builds_of(all, FUNCTIONS, (Kind)kind, size, OTHER_BUILT, timed, results);
        step(timed ? "builds, checks and read backs timed" : "builds, checks and read backs compared");
        for (int kind = 0; kind < TEXT_KINDS; kind++) texts_of(kind, timed, results);
        step(timed ? "lists as text timed" : "lists as text compared");
        for (int row = 0; row < LOAD_LENGTHS; row++) loads_of(row, timed, results);
        step(timed ? "test loads timed" : "test loads compared");
        for (int row = 0; row < BYTE_COUNTS; row++) words_of(row, timed, results);
        for (int size = 0; size < SIZES; size++) listed(size, timed, results);
        step(timed ? "words of bytes and listings timed" : "words of bytes and listings compared");
    }
    builds_of_two(all, FUNCTIONS, results);
    all_sized(results);
    for (int process = 1; process < PROCESSES; process++) read_sized(argv[0], results);
    step("tables by size timed");
    const string searches = long_searches();
    step("long searches timed");
    string s = report(all, results, compared, stacks, searches, load, argc, argv);
    std::ofstream(argv[1]) << s;
    std::cout << s;
    return std::cout ? 0 : 1;
}
