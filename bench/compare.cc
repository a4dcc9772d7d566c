#include "compare.h"

#include "builders.h"
#include "families.h"
#include "functions.h"
#include "generators.h"
#include "listers.h"
#include "lists.h"
#include "tables.h"

#include <algorithm>
#include <cstdio>
#include <cstdlib>
#include <map>
#include <vector>

namespace {

using Bytes = std::vector<uint8_t>;

// how often each operation gave each number
std::map<std::string, std::map<uint32_t, uint64_t>> seen;

void changed(const char *operation) {
    std::fprintf(stderr, "%s: ours changed lent memory on a refusal\n", operation);
    std::exit(1);
}

void differ(const char *operation, const char *who, const char *what) {
    std::fprintf(stderr, "%s: %s differs from ours in %s\n", operation, who, what);
    std::exit(1);
}

// a glass_answer or a glass_size
template <class Answer> void same(const char *operation, const char *who, Answer a, Answer b) {
    if (a.number == b.number && a.value == b.value) return;
    std::fprintf(stderr, "%s: ours %u %zu, %s %u %zu\n", operation, a.number, (size_t)a.value, who, b.number, (size_t)b.value);
    std::exit(1);
}

void same(const char *operation, const char *who, glass_found a, glass_found b) {
    if (a.number == b.number && a.value == b.value && a.cell == b.cell) return;
    std::fprintf(stderr, "%s: ours %u %u in cell %u, %s %u %u in cell %u\n", operation, a.number, a.value, a.cell, who, b.number, b.value, b.cell);
    std::exit(1);
}

// Lent memory stands between elements that are not lent.
enum { AROUND = 4 };

template <class Element = uint32_t> std::vector<Element> lent(size_t len, Random &r) {
    std::vector<Element> v(len + 2 * AROUND);
    for (Element &x : v) x = (Element)r.next();
    return v;
}

// What ours writes into lent memory of any length, and the others alike; empty where it is refused.
template <class Element = uint32_t, class All, class Call>
std::vector<Element> filled_by(const All &all, const char *operation, size_t len, Random &r, Call call) {
    const std::vector<Element> before = lent<Element>(len, r);
    std::vector<Element> first = before;
    const auto a = call(all[0], first.data() + AROUND);
    if (a.number && first != before) changed(operation);
    for (const auto &f : all) {
        std::vector<Element> v = before;
        same(operation, f.name, a, call(f, v.data() + AROUND));
        if (v != first) differ(operation, f.name, "lent memory");
    }
    seen[operation][a.number]++;
    if (a.number) return {};
    return std::vector<Element>(first.begin() + AROUND, first.begin() + AROUND + (ptrdiff_t)a.value);
}
template <class Element = uint32_t, class Call> std::vector<Element> filled(const char *operation, size_t len, Random &r, Call call) {
    return filled_by<Element>(functions, operation, len, r, call);
}

// The table of a list.
Words built(Words codes, Words schedules, size_t len, Random &r) {
    codes.reserve(1), schedules.reserve(1); // pointers that are not null
    const Words codes_before = codes, schedules_before = schedules;
    return filled("build", len, r, [&](const Functions &f, uint32_t *words) {
        glass_answer a = f.build(codes.data(), codes.size(), schedules.data(), schedules.size(), words, len);
        if (codes != codes_before || schedules != schedules_before) differ("build", f.name, "the list");
        return a;
    });
}

// Whether a found code and its schedule stand in the answer's cell, one of the table's; without a schedule there is no cell.
bool in_its_cell(const Words &table, uint32_t code, glass_found a) {
    if (a.number) return a.cell == 0;
    const size_t n = table[0], c = table[1], at = 3 + 2 * n + a.cell;
    return a.cell < c && table[at] == code && table[at + c] == a.value;
}

void lookups(const Words &table, const Words &codes) {
    for (uint32_t code : codes) {
        glass_found a = functions[0].lookup(table.data(), table.size(), code);
        for (const Functions &f : functions) same("look up", f.name, a, f.lookup(table.data(), table.size(), code));
        if (!in_its_cell(table, code, a)) differ("look up", "the table", "the cell");
        seen["look up"][a.number]++;
    }
}

// The answer to a panel from our lookups of all its codes, as document 02 words it: the longest hold, of the schedules with it the least number, of the
// codes with that schedule the first.
glass_found by_lookups(const Words &table, const Words &holds, const Words &panel) {
    if (panel.empty()) return {35, 0, 0};
    if (panel.size() > 64) return {36, 0, 0};
    if (holds.size() != 999 || *std::max_element(holds.begin(), holds.end()) > 10080) return {74, 0, 0};
    std::vector<glass_found> answers;
    for (uint32_t code : panel) answers.push_back(functions[0].lookup(table.data(), table.size(), code));
    auto hold = [&](const glass_found &a) { return holds[a.value - 1]; };
    auto ends = std::find_if(answers.begin(), answers.end(), [&](const glass_found &a) { return a.number || hold(a) == 0; });
    if (ends != answers.end()) return {ends->number ? ends->number : 75, (uint32_t)(ends - answers.begin()), 0};
    uint32_t longest = 0, least = 1000;
    for (const glass_found &a : answers) longest = std::max(longest, hold(a));
    for (const glass_found &a : answers)
        if (hold(a) == longest) least = std::min(least, a.value);
    return *std::find_if(answers.begin(), answers.end(), [&](const glass_found &a) { return a.value == least; });
}

void fired(const Words &table, const Words &holds, const Words &panel) {
    const Words before = holds;
    auto fire = [&](const Functions &f) { return f.panel(table.data(), table.size(), holds.data(), holds.size(), panel.data(), panel.size()); };
    const glass_found a = fire(functions[0]);
    for (const Functions &f : functions) same("panel", f.name, a, fire(f));
    same("panel", "its lookups", a, by_lookups(table, holds, panel));
    if (holds != before) differ("panel", "one of them", "the holds");
    seen["panel"][a.number]++;
}

// those that some lists have and no others, the ends among them
const uint32_t few_schedules[] = {1, 2, 500, 998, 999};

// Holds of few values or of many, of all schedules or not. Sometimes one is at an end of the range or beyond, or their number is wrong.
Words any_holds(Random &r) {
    const uint32_t most[] = {1, 3, 168, 10080}, ends[] = {0, 1, 10079, 10080, 10081, 65536, 1u << 31, ~(uint32_t)0};
    const size_t lengths[] = {0, 1, 998, 1000};
    const uint32_t longest = most[r.below(4)];
    const bool all_in_use = r.below(4);
    Words holds(999);
    for (uint32_t &hold : holds) hold = all_in_use || r.below(8) ? 1 + r.below(longest) : 0;
    if (r.below(4) == 0) holds[r.below(2) ? few_schedules[r.below(5)] - 1 : r.below(999)] = ends[r.below(8)];
    if (r.below(16) == 0) holds.resize(lengths[r.below(4)], 1);
    return holds;
}

// All that is asked of a table from anywhere.
void asked(const Words &table, const Words &codes, Random &r) {
    const Words before = table;
    glass_answer a = functions[0].check(table.data(), table.size());
    for (const Functions &f : functions) same("check", f.name, a, f.check(table.data(), table.size()));
    seen["check"][a.number]++;

    size_t n = table.empty() ? 0 : std::min<size_t>(table[0], 2050);
    size_t codes_len = n + r.below(3) - (n && r.below(4) == 0), schedules_len = n + r.below(3) - (n && r.below(4) == 0);
    const Words codes_before = lent(codes_len, r), schedules_before = lent(schedules_len, r);
    Words first_codes, first_schedules;
    for (const Functions &f : functions) {
        Words c = codes_before, s = schedules_before;
        glass_answer b = f.pairs(table.data(), table.size(), c.data() + AROUND, codes_len, s.data() + AROUND, schedules_len);
        if (&f == functions) {
            a = b, first_codes = c, first_schedules = s;
            if (a.number && (c != codes_before || s != schedules_before)) changed("read back");
        }
        same("read back", f.name, a, b);
        if (c != first_codes || s != first_schedules) differ("read back", f.name, "the lent arrays");
    }
    seen["read back"][a.number]++;

    Words some = {0, 1, 65536, 65537, ~(uint32_t)0};
    for (int i = 0; i < 30; i++) some.push_back(i % 2 && !codes.empty() ? codes[r.below((uint32_t)codes.size())] : r.below(65538));
    lookups(table, some);

    for (int i = 0; i < 8; i++) {
        Words panel(i == 0 ? 64 : i == 1 ? r.below(67) : r.below(8));
        bool good = r.below(2);
        for (uint32_t &x : panel) {
            if (!codes.empty() && (good || r.below(8))) x = codes[r.below((uint32_t)codes.size())];
            else x = r.below(4) ? r.below(65538) : 65537 * r.below(2);
        }
        panel.reserve(1); // a pointer that is not null
        fired(table, any_holds(r), panel);
    }
    if (table != before) differ("check, read back, look up, panel", "one of them", "the table");
}

// A well-formed table of the list with any multipliers that fit, not the least.
Words other_table(const List &l, Random &r) {
    return table_by(l, [&](uint64_t) { return 1 + r.below(65536); });
}

// A list of any shape, sometimes with a fault that the build refuses.
List any_list(uint32_t turn, Random &r) {
    uint32_t n = turn % 400 == 0 ? 2048 + r.below(2) : turn % 40 == 0 ? r.below(2050) : turn % 8 == 0 ? r.below(300) : r.below(40);
    List l;
    if (r.below(3) == 0) {
        uint32_t step = 1 + r.below(n ? std::min(65536 / n, 4096u) : 1), first = 1 + r.below(65536 - (n ? (n - 1) * step : 0));
        for (uint32_t i = 0; i < n; i++) l.add(first + i * step, r);
        for (uint32_t i = 1; i < n; i++) std::swap(l.codes[i], l.codes[r.below(i + 1)]);
    } else {
        l = random_list(n, r);
    }
    // of few schedules a panel has one several times
    if (r.below(4) == 0)
        for (uint32_t &x : l.schedules) x = few_schedules[r.below(5)];
    uint32_t fault = r.below(12);
    if (n && fault == 0) l.codes[r.below(n)] = r.below(2) ? 0 : 65537 + r.below(3);
    if (n && fault <= 1) l.codes[r.below(n)] = l.codes[r.below(n)];
    if (n && (fault == 0 || fault == 2)) l.schedules[r.below(n)] = r.below(2) ? 0 : 1000;
    if (fault == 3) l.schedules.push_back(1);
    return l;
}

// ---- holds

// In a table of all schedules each hold in turn is at an end of the range, beyond it, or about as long as all others, and its code is one of a panel's;
// then there are too few or too many holds. Gives the number of panels.
uint64_t compare_holds() {
    Random r(89);
    List l = random_list(999, r);
    for (uint32_t i = 0; i < 999; i++) l.schedules[i] = i + 1;
    const Words table = table_of(l);
    uint64_t panels = 0;
    for (uint32_t i = 0; i < 999; i++)
        for (uint32_t hold : {0u, 1u, 59u, 60u, 61u, 10079u, 10080u, 10081u, 65536u, 1u << 31, ~0u})
            for (uint32_t at = 0; at < 3; at++, panels++) {
                Words holds(999, 60), panel(3);
                holds[i] = hold;
                for (uint32_t &code : panel) code = l.codes[r.below(999)];
                panel[at] = l.codes[i];
                fired(table, holds, panel);
            }
    for (size_t len = 0; len <= 2000; len++, panels++) {
        Words holds(2000, 60);
        holds.resize(len); // its pointer stays
        fired(table, holds, {l.codes[0]});
    }
    return panels;
}

// ---- builds for each of three primes

void built_for(uint32_t p, Words codes, Words schedules, size_t len, Random &r) {
    codes.reserve(1), schedules.reserve(1); // pointers that are not null
    const Words codes_before = codes, schedules_before = schedules;
    filled_by(builders, "build for a prime", len, r, [&](const Builder &b, uint32_t *words) {
        glass_answer a = b.build(p, codes.data(), codes.size(), schedules.data(), schedules.size(), words, len);
        if (codes != codes_before || schedules != schedules_before) differ("build for a prime", b.name, "the list");
        return a;
    });
}

// Random lists, and for the lesser two those of all families: with 2,147,483,647 plain search would take too long. Some have a fault or several, some a prime
// that is none of the three, some too few lent words. Gives their number.
uint64_t compare_primes(uint32_t lists) {
    const uint32_t others[] = {0, 1, 2, 65536, 65539, 999983, 1000002, 1000004, 2147483646, 2147483648, ~(uint32_t)0};
    Random r(101);
    uint64_t compared = 0;
    for (uint32_t turn = 0; turn < lists; turn++)
        for (uint32_t p : primes) {
            uint32_t n = turn % 400 == 0 ? 2048 + r.below(2) : turn % 40 == 0 ? r.below(2050) : turn % 8 == 0 ? r.below(300) : r.below(40);
            List l = random_list_for(p, n, r);
            if (p != 2147483647 && turn % 4 == 0 && n > 2 && n < 250)
                l = list_of_family((Family)(turn / 4 % FAMILIES), p, n, r);
            n = (uint32_t)l.codes.size();
            const uint32_t fault = r.below(10);
            if (n && fault == 0) l.codes[r.below(n)] = r.below(2) ? 0 : r.below(2) ? p + r.below(3) : (1u << 31) + r.below(3);
            if (n && fault <= 1) l.codes[r.below(n)] = l.codes[r.below(n)];
            if (n && (fault == 0 || fault == 2)) l.schedules[r.below(n)] = r.below(2) ? 0 : 1000;
            if (fault == 3) l.schedules.push_back(1);
            size_t len = glass_words(n);
            if (r.below(8) == 0) len = r.below((uint32_t)len + 1);
            if (r.below(8) == 0) len += r.below(5);
            built_for(r.below(20) ? p : others[r.below((uint32_t)std::size(others))], l.codes, l.schedules, len, r);
            compared++;
        }
    return compared;
}

// ---- put in, take out

// The code is put in, and taken out: into second buffers that are longer than the new table, exactly enough, and too short by one.
void edited(const Words &table, uint32_t code, uint32_t schedule, Random &r) {
    const Words before = table;
    const size_t n = table.empty() ? 0 : std::min<size_t>(table[0], 2047);
    for (bool in : {true, false}) {
        auto edit = [&](size_t len) {
            return filled(in ? "put in" : "take out", len, r, [&](const Functions &f, uint32_t *second) {
                if (in) return f.insert(table.data(), table.size(), code, schedule, second, len);
                return f.remove(table.data(), table.size(), code, second, len);
            });
        };
        const size_t total = edit(glass_words(n + 1) + r.below(3)).size();
        if (total) edit(total), edit(total - 1);
    }
    if (table != before) differ("put in, take out", "one of them", "the table");
}

// Gives the number of tables that were edited.
uint64_t compare_edits(uint32_t lists) {
    Random r(97);
    uint64_t tables = 0;
    const uint32_t codes[] = {0, 1, 65536, 65537, ~(uint32_t)0}, schedules[] = {0, 1, 999, 1000, ~(uint32_t)0};
    for (uint32_t turn = 0; turn < lists; turn++) {
        // of the largest tables, half are full and half have room for one code
        const List l = turn % 100 == 0 ? random_list(2048 - r.below(2), r) : any_list(turn, r);
        Words table = built(l.codes, l.schedules, glass_words(l.codes.size()), r);
        if (table.empty()) continue;
        if (turn % 4 == 0 && !l.codes.empty()) table = other_table(l, r);
        for (int i = 0; i < 8; i++, tables++) {
            Words t = table;
            if (i >= 4) damage(t, r);
            t.reserve(1); // a pointer that is not null
            uint32_t code = 1 + r.below(65536);
            if (i % 4 == 0) code = codes[r.below(5)];
            else if (i % 2 && !l.codes.empty()) code = l.codes[r.below((uint32_t)l.codes.size())];
            edited(t, code, r.below(2) ? schedules[r.below(5)] : 1 + r.below(999), r);
        }
    }
    return tables;
}

// ---- lists as text

// a number of any length
uint32_t any_number(Random &r) {
    if (r.below(4)) return r.next() >> r.below(32);
    const uint32_t ends[] = {0, 1, 9, 10, 99, 100, 65536, 999999999, 1000000000, ~(uint32_t)0 - 1, ~(uint32_t)0};
    return ends[r.below(sizeof ends / sizeof *ends)];
}

// A byte is changed, put in or taken out, or the text is cut, or a number is longer or has zeros before it.
void damage(std::string &text, Random &r) {
    static const char near[] = "0123456789,,\n\n\r /:;+-a";
    static const char *const numbers[] = {"4294967296", "4294967295", "4294967294", "9999999999", "10000000000", "0", "00", "18446744073709551617"};
    size_t at = r.below((uint32_t)text.size() + 1);
    char byte = (char)(r.below(3) ? (uint32_t)near[r.below(sizeof near)] : r.below(256));
    switch (r.below(6)) {
    case 0: text.insert(at, 1, byte); break;
    case 1: text.erase(at, 1); break;
    case 2: text.resize(at); break;
    case 3: text.insert(at, numbers[r.below(sizeof numbers / sizeof *numbers)]); break;
    default:
        if (at < text.size()) text[at] = byte;
    }
}

void texts_read(const std::string &text, size_t codes_len, size_t schedules_len, Random &r) {
    Bytes given;
    given.reserve(text.size() + 1); // a pointer that is not null
    given.assign(text.begin(), text.end());
    const Bytes given_before = given;
    const Words codes_before = lent(codes_len, r), schedules_before = lent(schedules_len, r);
    Words first_codes, first_schedules;
    glass_size a = {0, 0};
    for (const Functions &f : functions) {
        Words c = codes_before, s = schedules_before;
        glass_size b = f.read_list(given.data(), given.size(), c.data() + AROUND, codes_len, s.data() + AROUND, schedules_len);
        if (&f == functions) {
            a = b, first_codes = c, first_schedules = s;
            if (a.number && (c != codes_before || s != schedules_before)) changed("read text");
        }
        same("read text", f.name, a, b);
        if (c != first_codes || s != first_schedules) differ("read text", f.name, "the lent arrays");
        if (given != given_before) differ("read text", f.name, "the text");
    }
    seen["read text"][a.number]++;
}

void texts_written(Words codes, Words schedules, size_t len, Random &r) {
    codes.reserve(1), schedules.reserve(1); // pointers that are not null
    const Words codes_before = codes, schedules_before = schedules;
    filled<uint8_t>("write text", len, r, [&](const Functions &f, uint8_t *text) {
        glass_size a = f.write_list(codes.data(), codes.size(), schedules.data(), schedules.size(), text, len);
        if (codes != codes_before || schedules != schedules_before) differ("write text", f.name, "the list");
        return a;
    });
}

// Gives the number of texts that were read.
uint64_t compare_texts(uint32_t lists) {
    Random r(71);
    uint64_t texts = 0;
    for (uint32_t turn = 0; turn < lists; turn++) {
        uint32_t n = turn % 1000 == 0 ? 2048 + r.below(2) : turn % 100 == 0 ? r.below(2050) : r.below(20);
        Words codes, schedules;
        for (uint32_t i = 0; i < n; i++) codes.push_back(any_number(r)), schedules.push_back(any_number(r));
        const std::string text = lines_of(codes, ',', schedules);
        texts_read(text, n + r.below(3) - (n && r.below(4) == 0), n + r.below(3) - (n && r.below(4) == 0), r), texts++;
        for (int i = 0; i < 8; i++, texts++) {
            std::string t = text;
            for (uint32_t left = 1 + r.below(2); left > 0; left--) damage(t, r);
            texts_read(t, n + r.below(3), n + 2, r);
        }
        size_t len = text.size() + r.below(4);
        if (r.below(4) == 0) len = r.below((uint32_t)text.size() + 1);
        if (r.below(8) == 0) schedules.push_back(1);
        texts_written(codes, schedules, len, r);
    }
    return texts;
}

// ---- test loads

void generated(size_t length, size_t codes_len, size_t schedules_len, Random &r) {
    const Words codes_before = lent(codes_len, r), schedules_before = lent(schedules_len, r);
    Words first_codes, first_schedules;
    glass_answer a = {0, 0};
    for (const Generator &g : generators) {
        Words c = codes_before, s = schedules_before;
        glass_answer b = g.generate(length, c.data() + AROUND, codes_len, s.data() + AROUND, schedules_len);
        if (&g == generators) {
            a = b, first_codes = c, first_schedules = s;
            if (a.number && (c != codes_before || s != schedules_before)) changed("generate");
        }
        same("generate", g.name, a, b);
        if (c != first_codes || s != first_schedules) differ("generate", g.name, "the lent arrays");
    }
    seen["generate"][a.number]++;
}

// Every length up to 2,050 in places that are exactly enough, then others, of which some are too few. Gives the number of calls.
uint64_t compare_loads() {
    Random r(73);
    uint64_t calls = 0;
    for (size_t length = 0; length <= 2050; length++, calls++) generated(length, length, length, r);
    const size_t large[] = {2049, 4096, 65536, ~(uint32_t)0, (size_t)1 << 32, ((size_t)1 << 32) + 5, ~(size_t)0};
    for (size_t length : large)
        for (size_t len : {(size_t)0, (size_t)5, (size_t)2048, (size_t)4096}) generated(length, len, len, r), calls++;
    for (; calls < 20000; calls++) {
        size_t n = r.below(4) ? r.below(40) : r.below(2052);
        generated(n, n + r.below(3) - (n && r.below(4) == 0), n + r.below(3) - (n && r.below(4) == 0), r);
    }
    return calls;
}

// ---- words of bytes, the listing

// The bytes begin anywhere.
void words_made(size_t bytes_len, size_t words_len, Random &r) {
    const Bytes given = lent<uint8_t>(bytes_len, r), given_before = given;
    const size_t at = r.below(2 * AROUND + 1);
    const Words before = lent(words_len, r);
    Words first;
    size_t a = 0;
    for (const WordMaker &m : word_makers) {
        Words w = before;
        size_t b = m.words_of(given.data() + at, bytes_len, w.data() + AROUND, words_len);
        if (&m == word_makers) a = b, first = w;
        if (a != b) differ("words of bytes", m.name, "the answer");
        if (w != first) differ("words of bytes", m.name, "the lent words");
        if (given != given_before) differ("words of bytes", m.name, "the bytes");
    }
}

// Every length up to 300 bytes in words that are enough, then others, of which some are too few. Gives the number of calls.
uint64_t compare_words() {
    Random r(79);
    uint64_t calls = 0;
    for (; calls <= 300; calls++) words_made(calls, calls / 4, r);
    for (; calls < 40000; calls++) {
        size_t n = calls % 100 == 0 ? r.below(65541) : r.below(calls % 10 ? 200 : 5000);
        words_made(n, r.below(4) ? n / 4 + r.below(3) : r.below((uint32_t)n / 4 + 1), r);
    }
    return calls;
}

void file_listed(const Bytes &file, const Bytes &before) {
    const Bytes file_before = file;
    Bytes first;
    size_t a = 0;
    for (const Lister &l : listers) {
        Bytes t = before;
        size_t b = l.list(file.data(), file.size(), t.data() + AROUND);
        if (&l == listers) a = b, first = t;
        if (a != b) differ("list", l.name, "the answer");
        for (size_t i = AROUND + b; i < AROUND + b + l.after; i++) t[i] = before[i];
        if (t != first) differ("list", l.name, "the lent bytes");
        if (file != file_before) differ("list", l.name, "the file");
    }
    uint32_t number = 0;
    std::sscanf(std::string(first.begin() + AROUND, first.begin() + AROUND + (ptrdiff_t)a).c_str(), "refused %u", &number);
    seen["list"][number]++;
}

// The files of tables, whole, damaged, cut anywhere or with bytes after them, up to four more than a file may have. Gives their number.
uint64_t compare_listings(uint32_t lists) {
    Random r(83);
    uint64_t files = 0;
    for (uint32_t turn = 0; turn < lists; turn++) {
        List l = any_list(turn, r);
        const Words table = built(l.codes, l.schedules, glass_words(l.codes.size()), r);
        if (table.empty()) continue;
        const Bytes before = lent<uint8_t>(FILES_MOST_TEXT, r);
        for (int i = 0; i < 12; i++, files++) {
            Words t = table;
            if (i > 2) damage(t, r);
            const uint8_t *bytes = (const uint8_t *)t.data();
            Bytes file(bytes, bytes + 4 * t.size());
            if (i == 1 || i == 3) file.resize(r.below((uint32_t)file.size() + 1));
            if (i == 2 || i == 4)
                for (size_t len = r.below(2) ? 65540 - r.below(10) : file.size() + r.below(100); file.size() < len;) file.push_back((uint8_t)r.next());
            file.reserve(1); // a pointer that is not null
            file_listed(file, before);
        }
    }
    return files;
}

} // namespace

std::string compare_all() {
    Random r(7);
    uint64_t lists = 0, damaged = 0, other = 0, exhaustive = 0;
    for (uint32_t turn = 0; turn < 40000; turn++) {
        List l = any_list(turn, r);
        size_t len = glass_words(l.codes.size());
        if (r.below(8) == 0) len = r.below((uint32_t)len + 1);
        if (r.below(8) == 0) len += r.below(5);
        Words table = built(l.codes, l.schedules, len, r);
        if (table.empty()) continue;
        asked(table, l.codes, r);
        if (turn % 10 == 0 && !l.codes.empty()) {
            table = other_table(l, r);
            asked(table, l.codes, r);
            other++;
        }
        for (int i = 0; i < 12; i++) {
            Words t = table;
            damage(t, r);
            t.reserve(1);
            asked(t, l.codes, r);
            damaged++;
        }
        if (turn % 1000 == 1 || turn % 4000 == 0) {
            Words every(65539);
            for (uint32_t a = 0; a < every.size(); a++) every[a] = a;
            lookups(table, every);
            exhaustive++;
        }
    }
    // words that are no table at all
    uint64_t senseless = 0;
    for (; senseless < 20000; senseless++) {
        Words t(r.below(40));
        for (uint32_t &x : t) x = r.below(3) ? r.below(6) : r.next();
        t.reserve(1);
        asked(t, {1, 2, 3}, r);
    }
    const uint32_t written = 40000;
    const uint64_t for_primes = compare_primes(20000), holds = compare_holds(), edits = compare_edits(8000), texts = compare_texts(written),
                   loads = compare_loads(), words = compare_words(),
                   files = compare_listings(4000);

    for (const auto &a : seen["build"]) lists += a.second;
    std::string s = grouped(lists) + " lists, " + grouped(damaged) + " damaged tables, " + grouped(other) +
                    " well-formed tables whose multipliers are not least, " + grouped(senseless) + " runs of words that are no table; of " +
                    grouped(exhaustive) + " tables every code from 0 to 65,538; " + grouped(holds) +
                    " panels with each hold in turn at the ends of the range and beyond, or with too few or too many holds; " + grouped(edits) +
                    " tables with a code put in and taken out, half of them damaged; " + grouped(for_primes) +
                    " lists built for one of three primes, or refused; " + grouped(written) + " lists written as text, " + grouped(texts) +
                    " texts read, most of them damaged; " + grouped(loads) + " test loads; " + grouped(words) + " runs of bytes made words; " + grouped(files) +
                    " files listed, most of them damaged. All answers, cells included, and all lent memory were equal; each found code was in its cell, and "
                    "each panel was what our lookups and its holds make it. ";
    s += "How often each number was answered, or listed as refused (0: a result, 1000: absent or unknown):\n\n";
    for (const auto &o : seen) {
        s += "- " + o.first + ":";
        for (const auto &a : o.second) s += " " + std::to_string(a.first) + " (" + grouped(a.second) + ")";
        s += "\n";
    }
    return s;
}
