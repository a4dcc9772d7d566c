// Calls run on a stack of their own that was painted before. What they took is how far down the paint is gone, less the same of calls that do nothing.
#include "stack.h"

#include "builders.h"
#include "families.h"
#include "functions.h"
#include "tables.h"

#include <ucontext.h>

#include <algorithm>
#include <cstdio>
#include <cstdlib>
#include <functional>

namespace {

// what runs on the other stack
const std::function<void()> *calls;
void run() { (*calls)(); }

// the bytes from the top of the stack to the lowest that is not painted
size_t depth_of(const char *name, const std::function<void()> &c) {
    static uint64_t stack[1 << 15];
    static ucontext_t here, there;
    const uint64_t paint = 0x9e3779b97f4a7c15u;
    c(); // a function of the C library is bound when it is first called, which takes stack too
    std::fill(std::begin(stack), std::end(stack), paint);
    calls = &c;
    getcontext(&there);
    there.uc_stack.ss_sp = stack, there.uc_stack.ss_size = sizeof stack, there.uc_link = &here;
    makecontext(&there, run, 0);
    swapcontext(&here, &there);
    const uint64_t *lowest = std::find_if(std::begin(stack), std::end(stack), [](uint64_t x) { return x != paint; });
    if (lowest == stack) std::fprintf(stderr, "%s: more than the whole stack\n", name), std::exit(1);
    return (size_t)(std::end(stack) - lowest) * sizeof *stack;
}

template <class Answer, class... Arguments> Answer does_nothing(Arguments...) { return {}; }
#define NOTHING(f) , does_nothing
const Functions nothing = {"nothing" EACH_FUNCTION(NOTHING)};
#undef NOTHING
const Builder builds_nothing = {"nothing", does_nothing};

// What the calls took of one who has the functions, less what those took that do nothing.
template <class Functions, class Calls> size_t taken(const Functions &f, const Functions &none, const Calls &c) {
    return depth_of(f.name, [&] { c(f); }) - depth_of(none.name, [&] { c(none); });
}

// A list, its text, and a table.
struct Case {
    List list;
    std::string text;
    Words table;
    size_t n() const { return list.codes.size(); }
};

// Valid, refused and damaged; where something is wrong with a list, it is at the end.
std::vector<Case> all_cases() {
    Random r(41);
    std::vector<Case> cases;
    for (size_t n : {1, 2, 16, 31, 32, 33, 64, 65, 256, 300, 1000, 2048, 2049}) {
        const List valid = random_list(n, r);
        const Words table = table_of(valid);
        List lists[] = {valid, valid, valid, valid, valid};
        lists[1].codes.back() = 65537;
        lists[2].schedules.back() = 1000;
        lists[3].codes.back() = valid.codes.front();
        lists[4].schedules.push_back(1);
        for (const List &l : lists) cases.push_back({l, lines_of(l.codes, ',', l.schedules), table});
        for (int i = 0; i < 60; i++) {
            cases.push_back({valid, "", table});
            damage(cases.back().table, r);
        }
    }
    return cases;
}

// The lists for a prime: valid and refused, and with long searches. Those the yardstick is not asked to build with the largest prime: its search would take
// too long, and takes no more stack for it.
struct Lists {
    std::vector<List> any, slow;
};
Lists lists_for(uint32_t p) {
    Random r(53);
    Lists ls;
    for (size_t n : {1, 2, 3, 16, 24, 25, 31, 32, 33, 64, 65, 128, 129, 256, 300, 1000, 2048, 2049}) {
        const List valid = random_list_for(p, n, r);
        ls.any.insert(ls.any.end(), 5, valid);
        List *last = &ls.any.back();
        last[-3].codes.back() = p;
        last[-2].schedules.back() = 1000;
        last[-1].codes.back() = valid.codes.front();
        last[0].schedules.push_back(1);
    }
    for (const SlowList &slow : slow_lists) {
        List l;
        for (uint32_t a : slow.codes(p)) l.add(a, r);
        ls.slow.push_back(l);
    }
    for (int f = 0; f < FAMILIES; f++)
        for (size_t n : {3, 6, 12, 48, 129, 256}) ls.slow.push_back(list_of_family((Family)f, p, n, r));
    return ls;
}

// a row for each prime
std::string stacks_for_primes(Words &words) {
    std::string s;
    for (uint32_t p : primes) {
        const Lists ls = lists_for(p);
        s += "| `glass_build_for`, " + grouped(p);
        for (const Builder &b : builders)
            s += " | " + grouped(taken(b, builds_nothing, [&, ours = &b == builders](const Builder &it) {
                     auto build = [&](const List &l, size_t len) {
                         it.build(p, l.codes.data(), l.codes.size(), l.schedules.data(), l.schedules.size(), words.data(), len);
                     };
                     for (const List &l : ls.any)
                         for (size_t len : {words.size(), (size_t)3}) build(l, len);
                     if (ours || p != 2147483647)
                         for (const List &l : ls.slow) build(l, words.size());
                 }));
        s += " |\n";
    }
    return s;
}

} // namespace

std::string stacks_of_calls() {
    const std::vector<Case> cases = all_cases();
    Words words(glass_words(2049)), codes(2049), schedules(2049);
    const Words in_use = fixed_holds(), no_use(999);
    std::vector<uint8_t> text(glass_text_bytes(2049));
    // of what is asked of a code: one that is there, one that mostly is not, and one that is refused; of lent memory, enough and too little
    auto each = [&](auto call) {
        return [&, call](const Functions &f) {
            for (const Case &c : cases)
                for (uint32_t code : {c.list.codes.front(), 1u, 0u})
                    for (bool enough : {true, false}) call(f, c, code, enough);
        };
    };
    struct Row {
        const char *name;
        std::function<void(const Functions &)> calls;
    };
    const Row rows[] = {
        {"glass_build", each([&](const Functions &f, const Case &c, uint32_t, bool enough) {
             f.build(c.list.codes.data(), c.n(), c.list.schedules.data(), c.list.schedules.size(), words.data(), enough ? words.size() : 3);
         })},
        {"glass_check", each([&](const Functions &f, const Case &c, uint32_t, bool) { f.check(c.table.data(), c.table.size()); })},
        {"glass_lookup", each([&](const Functions &f, const Case &c, uint32_t code, bool) { f.lookup(c.table.data(), c.table.size(), code); })},
        {"glass_panel", each([&](const Functions &f, const Case &c, uint32_t code, bool enough) {
             const Words &holds = code == 1 ? no_use : in_use; // of a code that is refused one hold is missing
             f.panel(c.table.data(), c.table.size(), holds.data(), holds.size() - !code, c.list.codes.data(), std::min<size_t>(c.n(), enough ? 64 : 65));
         })},
        {"glass_pairs", each([&](const Functions &f, const Case &c, uint32_t, bool enough) {
             f.pairs(c.table.data(), c.table.size(), codes.data(), c.n(), schedules.data(), c.n() - !enough);
         })},
        {"glass_insert", each([&](const Functions &f, const Case &c, uint32_t code, bool enough) {
             f.insert(c.table.data(), c.table.size(), code, 999, words.data(), enough ? words.size() : 3);
         })},
        {"glass_remove", each([&](const Functions &f, const Case &c, uint32_t code, bool enough) {
             f.remove(c.table.data(), c.table.size(), code, words.data(), enough ? words.size() : 3);
         })},
        {"glass_read_list", each([&](const Functions &f, const Case &c, uint32_t code, bool enough) {
             f.read_list((const uint8_t *)c.text.data(), c.text.empty() ? 0 : c.text.size() - !code, codes.data(), c.n(), schedules.data(), c.n() - !enough);
         })},
        {"glass_write_list", each([&](const Functions &f, const Case &c, uint32_t, bool enough) {
             f.write_list(c.list.codes.data(), c.n(), c.list.schedules.data(), c.list.schedules.size(), text.data(), enough ? text.size() : 3);
         })},
        {"glass_generate", each([&](const Functions &f, const Case &c, uint32_t, bool enough) {
             f.generate(c.n(), codes.data(), c.n(), schedules.data(), c.n() - !enough);
         })},
    };

    std::string s = "The most bytes that a call took, of " + grouped(cases.size()) +
                    " lists, texts and tables of 1 to 2,049 codes: valid, refused and damaged, with memory enough and too little; of "
                    "`glass_build_for` lists of 1 to 2,049 codes, valid and refused, and lists with long searches, these not in C with the largest prime. What a call takes that does "
                    "nothing, its return address, is not counted.\n\n|";
    for (const Functions &f : functions) s += std::string(" | ") + f.name;
    s += " |\n|---|---|---|---|\n";
    for (const Row &row : rows) {
        s += std::string("| `") + row.name + "`";
        for (const Functions &f : functions) s += " | " + grouped(taken(f, nothing, row.calls));
        s += " |\n";
    }
    return s + stacks_for_primes(words);
}
