// Who makes words of bytes, and who lists a table file. Ours is the first.
#ifndef LISTERS_H
#define LISTERS_H

#include "files.h"

extern "C" {
#define LISTER(prefix)                                                    \
    size_t prefix##_words_of(const uint8_t *, size_t, uint32_t *, size_t); \
    size_t prefix##_list(const uint8_t *, size_t, uint8_t *);
LISTER(yard)
LISTER(yardgcc)
LISTER(plain)
#undef LISTER
}

struct WordMaker {
    const char *name;
    decltype(&glass_words_of) words_of;
};

const WordMaker word_makers[] = {{"ours", glass_words_of},
                                 {"memcpy", plain_words_of},
                                 {"C, by shifts (clang)", yard_words_of},
                                 {"C, by shifts (gcc)", yardgcc_words_of}};
enum { WORD_MAKERS = 4 };

struct Lister {
    const char *name;
    decltype(&glass_list) list;
    size_t after; // bytes that it writes after its text
};

const Lister listers[] = {{"ours", glass_list, 0},
                          {"C by hand (clang)", yard_list, 0},
                          {"C by hand (gcc)", yardgcc_list, 0},
                          {"C with sprintf", plain_list, 1}};
enum { LISTERS = 4 };

#endif
