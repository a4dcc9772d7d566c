// Who generates a test load. Ours is the first.
#ifndef GENERATORS_H
#define GENERATORS_H

#include "functions.h"

extern "C" {
decltype(glass_generate) yard_generate_eights, yardgcc_generate_eights, plain_generate;
}

struct Generator {
    const char *name;
    decltype(&glass_generate) generate;
};

const Generator generators[] = {{"ours", glass_generate},
                                {"C, one by one (clang)", yard_generate},
                                {"C, one by one (gcc)", yardgcc_generate},
                                {"C, eight at a time (clang)", yard_generate_eights},
                                {"C, eight at a time (gcc)", yardgcc_generate_eights},
                                {"plain loop", plain_generate}};
enum { GENERATORS = 6 };

#endif
