// Who has the functions of glass.h: ours, and the yardstick as each compiler made it.
#ifndef FUNCTIONS_H
#define FUNCTIONS_H

#include "glass.h"

#define EACH_FUNCTION(x) x(build) x(check) x(lookup) x(panel) x(pairs) x(insert) x(remove) x(read_list) x(write_list) x(generate)

extern "C" {
#define DECLARED(f) decltype(glass_##f) yard_##f, yardgcc_##f;
EACH_FUNCTION(DECLARED)
#undef DECLARED
}

struct Functions {
    const char *name;
#define FIELD(f) decltype(&glass_##f) f;
    EACH_FUNCTION(FIELD)
#undef FIELD
};

#define OURS(f) , glass_##f
#define BY_CLANG(f) , yard_##f
#define BY_GCC(f) , yardgcc_##f
const Functions functions[] = {{"ours" EACH_FUNCTION(OURS)},
                               {"C, same format (clang)" EACH_FUNCTION(BY_CLANG)},
                               {"C, same format (gcc)" EACH_FUNCTION(BY_GCC)}};
enum { FUNCTIONS = 3 };
#undef OURS
#undef BY_CLANG
#undef BY_GCC

#endif
