/* A test load in a plain loop: remainders by the operator. */
#include "glass.h"

glass_answer plain_generate(size_t length, uint32_t *codes, size_t codes_len, uint32_t *schedules, size_t schedules_len) {
    if (length > GLASS_MOST_PAIRS || length > codes_len || length > schedules_len) {
        glass_answer refused = {73, 0};
        return refused;
    }
    uint32_t code = 1;
    for (uint32_t i = 0; i < length; i++) {
        code = code * 75 % 65537;
        codes[i] = code;
        schedules[i] = i % 999 + 1;
    }
    glass_answer a = {0, (uint32_t)length};
    return a;
}
