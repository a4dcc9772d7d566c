/* Generates a test load, builds its table, and looks every code of it up: the same work on every bench. */
#include <stdio.h>

#include "glass.h"

int main(void)
{
    static uint32_t codes[GLASS_MOST_PAIRS], schedules[GLASS_MOST_PAIRS], words[GLASS_MOST_WORDS];

    glass_answer load = glass_generate(1000, codes, GLASS_MOST_PAIRS, schedules, GLASS_MOST_PAIRS);
    if (load.number == GLASS_LOAD_TOO_LONG) {
        printf("a load has at most %d pairs\n", GLASS_MOST_PAIRS);
        return 1;
    }
    printf("codes %u %u %u %u and so on\n", codes[0], codes[1], codes[2], codes[3]);

    /* a load that was generated is never refused here */
    glass_answer built = glass_build(codes, load.value, schedules, load.value, words, GLASS_MOST_WORDS);
    uint32_t found = 0;
    for (uint32_t i = 0; i < load.value; i++) {
        glass_found answer = glass_lookup(words, built.value, codes[i]);
        found += answer.number == GLASS_OK && answer.value == schedules[i];
    }
    printf("%u pairs in %u words, %u found\n", load.value, built.value, found);
    return 0;
}
