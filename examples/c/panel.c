/* Builds the table of a small list, looks codes up, fires a panel by the holds of its schedules, and prints what it finds. */
#include <stdio.h>

#include "glass.h"

int main(void)
{
    const uint32_t codes[] = {4, 7, 8, 17, 20};
    const uint32_t schedules[] = {11, 12, 13, 14, 15};
    uint32_t words[8 * 5 - 1]; /* glass_words(5) */
    const uint32_t panel[] = {7, 17, 4};
    uint32_t holds[GLASS_MOST_SCHEDULE] = {0}; /* in minutes; 0: not in use */

    /* holds[s - 1] is that of schedule s */
    holds[12 - 1] = 60;
    holds[14 - 1] = 45;
    holds[11 - 1] = 50;

    glass_answer built = glass_build(codes, 5, schedules, 5, words, glass_words(5));
    if (built.number != GLASS_OK) {
        printf("refused %u %u\n", built.number, built.value);
        return 1;
    }
    printf("built %u words\n", built.value);
    for (uint32_t code = 16; code <= 17; code++) {
        glass_found found = glass_lookup(words, built.value, code);
        if (found.number == GLASS_OK)
            printf("code %u: schedule %u, cell %u\n", code, found.value, found.cell);
        else if (found.number == GLASS_ABSENT)
            printf("code %u: absent\n", code);
        else
            printf("code %u: refused %u\n", code, found.number);
    }
    glass_found fired = glass_panel(words, built.value, holds, GLASS_MOST_SCHEDULE, panel, 3);
    if (fired.number == GLASS_OK)
        printf("panel of 7, 17 and 4: schedule %u, cell %u\n", fired.value, fired.cell);
    else if (fired.number == GLASS_PANEL_NOT_IN_USE)
        printf("code %u of the panel: its schedule is not in use\n", panel[fired.value]);
    else
        printf("panel: refused or unknown, %u %u\n", fired.number, fired.value);
    return 0;
}
