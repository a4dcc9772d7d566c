/* Reads a supplier's list from text, builds its table, looks a code up, and writes the list out again. */
#include <stdio.h>
#include <string.h>

#include "glass.h"

int main(void)
{
    const char *sent = "17,14\n4,11\n20,15\n7,12\n8,13\n";
    uint32_t codes[8], schedules[8];
    uint32_t words[8 * 8 - 1]; /* glass_words(8) */
    uint8_t text[22 * 8];      /* glass_text_bytes(8) */

    glass_size list = glass_read_list((const uint8_t *)sent, strlen(sent), codes, 8, schedules, 8);
    if (list.number == GLASS_TEXT_FAULTY_LINE) {
        printf("line %zu is not a code, a comma and a schedule\n", list.value + 1);
        return 1;
    }
    if (list.number == GLASS_TEXT_NO_ROOM) {
        printf("%zu lines are too many\n", list.value);
        return 1;
    }
    printf("read %zu pairs\n", list.value);

    glass_answer built = glass_build(codes, list.value, schedules, list.value, words, glass_words(list.value));
    if (built.number != GLASS_OK) {
        printf("refused %u, at line %u\n", built.number, built.value + 1);
        return 1;
    }
    glass_found found = glass_lookup(words, built.value, 17);
    printf("code 17: schedule %u, cell %u\n", found.value, found.cell);

    glass_size written = glass_write_list(codes, list.value, schedules, list.value, text, sizeof text);
    printf("written %zu bytes, %s\n", written.value, memcmp(text, sent, written.value) == 0 ? "those that were read" : "others");
    return 0;
}
