/* Words of bytes by memcpy, which is right where the least byte of a word is its first; and the listing by sprintf, with the yardstick's check and read
 * back. A null byte follows the text. */
#include "files.h"
#include "glass.h"

#include <stdio.h>
#include <string.h>

glass_answer yard_pairs(const uint32_t *, size_t, uint32_t *, size_t, uint32_t *, size_t);

size_t plain_words_of(const uint8_t *bytes, size_t len, uint32_t *words, size_t words_len) {
    size_t n = len / 4 < words_len ? len / 4 : words_len;
    memcpy(words, bytes, 4 * n);
    return n;
}

size_t plain_list(const uint8_t *bytes, size_t len, uint8_t *text) {
    uint32_t words[GLASS_MOST_WORDS + 1], codes[GLASS_MOST_PAIRS], schedules[GLASS_MOST_PAIRS];
    glass_answer a = {len > sizeof words ? 61 : 62, 0};
    if (len <= sizeof words && len % 4 == 0)
        a = yard_pairs(words, plain_words_of(bytes, len, words, GLASS_MOST_WORDS + 1), codes, GLASS_MOST_PAIRS, schedules, GLASS_MOST_PAIRS);
    char *p = (char *)text;
    if (a.number) return (size_t)sprintf(p, "refused %u %u\n", a.number, a.value);
    p += sprintf(p, "codes %u cells %u multiplier %u\n", words[0], words[1], words[2]);
    for (uint32_t i = 0; i < a.value; i++) p += sprintf(p, "%u %u\n", codes[i], schedules[i]);
    return (size_t)(p - (char *)text);
}
