/* Lists as text by the C library: strtoul and snprintf in a plain loop. Nothing is judged, a text that is read is ended by a null byte, and a text that is
 * written has a place for one. */
#include "glass.h"

#include <stdio.h>
#include <stdlib.h>

glass_size plain_read_list(const uint8_t *text, size_t len, uint32_t *codes, size_t codes_len, uint32_t *schedules, size_t schedules_len) {
    char *p = (char *)text, *end = p + len;
    size_t n = 0;
    for (; p < end && n < codes_len && n < schedules_len; n++) {
        codes[n] = (uint32_t)strtoul(p, &p, 10);
        schedules[n] = (uint32_t)strtoul(p + 1, &p, 10);
        p++;
    }
    glass_size a = {0, n};
    return a;
}

glass_size plain_write_list(const uint32_t *codes, size_t codes_len, const uint32_t *schedules, size_t schedules_len, uint8_t *text, size_t len) {
    char *p = (char *)text, *end = p + len;
    for (size_t i = 0; i < codes_len && i < schedules_len; i++) p += snprintf(p, (size_t)(end - p) + 1, "%u,%u\n", codes[i], schedules[i]);
    glass_size a = {0, (size_t)(p - (char *)text)};
    return a;
}
