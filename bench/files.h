/* The functions of files_c, for the benchmark alone: no part of the interface of glass.h. Memory is lent as there. */
#ifndef FILES_H
#define FILES_H

#include <stddef.h>
#include <stdint.h>

#ifdef __cplusplus
extern "C" {
#endif

enum { FILES_MOST_TEXT = 65536 };

/* The words of bytes, four for each word, least byte first, into the first of the lent words: as many as fit, which is the answer. Later words are kept. */
size_t glass_words_of(const uint8_t *bytes, size_t bytes_len, uint32_t *words, size_t words_len);

/* The listing of a table file, into the first of FILES_MOST_TEXT lent bytes: its length is the answer. Later bytes are kept. */
size_t glass_list(const uint8_t *bytes, size_t bytes_len, uint8_t *text);

#ifdef __cplusplus
}
#endif

#endif
