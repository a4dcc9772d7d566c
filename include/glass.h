/* glass.h -- the glass code table of a kiln controller, from C
 *
 * A table is a run of 32-bit words from glass codes (1 to 65,536) to firing schedules (1 to 999). It is built from a studio's list of at most
 * 2,048 pairs, in any order: the same pairs give the same words. A list is also read from a supplier's text, and written as one; and there is a test
 * load of any length, the same on every bench. Nothing here allocates, keeps state between calls, or needs a table or a text to have been checked
 * before: every function answers every input.
 *
 * Lent memory. An array is lent as a pointer and the number of its elements. The pointer is aligned for its element (any address will do for a text's
 * uint8_t), and the elements may be read; those of an array that is not const may be written too. Where the number is 0, the pointer need only be
 * non-null and aligned (any non-null pointer of its type will do): nothing is read or written through it. Arrays that are written may overlap no other
 * array of the same call. A refusal changes nothing that was lent.
 *
 * Stack. glass_insert and glass_remove use up to 25 KiB, glass_pairs up to 18 KiB, glass_build up to 12 KiB, the others less than 1 KiB.
 *
 * Answers. Every function answers a number and a value: GLASS_OK with the result, GLASS_ABSENT (lookup, panel), or a refusal with what comes with it.
 * Both are 32 bits in a glass_answer; in a glass_size, which reading and writing a text answer, the value is a size_t; in a glass_found, which a lookup and
 * a panel answer, a cell stands beside them. Refusals are tested in the order in which each function lists them, each over all pairs, blocks, cells,
 * holds or lines before the next; pairs, blocks, cells, lines and the codes of a panel are counted from 0.
 */
#ifndef GLASS_H
#define GLASS_H

#include <stddef.h>
#include <stdint.h>

#ifdef __cplusplus
extern "C" {
#endif

typedef struct {
    uint32_t number; /* a glass_number */
    uint32_t value;
} glass_answer;

typedef struct {
    uint32_t number; /* a glass_number */
    size_t value;    /* pairs, lines or bytes */
} glass_size;

typedef struct {
    uint32_t number; /* a glass_number */
    uint32_t value;
    uint32_t cell;   /* with GLASS_OK the cell of the code, from 0 to c - 1 over the whole table; otherwise 0 */
} glass_found;

/* Every number that can come back, and what `value` holds with it: 0 where nothing is said. */
typedef enum {
    GLASS_OK = 0,                    /* the result, in value */
    GLASS_ABSENT = 1000,             /* lookup: the table does not have the code; panel: the index of the first code that it does not have */

    /* a list */
    GLASS_LENGTHS_DIFFER = 1,        /* codes and schedules are not of one length */
    GLASS_TOO_MANY_PAIRS = 2,        /* more than GLASS_MOST_PAIRS */
    GLASS_BAD_CODE = 3,              /* a code is not from 1 to GLASS_MOST_CODE: the first such index */
    GLASS_BAD_SCHEDULE = 4,          /* a schedule is not from 1 to GLASS_MOST_SCHEDULE: the first such index */
    GLASS_REPEATED_CODE = 5,         /* a code is equal to an earlier one: the first such index */
    GLASS_WORDS_TOO_FEW = 6,         /* fewer words are lent than the table takes: the words that it takes */

    /* a table */
    GLASS_TABLE_TOO_FEW_WORDS = 11,  /* fewer than 3 words */
    GLASS_TABLE_TOO_MANY_CODES = 12, /* n is above GLASS_MOST_PAIRS */
    GLASS_TABLE_TOO_MANY_CELLS = 13, /* c is above 3n - 2, or above 0 where n is 0 */
    GLASS_TABLE_BAD_MULTIPLIER = 14, /* k is not from 1 to 65,536 */
    GLASS_TABLE_TOO_SHORT = 15,      /* fewer words than the total: the total */
    GLASS_TABLE_BAD_START = 16,      /* block 0 does not start at 0, or a start is below the one before or above c: the first such block */
    GLASS_TABLE_BAD_Q = 17,          /* a block's q is not from 1 to 65,536: the first such block */
    GLASS_TABLE_BAD_CELL = 18,       /* a code or schedule is out of range, or exactly one of the two is 0: the first such cell */
    GLASS_TABLE_MISPLACED = 19,      /* a code is in a cell that is not its own: the first such cell */
    GLASS_TABLE_NOT_SQUARE = 20,     /* a block's cells do not number the square of its codes: the first such block */
    GLASS_TABLE_WRONG_COUNT = 21,    /* the codes do not number n: the codes found */

    /* a lookup; in a panel the value is the code's index */
    GLASS_CODE_OUT_OF_RANGE = 31,    /* the code is not from 1 to GLASS_MOST_CODE */
    GLASS_LOOKUP_TOO_FEW_WORDS = 32, /* fewer than 3 words */
    GLASS_LOOKUP_BAD_SIZES = 33,     /* any of 12 to 15 */
    GLASS_LOOKUP_BAD_BLOCK = 34,     /* the code's block or cell is damaged */

    /* a panel */
    GLASS_PANEL_EMPTY = 35,          /* no codes */
    GLASS_PANEL_TOO_LONG = 36,       /* more than GLASS_MOST_PANEL */
    GLASS_PANEL_BAD_HOLDS = 74,      /* the holds are not GLASS_MOST_SCHEDULE, or one is above GLASS_MOST_HOLD */
    GLASS_PANEL_NOT_IN_USE = 75,     /* a code is found with a schedule whose hold is 0: the code's index */

    /* reading back */
    GLASS_PLACES_TOO_FEW = 41,       /* codes or schedules has fewer places than the table has codes: how many it has */

    /* putting in, taking out */
    GLASS_EDIT_BAD_CODE = 51,        /* the code is not from 1 to GLASS_MOST_CODE */
    GLASS_EDIT_BAD_SCHEDULE = 52,    /* the schedule is not from 1 to GLASS_MOST_SCHEDULE */
    GLASS_EDIT_FULL = 53,            /* the code is new, and the table has GLASS_MOST_PAIRS */
    GLASS_EDIT_WORDS_TOO_FEW = 54,   /* fewer words are lent than the new table takes: the words that it takes */
    GLASS_EDIT_NOT_THERE = 55,       /* the table does not have the code */

    /* a list as text */
    GLASS_TEXT_FAULTY_LINE = 71,     /* a line is not a pair's, has a number above 4,294,967,295, or is not ended: the first such line */
    GLASS_TEXT_NO_ROOM = 72,         /* reading: codes or schedules has fewer places than the text has lines: its lines;
                                        writing: fewer bytes are lent than the text takes: the bytes that it takes */

    /* a test load */
    GLASS_LOAD_TOO_LONG = 73         /* the length is above GLASS_MOST_PAIRS, or codes or schedules has fewer places */
} glass_number;

/* The limits. */
enum {
    GLASS_MOST_PAIRS = 2048,    /* of a list that is built, written or generated; a text that is read may have any number of lines */
    GLASS_MOST_CODE = 65536,
    GLASS_MOST_SCHEDULE = 999,
    GLASS_MOST_PANEL = 64,      /* codes of a panel */
    GLASS_MOST_HOLD = 10080,    /* minutes that a schedule holds: a week */
    GLASS_MOST_WORDS = 16383    /* of a table: 8 * GLASS_MOST_PAIRS - 1 */
};

/* Words that are enough for any list of n pairs: 8n - 1, and 3 for none. */
static inline size_t glass_words(size_t n) { return n == 0 ? 3 : 8 * n - 1; }

/* Builds the table of a list into words[0 .. words_len - 1]. codes[i] and schedules[i] are a pair.
 *
 * Result: the table's total of words. Exactly the first `total` words are written; those after them keep what they held.
 *
 * Refusals: 1 to 6. words_len = glass_words(codes_len) is never 6. */
glass_answer glass_build(const uint32_t *codes, size_t codes_len, const uint32_t *schedules, size_t schedules_len, uint32_t *words,
                         size_t words_len);

/* Checks a table from anywhere. Words after its total are no part of it.
 *
 * Result: the table is well-formed; value is its total.
 *
 * Refusals: 11 to 21. */
glass_answer glass_check(const uint32_t *words, size_t words_len);

/* Looks a code up, in at most eight words of the table.
 *
 * Result: the code's schedule with its cell, or GLASS_ABSENT. The code stands in that cell, also where the table was not checked before; so different
 * codes are found in different cells.
 *
 * Refusals: 31 to 34. */
glass_found glass_lookup(const uint32_t *words, size_t words_len, uint32_t code);

/* Finds the schedule of a panel, a batch of 1 to GLASS_MOST_PANEL codes fired together: of its codes' schedules the one with the longest hold, among
 * equal holds the least number. holds[s - 1] is the hold of schedule s in minutes, 0 if s is not in use; there is one for each schedule, so holds_len is
 * GLASS_MOST_SCHEDULE. The codes are looked up in their order, and the first one that is absent, refused or found with a schedule not in use ends the
 * panel.
 *
 * Result: the schedule, with the cell of the first code that has it; or GLASS_ABSENT with the index of the code.
 *
 * All holds are read and tested at each call, before any code is looked up: 74 is answered also where the first code is absent. That takes about as long
 * as twelve codes of a panel do, however few there are. Of the table at most eight words are read for each code.
 *
 * Refusals: 35, 36, 74; then 31 to 34 or 75, with the index of the code that ends the panel. */
glass_found glass_panel(const uint32_t *words, size_t words_len, const uint32_t *holds, size_t holds_len, const uint32_t *codes, size_t codes_len);

/* Reads a table back: its pairs by rising code into the first places of codes and schedules. Later places keep what they held.
 *
 * Result: the number of pairs.
 *
 * Refusals: 11 to 21; then 41. */
glass_answer glass_pairs(const uint32_t *words, size_t words_len, uint32_t *codes, size_t codes_len, uint32_t *schedules,
                         size_t schedules_len);

/* Puts a code in, or gives a present one another schedule: builds the table of the changed list into second[0 .. second_len - 1]. The old table
 * is kept; so are the words of second after the new total.
 *
 * Result: the new table's total.
 *
 * Refusals: 51, 52; 11 to 21, of the old table; then 53, 54. */
glass_answer glass_insert(const uint32_t *words, size_t words_len, uint32_t code, uint32_t schedule, uint32_t *second, size_t second_len);

/* Takes a code out: builds the table of the changed list into second[0 .. second_len - 1], as glass_insert does.
 *
 * Result: the new table's total.
 *
 * Refusals: 51; 11 to 21, of the old table; then 55, 54. */
glass_answer glass_remove(const uint32_t *words, size_t words_len, uint32_t code, uint32_t *second, size_t second_len);

/* A list as text: for each pair, in the list's order, a line of its code, a comma and its schedule, ended by a newline byte (10). Both numbers are
 * plain digits without leading zeros, 0 is the one digit 0, and each is at most 4,294,967,295: ranges and repeats are glass_build's business. A
 * carriage return, a blank, a sign or an empty line is a fault. An empty text is the empty list. A list that is written and read again is the same. */

/* Bytes that are enough for the text of any n pairs: two numbers of 10 digits, a comma and a newline for each. */
static inline size_t glass_text_bytes(size_t n) { return 22 * n; }

/* Reads the text of a list: its pairs into the first places of codes and schedules. Later places keep what they held.
 *
 * Result: the number of pairs.
 *
 * Refusals: 71, 72. */
glass_size glass_read_list(const uint8_t *text, size_t text_len, uint32_t *codes, size_t codes_len, uint32_t *schedules, size_t schedules_len);

/* Writes the text of a list into text[0 .. text_len - 1]. codes[i] and schedules[i] are a pair, of any two numbers.
 *
 * Result: the bytes of the text. Exactly these are written, without a null byte; those after them keep what they held.
 *
 * Refusals: 1, 2, 72. text_len = glass_text_bytes(codes_len) is never 72. */
glass_size glass_write_list(const uint32_t *codes, size_t codes_len, const uint32_t *schedules, size_t schedules_len, uint8_t *text,
                            size_t text_len);

/* Generates a test load of `length` pairs into the first places of codes and schedules. codes[i] is the remainder of 75 to the power i + 1 by 65,537,
 * schedules[i] is i mod 999 + 1. The codes differ, so every load can be built; a load begins with every shorter one. Later places keep what they held.
 *
 * Result: the length.
 *
 * Refusals: 73. */
glass_answer glass_generate(size_t length, uint32_t *codes, size_t codes_len, uint32_t *schedules, size_t schedules_len);

#ifdef __cplusplus
}
#endif

#endif
