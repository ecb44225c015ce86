/* Bytes of the fuzzer as a call. */
#ifndef INPUT_H
#define INPUT_H

#include "enrol.h"

enum {
    HEADER = 64,        /* bytes before the script; those that are missing count as 0 */
    GIVEN_WORDS = 48,   /* of the table, a byte of the header for each; further ones are a right table's */
    MOST_WORDS = 255,   /* of the table */
    MOST_PAST = 15,     /* of the list, after the words asked for */
    MOST_LIST = MOST_WORDS + MOST_PAST,
    MOST_SHEET = 257 * (ENROL_SHEET_NAMES + ENROL_MOST_NAMES) + 240
};

struct call {
    const uint8_t *script;
    size_t script_len;
    uint32_t d, n, g;
    uint64_t tally;
    int32_t table[MOST_WORDS];
    size_t table_len, count;
    int32_t groups[MOST_LIST];
    size_t groups_len;
    uint16_t name;
    size_t sheet_len;
};

/* The header, byte by byte. Most values of a byte are small numbers, the last sixteen stand for numbers at a bound.
 *
 *    0  d             1  g             2  n, two bytes       4  tally
 *    5  count         6  table_len     7  sheet_len, from what d asks for
 *    8  name, two bytes               10  groups_len, from what the table asks for
 *   11  a word of the list to be changed, 12  what it becomes; 13 and 14 the same once more
 *   15  a place of the list that changes places with the next one
 *   16  the table's first words
 *
 * The list of groups is the table's, but for what is changed: from 192 on bytes 11 and 13 name one of its words and byte 15
 * one of its places, counted from 0 and round, and in bytes 12 and 14 238 stands for one more and 239 for one fewer.
 */
void call_of(const uint8_t *bytes, size_t length, struct call *call);

#endif
