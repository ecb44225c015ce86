#include "input.h"

#include <string.h>

#include "support.h"

enum { FIRST_EDGE = 240, FIRST_CHANGED = 192, ONE_MORE = 238, ONE_FEWER = 239 };

#define EDGE(edges, byte) ((edges)[((byte) - FIRST_EDGE) % (sizeof(edges) / sizeof *(edges))])

static uint32_t activations(uint8_t byte)
{
    static const uint32_t edges[] = {255, 256, 257, UINT32_MAX};
    return byte < FIRST_EDGE ? byte : EDGE(edges, byte);
}

static uint32_t group_limit(uint8_t byte)
{
    static const uint32_t edges[] = {65534, 65535, 65536, UINT32_MAX};
    return byte < FIRST_EDGE ? byte : EDGE(edges, byte);
}

/* Long runs take the fuzzer's time, so they are rare. */
static uint32_t allowance(uint8_t low, uint8_t high)
{
    static const uint32_t edges[] = {1000001, 1000000, UINT32_MAX, 999999};
    return high != 255 || low < FIRST_EDGE ? (low + 256u * high) % 2048 : EDGE(edges, low);
}

static uint64_t tally(uint8_t byte)
{
    static const uint64_t edges[] = {ENROL_MOST_TALLY - 1, ENROL_MOST_TALLY, ENROL_MOST_TALLY + 1, UINT64_MAX};
    return byte < FIRST_EDGE ? byte : EDGE(edges, byte);
}

static size_t pairs(uint8_t byte, size_t table_len)
{
    const size_t edges[] = {table_len / 2 + 1, table_len, SIZE_MAX / 2, SIZE_MAX / 2 + 2, SIZE_MAX};
    return byte < FIRST_EDGE ? byte % (table_len / 2 + 1) : EDGE(edges, byte);
}

static int32_t word(uint8_t byte)
{
    static const int32_t edges[] = {-1, INT32_MIN, INT32_MAX, 256, 65535, 65536, 65537, INT32_MAX - 1};
    return byte < FIRST_EDGE ? byte : EDGE(edges, byte);
}

/* Too short by a word and more, or as long as asked and more. */
static size_t about(uint8_t byte, size_t asked, size_t past)
{
    if (byte < FIRST_EDGE) {
        return asked + past;
    }
    size_t missing = byte - FIRST_EDGE + 1u;
    return asked < missing ? 0 : asked - missing;
}

static size_t sheet_words(uint8_t byte, uint32_t d)
{
    return about(byte, ENROL_SHEET_WORDS(d < 257 ? d : 257), byte);
}

/* The list of the table's groups, and rubbish after it. */
static void fill_list(struct call *call)
{
    memset(call->groups, 0x5a, sizeof call->groups);
    list_groups(call->table, call->table_len, call->count, call->groups);
}

/* Mostly no word. */
static void change_list(struct call *call, uint8_t which, uint8_t what)
{
    size_t needed = ENROL_LIST_WORDS(call->table_len);
    if (which < FIRST_CHANGED || needed == 0) {
        return;
    }
    size_t at = (which - FIRST_CHANGED) % needed;
    if (what == ONE_MORE || what == ONE_FEWER) {
        call->groups[at] = (int32_t)((uint32_t)call->groups[at] + (what == ONE_MORE ? 1u : UINT32_MAX));
    } else {
        call->groups[at] = word(what);
    }
}

/* Mostly none. */
static void exchange_places(struct call *call, uint8_t which)
{
    size_t needed = ENROL_LIST_WORDS(call->table_len);
    if (which < FIRST_CHANGED || needed < 4) {
        return;
    }
    size_t at = 2u * (which - FIRST_CHANGED) % (needed - 2);
    int32_t place[2] = {call->groups[at], call->groups[at + 1]};
    memcpy(call->groups + at, call->groups + at + 2, sizeof place);
    memcpy(call->groups + at + 2, place, sizeof place);
}

void call_of(const uint8_t *bytes, size_t length, struct call *call)
{
    uint8_t header[HEADER] = {0};
    size_t given = length < HEADER ? length : HEADER;
    memcpy(header, bytes, given);
    call->script = bytes + given;
    call->script_len = length - given;
    call->d = activations(header[0]);
    call->g = group_limit(header[1]);
    call->n = allowance(header[2], header[3]);
    call->tally = tally(header[4]);
    call->table_len = header[6];
    call->count = pairs(header[5], call->table_len);
    call->sheet_len = sheet_words(header[7], call->d);
    call->name = (uint16_t)(header[8] + 256u * header[9]);
    for (size_t at = 0; at < MOST_WORDS; at++) {
        call->table[at] = at < GIVEN_WORDS ? word(header[HEADER - GIVEN_WORDS + at]) : at % 2 ? 1 : 1000 + (int32_t)at;
    }
    call->groups_len = about(header[10], ENROL_LIST_WORDS(call->table_len), header[10] % (MOST_PAST + 1));
    fill_list(call);
    change_list(call, header[11], header[12]);
    change_list(call, header[13], header[14]);
    exchange_places(call, header[15]);
}
