/* Changes that keep more of a script than those of single bytes do: with the latter alone about 3 scripts in 100 are accepted. */
#include <string.h>

#include "input.h"

size_t LLVMFuzzerMutate(uint8_t *bytes, size_t length, size_t most);
size_t LLVMFuzzerCustomMutator(uint8_t *bytes, size_t length, size_t most, unsigned seed);
size_t LLVMFuzzerCustomCrossOver(const uint8_t *one, size_t one_len, const uint8_t *other, size_t other_len, uint8_t *out,
                                 size_t most, unsigned seed);

enum { MOST_RECORDS = ENROL_LONGEST_SCRIPT / 4 };

static uint32_t random_state;

static size_t below(size_t most)
{
    random_state = random_state * UINT32_C(1664525) + UINT32_C(1013904223);
    return most == 0 ? 0 : (random_state >> 8) % most;
}

/* Half of the time a number at a bound. */
static void change_header(uint8_t *header)
{
    size_t at = below(2) ? below(16) : below(HEADER);
    header[at] = (uint8_t)(below(2) ? below(256) : below(2) ? below(8) : 240 + below(16));
}

/* A field becomes a small number or another field. */
static void change_field(uint8_t *script, size_t length)
{
    uint8_t *field = script + 2 * below(length / 2);
    if (below(2)) {
        memcpy(field, script + 2 * below(length / 2), 2);
    } else {
        field[0] = (uint8_t)below(below(4) ? 12 : 40);
        field[1] = 0;
    }
}

/* Bytes of a statement that holds no others, 0 for any other record. */
static size_t statement(const uint8_t *at)
{
    static const struct {
        char mark[3];
        size_t length;
    } statements[] = {{"GO", 4}, {"IF", 6}, {"AD", 6}, {"RM", 6}, {"KN", 8}, {"QY", 8}, {"AR", 10}, {"CL", 6}};
    for (size_t row = 0; row < sizeof statements / sizeof statements[0]; row++) {
        if (memcmp(at, statements[row].mark, 2) == 0) {
            return statements[row].length + (at[0] == 'C' ? 2u * at[4] : 0);
        }
    }
    return 0;
}

/* A statement takes the place of another one of its length. */
static void copy_statement(uint8_t *script, size_t length)
{
    size_t found[MOST_RECORDS], count = 0;
    for (size_t at = 0; at + 12 <= length && count < MOST_RECORDS; at += 2) {
        size_t bytes = statement(script + at);
        if (bytes != 0 && at + bytes <= length) {
            found[count++] = at;
        }
    }
    if (count == 0) {
        return;
    }
    uint8_t *from = script + found[below(count)], *to = script + found[below(count)];
    if (statement(from) == statement(to)) {
        memmove(to, from, statement(from));
    }
}

size_t LLVMFuzzerCustomMutator(uint8_t *bytes, size_t length, size_t most, unsigned seed)
{
    random_state = seed;
    if (length < HEADER + 6 || below(6) == 0) {
        return LLVMFuzzerMutate(bytes, length, most);
    }
    for (size_t changes = 1 + below(3); changes > 0; changes--) {
        switch (below(3)) {
        case 0:
            change_header(bytes);
            break;
        case 1:
            change_field(bytes + HEADER, length - HEADER);
            break;
        default:
            copy_statement(bytes + HEADER, length - HEADER);
        }
    }
    return length;
}

/* The rest of one call with the script of the other. */
size_t LLVMFuzzerCustomCrossOver(const uint8_t *one, size_t one_len, const uint8_t *other, size_t other_len, uint8_t *out,
                                 size_t most, unsigned seed)
{
    (void)seed;
    if (one_len < HEADER || other_len < HEADER || other_len > most) {
        return 0;
    }
    memcpy(out, other, other_len);
    memcpy(out, one, HEADER);
    return other_len;
}
