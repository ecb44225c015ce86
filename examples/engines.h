/* The library's engines in one table, each called with a struct. */
#ifndef ENGINES_H
#define ENGINES_H

#include "enrol.h"

enum {
    MOST_PLACES = 8,       /* of the table, in pairs */
    UNWRITTEN = 0x5a5a5a5a /* in every word that only one engine is lent */
};

/* All that a call is fed and lent. */
struct call {
    const uint8_t *script;
    size_t script_len;
    uint32_t d, n, g;
    uint64_t tally;
    size_t places, count;
    uint16_t name;
    size_t groups_len, sheet_len;
    int32_t table[2 * MOST_PLACES], groups[2 * MOST_PLACES];
    int32_t sheet[ENROL_SHEET_WORDS(ENROL_MOST_ACTIVATIONS)];
    uint32_t *own; /* what only one engine is lent */
    size_t own_len;
};

/* An engine: how many words it is lent of its own for a call within the bounds, and the call. */
struct engine {
    const char *name;
    size_t (*own_words)(uint32_t d, size_t script_len);
    void (*run)(struct call *call, uint64_t answer[ENROL_ANSWER_WORDS]);
};

extern const struct engine engines[];
extern const size_t engine_count;

/* Lends the engine as many words of its own as it asks for; 0 where there is no memory. They are the caller's to free. */
int lend_own(const struct engine *engine, struct call *call);

#endif
