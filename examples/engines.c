#include "engines.h"

#include <stdlib.h>

static size_t no_words(uint32_t d, size_t script_len)
{
    (void)d, (void)script_len;
    return 0;
}

static size_t area_words(uint32_t d, size_t script_len)
{
    return ENROL_AREA_WORDS(d, script_len);
}

/* A record is words side by side. */
enum { RECORD_WORDS = sizeof(struct enrol_activation) / sizeof(uint32_t) };

static size_t record_words(uint32_t d, size_t script_len)
{
    (void)script_len;
    return RECORD_WORDS * (size_t)d;
}

static void run_copy(struct call *call, uint64_t answer[ENROL_ANSWER_WORDS])
{
    enrol_copy(call->script, call->script_len, call->d, call->n, call->g, call->tally, call->table, 2 * call->places,
               call->count, call->groups, call->groups_len, call->name, call->sheet, call->sheet_len, call->own,
               call->own_len, answer);
}

static void run_chain(struct call *call, uint64_t answer[ENROL_ANSWER_WORDS])
{
    enrol_chain(call->script, call->script_len, call->d, call->n, call->g, call->tally, call->table, 2 * call->places,
                call->count, call->groups, call->groups_len, call->name, call->sheet, call->sheet_len,
                (struct enrol_activation *)call->own, call->own_len / RECORD_WORDS, answer);
}

static void run_display(struct call *call, uint64_t answer[ENROL_ANSWER_WORDS])
{
    enrol_display(call->script, call->script_len, call->d, call->n, call->g, call->tally, call->table, 2 * call->places,
                  call->count, call->groups, call->groups_len, call->name, call->sheet, call->sheet_len, answer);
}

static void run_search(struct call *call, uint64_t answer[ENROL_ANSWER_WORDS])
{
    enrol_search(call->script, call->script_len, call->d, call->n, call->g, call->tally, call->table, 2 * call->places,
                 call->count, call->groups, call->groups_len, call->name, call->sheet, call->sheet_len, answer);
}

const struct engine engines[] = {
    {"copy", area_words, run_copy},
    {"chain", record_words, run_chain},
    {"display", no_words, run_display},
    {"search", no_words, run_search},
};
const size_t engine_count = sizeof engines / sizeof engines[0];

/* One word more than it asks for, since a lent pointer is never null. */
int lend_own(const struct engine *engine, struct call *call)
{
    uint32_t d = call->d < ENROL_MOST_ACTIVATIONS ? call->d : ENROL_MOST_ACTIVATIONS;
    call->own_len = engine->own_words(d, call->script_len);
    call->own = malloc((call->own_len + 1) * sizeof *call->own);
    if (call->own == NULL) {
        return 0;
    }
    for (size_t at = 0; at < call->own_len; at++) {
        call->own[at] = UNWRITTEN;
    }
    return 1;
}
