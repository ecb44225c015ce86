/* Any bytes as a call: the library against the reference, every word of all that is lent and the guards beside it.
 * The script ends where a page begins that may not be touched, so that reading past it ends the run too. */
#define _DEFAULT_SOURCE
#include <inttypes.h>
#include <stdio.h>
#include <stdlib.h>
#include <string.h>
#include <sys/mman.h>

#include "input.h"

enum {
    PAGE = 4096,
    ROOM = 4 * PAGE,
    GUARD = 16,
    PAST_OWN = ENROL_LONGEST_SCRIPT / 2, /* words of the longest script */
    MOST_OWN = ENROL_MOST_ACTIVATIONS * PAST_OWN,
    CAUSES = 27
};

/* What a call may write to: in the middle what is lent, on both sides what may not change. */
struct lent {
    uint64_t answer[GUARD + ENROL_ANSWER_WORDS + GUARD];
    int32_t table[GUARD + MOST_WORDS + GUARD];
    int32_t groups[GUARD + MOST_LIST + GUARD];
    int32_t sheet[GUARD + MOST_SHEET + GUARD];
};

/* What only one engine is lent: the copying area or the chain's records. The guard after it is as long as the copy of a
 * text may be, so that an activation too many shows. It is large, so it is rubbish before every call and is put right only
 * where a call may have written. */
static uint32_t own[GUARD + MOST_OWN + PAST_OWN], rubbish[GUARD + MOST_OWN + PAST_OWN];

/* As the functions of the library. */
void reference_check(const uint8_t *script, size_t script_len, uint64_t answer[ENROL_CHECK_WORDS]);
void reference_copy(const uint8_t *script, size_t script_len, uint32_t d, uint32_t n, uint32_t g, uint64_t tally,
                    int32_t *table, size_t table_len, size_t count, int32_t *groups, size_t groups_len, uint16_t name,
                    int32_t *sheet, size_t sheet_len, uint32_t *area, size_t area_len,
                    uint64_t answer[ENROL_ANSWER_WORDS]);
void reference_chain(const uint8_t *script, size_t script_len, uint32_t d, uint32_t n, uint32_t g, uint64_t tally,
                     int32_t *table, size_t table_len, size_t count, int32_t *groups, size_t groups_len, uint16_t name,
                     int32_t *sheet, size_t sheet_len, struct enrol_activation *records, size_t records_len,
                     uint64_t answer[ENROL_ANSWER_WORDS]);
void reference_display(const uint8_t *script, size_t script_len, uint32_t d, uint32_t n, uint32_t g, uint64_t tally,
                       int32_t *table, size_t table_len, size_t count, int32_t *groups, size_t groups_len, uint16_t name,
                       int32_t *sheet, size_t sheet_len, uint64_t answer[ENROL_ANSWER_WORDS]);
void reference_search(const uint8_t *script, size_t script_len, uint32_t d, uint32_t n, uint32_t g, uint64_t tally,
                      int32_t *table, size_t table_len, size_t count, int32_t *groups, size_t groups_len, uint16_t name,
                      int32_t *sheet, size_t sheet_len, uint64_t answer[ENROL_ANSWER_WORDS]);

static size_t least(size_t one, size_t other)
{
    return one < other ? one : other;
}

/* Just what is asked for, and now and then one less. */
static size_t lent_of(const struct call *call, size_t asked)
{
    return asked > 0 && call->name % 64 == 63 ? asked - 1 : asked;
}

static size_t area_len(const struct call *call)
{
    size_t d = least(call->d, ENROL_MOST_ACTIVATIONS);
    return lent_of(call, ENROL_AREA_WORDS(d, least(call->script_len, ENROL_LONGEST_SCRIPT)));
}

static size_t records_len(const struct call *call)
{
    return lent_of(call, least(call->d, ENROL_MOST_ACTIVATIONS));
}

static size_t record_words(const struct call *call)
{
    return records_len(call) * (sizeof(struct enrol_activation) / sizeof *own);
}

/* The engine's own words as records, which are words side by side. */
static struct enrol_activation *records(void)
{
    return (struct enrol_activation *)(own + GUARD);
}

static size_t no_len(const struct call *call)
{
    (void)call;
    return 0;
}

static void check(const struct call *call, struct lent *lent)
{
    enrol_check(call->script, call->script_len, lent->answer + GUARD);
}

static void right_check(const struct call *call, struct lent *lent)
{
    reference_check(call->script, call->script_len, lent->answer + GUARD);
}

static void copy(const struct call *call, struct lent *lent)
{
    enrol_copy(call->script, call->script_len, call->d, call->n, call->g, call->tally, lent->table + GUARD,
               call->table_len, call->count, lent->groups + GUARD, call->groups_len, call->name, lent->sheet + GUARD,
               call->sheet_len, own + GUARD, area_len(call), lent->answer + GUARD);
}

static void right_copy(const struct call *call, struct lent *lent)
{
    reference_copy(call->script, call->script_len, call->d, call->n, call->g, call->tally, lent->table + GUARD,
                   call->table_len, call->count, lent->groups + GUARD, call->groups_len, call->name,
                   lent->sheet + GUARD, call->sheet_len, own + GUARD, area_len(call), lent->answer + GUARD);
}

static void chain(const struct call *call, struct lent *lent)
{
    enrol_chain(call->script, call->script_len, call->d, call->n, call->g, call->tally, lent->table + GUARD,
                call->table_len, call->count, lent->groups + GUARD, call->groups_len, call->name, lent->sheet + GUARD,
                call->sheet_len, records(), records_len(call), lent->answer + GUARD);
}

static void right_chain(const struct call *call, struct lent *lent)
{
    reference_chain(call->script, call->script_len, call->d, call->n, call->g, call->tally, lent->table + GUARD,
                    call->table_len, call->count, lent->groups + GUARD, call->groups_len, call->name,
                    lent->sheet + GUARD, call->sheet_len, records(), records_len(call), lent->answer + GUARD);
}

static void display(const struct call *call, struct lent *lent)
{
    enrol_display(call->script, call->script_len, call->d, call->n, call->g, call->tally, lent->table + GUARD,
                  call->table_len, call->count, lent->groups + GUARD, call->groups_len, call->name, lent->sheet + GUARD,
                  call->sheet_len, lent->answer + GUARD);
}

static void right_display(const struct call *call, struct lent *lent)
{
    reference_display(call->script, call->script_len, call->d, call->n, call->g, call->tally, lent->table + GUARD,
                      call->table_len, call->count, lent->groups + GUARD, call->groups_len, call->name,
                      lent->sheet + GUARD, call->sheet_len, lent->answer + GUARD);
}

static void search(const struct call *call, struct lent *lent)
{
    enrol_search(call->script, call->script_len, call->d, call->n, call->g, call->tally, lent->table + GUARD,
                 call->table_len, call->count, lent->groups + GUARD, call->groups_len, call->name, lent->sheet + GUARD,
                 call->sheet_len, lent->answer + GUARD);
}

static void right_search(const struct call *call, struct lent *lent)
{
    reference_search(call->script, call->script_len, call->d, call->n, call->g, call->tally, lent->table + GUARD,
                     call->table_len, call->count, lent->groups + GUARD, call->groups_len, call->name,
                     lent->sheet + GUARD, call->sheet_len, lent->answer + GUARD);
}

/* An export, the word of its answer that has the cause's number, and how many words it alone is lent. */
struct export {
    const char *name;
    void (*library)(const struct call *call, struct lent *lent);
    void (*reference)(const struct call *call, struct lent *lent);
    size_t number;
    size_t (*own_len)(const struct call *call);
};

static const struct export exports[] = {
    {"check", check, right_check, 0, no_len},
    {"copy", copy, right_copy, ENROL_ANSWER_NUMBER, area_len},
    {"chain", chain, right_chain, ENROL_ANSWER_NUMBER, record_words},
    {"display", display, right_display, ENROL_ANSWER_NUMBER, no_len},
    {"search", search, right_search, ENROL_ANSWER_NUMBER, no_len},
};
enum { EXPORTS = sizeof exports / sizeof exports[0] };

static uint64_t finished, by_number[EXPORTS][CAUSES];

static void count(size_t export, const uint64_t *answer)
{
    by_number[export][answer[exports[export].number]]++;
    finished += export > 0 && answer[ENROL_ANSWER_END] == ENROL_FINISHED;
}

static void print_counts(void)
{
    uint64_t runs = 0;
    for (size_t cause = 0; cause < CAUSES; cause++) {
        runs += by_number[0][cause];
    }
    printf("%" PRIu64 " runs; %.1f%% of the scripts accepted; %" PRIu64 " calls finished\n", runs,
           runs ? 100.0 * (double)by_number[0][ENROL_NO_CAUSE] / (double)runs : 0.0, finished);
    for (size_t export = 0; export < EXPORTS; export++) {
        printf("%s, number and calls:", exports[export].name);
        for (size_t cause = 0; cause < CAUSES; cause++) {
            if (by_number[export][cause] != 0) {
                printf(" %zu: %" PRIu64, cause, by_number[export][cause]);
            }
        }
        putchar('\n');
    }
    fflush(stdout);
}

static uint8_t *room_end(void)
{
    static uint8_t *end;
    if (end == NULL) {
        uint8_t *room = mmap(NULL, ROOM + PAGE, PROT_READ | PROT_WRITE, MAP_PRIVATE | MAP_ANONYMOUS, -1, 0);
        if (room == MAP_FAILED || mprotect(room + ROOM, PAGE, PROT_NONE) != 0) {
            perror("mmap");
            exit(2);
        }
        end = room + ROOM;
        atexit(print_counts);
    }
    return end;
}

/* Rubbish everywhere, the table and its list. */
static void prepare(const struct call *call, struct lent *lent)
{
    for (size_t at = 0; at < sizeof lent->answer / sizeof lent->answer[0]; at++) {
        lent->answer[at] = UINT64_C(0xa5a5a5a5a5a5a5a5);
    }
    memset(lent->table, 0x5a, sizeof lent->table);
    memcpy(lent->table + GUARD, call->table, call->table_len * sizeof call->table[0]);
    memset(lent->groups, 0xa5, sizeof lent->groups);
    memcpy(lent->groups + GUARD, call->groups, call->groups_len * sizeof call->groups[0]);
    for (size_t at = 0; at < GUARD + call->sheet_len + GUARD; at++) {
        lent->sheet[at] = (int32_t)(at * UINT32_C(0x9e3779b1) ^ UINT32_C(0xa5a50000));
    }
}

static void print_list(const int32_t *words, size_t length)
{
    for (size_t at = 0; at < length; at++) {
        fprintf(stderr, "%s%" PRId32, at ? "," : "", words[at]);
    }
    fprintf(stderr, "%s ", length ? "" : ".");
}

/* The call in the form that the differential tests' `again` takes: it says what the check gives as well. */
static void print_call(const struct export *export, const struct call *call)
{
    fprintf(stderr, "%s differs\n%s ", export->name, export == exports ? "display" : export->name);
    for (size_t at = 0; at < call->script_len; at++) {
        fprintf(stderr, "%02x", call->script[at]);
    }
    fprintf(stderr, "%s %" PRIu32 " %" PRIu32 " %" PRIu32 " %" PRIu64 " %zu %u ", call->script_len ? "" : "-", call->d,
            call->n, call->g, call->tally, call->count, call->name);
    print_list(call->table, call->table_len);
    print_list(call->groups, call->groups_len);
    fprintf(stderr, "%zu %zu\n", call->sheet_len, export->own_len(call));
}

static void fail(const char *what, size_t length, size_t at, int64_t right, int64_t got)
{
    fprintf(stderr, "word %td of the %s, which has %zu: reference %" PRId64 ", library %" PRId64 "\n", (ptrdiff_t)at - GUARD, what,
            length, right, got);
    abort();
}

/* From the guard before to the guard after: a word that is negative or past the length is a guard's. */
static void compare_answers(const struct export *export, const struct call *call, const uint64_t *right, const uint64_t *got)
{
    for (size_t at = 0; at < GUARD + ENROL_ANSWER_WORDS + GUARD; at++) {
        if (got[at] != right[at]) {
            print_call(export, call);
            fail("answer", ENROL_ANSWER_WORDS, at, (int64_t)right[at], (int64_t)got[at]);
        }
    }
}

static void compare_words(const struct export *export, const struct call *call, const char *what, size_t length,
                          const int32_t *right, const int32_t *got)
{
    for (size_t at = 0; at < GUARD + length + GUARD; at++) {
        if (got[at] != right[at]) {
            print_call(export, call);
            fail(what, length, at, right[at], got[at]);
        }
    }
}

/* Of the words that only the engine is lent, after a run that is not refused, nothing is asked. */
static void compare_own(const struct export *export, const struct call *call, uint64_t end)
{
    size_t length = export->own_len(call), at = 0;
    if (end != ENROL_REFUSED) {
        memcpy(own + GUARD, rubbish + GUARD, length * sizeof own[0]);
    }
    if (memcmp(own, rubbish, (GUARD + length + PAST_OWN) * sizeof own[0]) == 0) {
        return;
    }
    while (own[at] == rubbish[at]) {
        at++;
    }
    print_call(export, call);
    fail("engine's own words", length, at, rubbish[at], own[at]);
}

static void compare(const struct export *export, const struct call *call, const struct lent *right, const struct lent *got)
{
    compare_answers(export, call, right->answer, got->answer);
    compare_words(export, call, "table", call->table_len, right->table, got->table);
    compare_words(export, call, "list of groups", call->groups_len, right->groups, got->groups);
    compare_words(export, call, "sheet", call->sheet_len, right->sheet, got->sheet);
    if (export->own_len != no_len) {
        compare_own(export, call, right->answer[GUARD + ENROL_ANSWER_END]);
    }
}

int LLVMFuzzerInitialize(int *count, char ***words)
{
    (void)count, (void)words;
    for (size_t at = 0; at < sizeof rubbish / sizeof rubbish[0]; at++) {
        own[at] = rubbish[at] = (uint32_t)at * UINT32_C(0x85ebca6b) ^ UINT32_C(0x5a5a0000);
    }
    return 0;
}

int LLVMFuzzerTestOneInput(const uint8_t *bytes, size_t length)
{
    static struct call asked, call;
    static struct lent got, right;
    if (length > ROOM) {
        return 0;
    }
    call_of(bytes, length, &asked);
    call = asked;
    call.script = memcpy(room_end() - asked.script_len, asked.script, asked.script_len);
    for (size_t export = 0; export < EXPORTS; export++) {
        prepare(&asked, &right);
        exports[export].reference(&asked, &right);
        prepare(&asked, &got);
        exports[export].library(&call, &got);
        compare(&exports[export], &asked, &right, &got);
        count(export, right.answer + GUARD);
        if (memcmp(call.script, asked.script, asked.script_len) != 0) {
            print_call(&exports[export], &asked);
            fprintf(stderr, "the script changed\n");
            abort();
        }
    }
    return 0;
}
