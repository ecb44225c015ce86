/* Runs a script on each engine and says what came of it: `enrol FILE [WORD=NUMBER]...`. The words are d, n, g, tally,
 * name (the name to look up), places (of the table, in pairs), list (words of the list of groups that are lent; behind
 * places) and pair=GROUP,MEMBER for a pair in use. The list of groups is made from the pairs.
 * `enrol` alone makes four calls of sample A: one that finishes, one that is spent and two that are refused.
 * Status 0: finished or spent; 1: stopped or refused; 2: the file or a word cannot be read. */
#include <errno.h>
#include <stdio.h>
#include <stdlib.h>
#include <string.h>

#include "engines.h"
#include "print.h"
#include "support.h"

/* Each engine is lent a table, a list, a sheet and an area of its own. */
static int run(const struct call *asked)
{
    static struct call call;
    int status = 0;
    for (size_t at = 0; at < engine_count; at++) {
        uint64_t answer[ENROL_ANSWER_WORDS];
        call = *asked;
        if (!lend_own(&engines[at], &call)) {
            perror(engines[at].name);
            return 2;
        }
        engines[at].run(&call, answer);
        print_outcome(engines[at].name, &call, asked, answer);
        free(call.own);
        status |= answer[ENROL_ANSWER_NUMBER] != ENROL_NO_CAUSE;
    }
    return status;
}

/* As the run program of document 01 calls, on areas that still hold something. */
static void prepare(struct call *call, const uint8_t *script, size_t length)
{
    memset(call, 0x5a, sizeof *call);
    call->script = script;
    call->script_len = length;
    call->d = 16;
    call->n = 1000;
    call->g = 3;
    call->tally = 0;
    call->places = MOST_PLACES;
    call->count = 0;
    call->groups_len = ENROL_LIST_WORDS(2 * MOST_PLACES);
    call->name = 1;
    call->sheet_len = ENROL_SHEET_WORDS(ENROL_MOST_ACTIVATIONS);
}

static void run_sample(struct call *call)
{
    prepare(call, sample_a, sizeof sample_a);
    list_groups(call->table, 2 * call->places, call->count, call->groups);
    puts("Sample A, with 1,000 steps to spend:");
    run(call);
    puts("Sample A, with 2 steps to spend:");
    call->n = 2;
    run(call);
    puts("Sample A, with a sheet one word too short for 16 activations:");
    call->sheet_len = ENROL_SHEET_WORDS(call->d) - 1;
    run(call);
    puts("Sample A, with a list that has the pair before the table does:");
    call->sheet_len = ENROL_SHEET_WORDS(call->d);
    call->groups[0] = 5;
    call->groups[1] = 1;
    run(call);
}

/* Whether the word is KEY with a number up to `most'. */
static int reads(const char *word, const char *key, uint64_t most, uint64_t *number)
{
    size_t length = strlen(key);
    if (strncmp(word, key, length) != 0 || word[length] < '0' || word[length] > '9') {
        return 0;
    }
    char *end;
    errno = 0;
    *number = strtoull(word + length, &end, 10);
    return *end == '\0' && errno == 0 && *number <= most;
}

static int fits(long number)
{
    return INT32_MIN <= number && number <= INT32_MAX;
}

/* Whether the word is pair=GROUP,MEMBER; the pair is then put into use. */
static int takes_pair(struct call *call, const char *word)
{
    if (strncmp(word, "pair=", 5) != 0 || call->count == MOST_PLACES) {
        return 0;
    }
    char *end;
    long group = strtol(word + 5, &end, 10);
    if (*end != ',') {
        return 0;
    }
    long member = strtol(end + 1, &end, 10);
    if (*end != '\0' || !fits(group) || !fits(member)) {
        return 0;
    }
    call->table[2 * call->count] = (int32_t)group;
    call->table[2 * call->count + 1] = (int32_t)member;
    call->count++;
    return 1;
}

static int takes(struct call *call, const char *word)
{
    uint64_t number;
    if (reads(word, "d=", UINT32_MAX, &number)) {
        call->d = (uint32_t)number;
    } else if (reads(word, "n=", UINT32_MAX, &number)) {
        call->n = (uint32_t)number;
    } else if (reads(word, "g=", UINT32_MAX, &number)) {
        call->g = (uint32_t)number;
    } else if (reads(word, "tally=", UINT64_MAX, &number)) {
        call->tally = number;
    } else if (reads(word, "name=", UINT16_MAX, &number)) {
        call->name = (uint16_t)number;
    } else if (reads(word, "places=", MOST_PLACES, &number)) {
        call->places = (size_t)number;
        call->groups_len = ENROL_LIST_WORDS(2 * call->places);
    } else if (reads(word, "list=", 2 * MOST_PLACES, &number)) {
        call->groups_len = (size_t)number;
    } else {
        return takes_pair(call, word);
    }
    return 1;
}

int main(int count, char **words)
{
    static uint8_t script[ENROL_LONGEST_SCRIPT + 1];
    static struct call call;
    if (count < 2) {
        run_sample(&call);
        return 0;
    }
    long length = read_script(words[1], script);
    if (length < 0) {
        perror(words[1]);
        return 2;
    }
    prepare(&call, script, (size_t)length);
    for (int at = 2; at < count; at++) {
        if (!takes(&call, words[at])) {
            fprintf(stderr, "%s: not understood\n", words[at]);
            return 2;
        }
    }
    list_groups(call.table, 2 * call.places, call.count, call.groups);
    return run(&call);
}
