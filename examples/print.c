#include "print.h"

#include <inttypes.h>
#include <stdio.h>
#include <string.h>

#include "outline.h"
#include "support.h"

static void print_end(const char *engine, const uint64_t answer[ENROL_ANSWER_WORDS])
{
    static const char *const ends[] = {"finished", "spent", "stopped", "refused"};
    printf("%s: %s, steps %" PRIu64 ", tally %" PRIu64 "\n", engine, ends[answer[ENROL_ANSWER_END]],
           answer[ENROL_ANSWER_STEPS], answer[ENROL_ANSWER_TALLY]);
    if (answer[ENROL_ANSWER_NUMBER] != ENROL_NO_CAUSE) {
        printf("  cause %" PRIu64 ", %s, offset %" PRIu64 "\n", answer[ENROL_ANSWER_NUMBER],
               cause_in_words(answer[ENROL_ANSWER_NUMBER]), answer[ENROL_ANSWER_OFFSET]);
    }
}

static void print_designated(uint64_t designator)
{
    printf("position %" PRIu64 " of activation %" PRIu64 " (%" PRIu64 ")\n", ENROL_POSITION_OF(designator),
           ENROL_ACTIVATION_OF(designator), designator);
}

static void print_name(unsigned name, const uint64_t answer[ENROL_ANSWER_WORDS])
{
    printf("  name %u: ", name);
    if (answer[ENROL_ANSWER_DESIGNATOR] == 0) {
        puts("not visible");
    } else {
        print_designated(answer[ENROL_ANSWER_DESIGNATOR]);
    }
    if (answer[ENROL_ANSWER_LINKS] != 0) {
        printf("  links followed for it: %" PRIu64 "\n", answer[ENROL_ANSWER_LINKS]);
    }
}

static void print_word(const struct name *name, unsigned position, int32_t word)
{
    static const char *const kinds[] = {"variable", "label", "procedure"};
    printf("      %u: %s%s %u", position, name->formal ? "formal " : "", kinds[name->kind], name->name);
    if (name->formal) {
        printf(" stands for ");
        print_designated((uint64_t)word);
    } else if (name->kind == VARIABLE) {
        printf(" = %" PRId32 "\n", word);
    } else {
        putchar('\n');
    }
}

static void print_encloser(int32_t encloser)
{
    if (encloser == 0) {
        puts(", the program");
    } else {
        printf(", enclosed by activation %" PRId32 "\n", encloser);
    }
}

/* One activation, from its first word; gives the number of its words. */
static size_t print_activation(const uint8_t *script, unsigned number, const int32_t *words)
{
    struct outline outline;
    outline_of(script, (size_t)words[ENROL_SHEET_BLOCK], &outline);
    printf("    activation %u: block at byte %" PRId32 ", next statement %" PRId32, number, words[ENROL_SHEET_BLOCK],
           words[ENROL_SHEET_NEXT]);
    print_encloser(words[ENROL_SHEET_ENCLOSER]);
    for (unsigned name = 0; name < outline.names; name++) {
        print_word(&outline.name[name], name + 1, words[ENROL_SHEET_NAMES + name]);
    }
    return ENROL_SHEET_NAMES + outline.names;
}

static void print_sheet(const struct call *call, size_t words)
{
    printf("  sheet: %zu words\n", words);
    unsigned number = 1;
    for (size_t at = 0; at < words; number++) {
        at += print_activation(call->script, number, call->sheet + at);
    }
}

static void print_pairs(const struct call *call, size_t pairs)
{
    printf("  pairs: %zu of %zu\n", pairs, call->places);
    for (size_t pair = 0; pair < pairs; pair++) {
        printf("    %" PRId32 " %" PRId32 "\n", call->table[2 * pair], call->table[2 * pair + 1]);
    }
}

static void print_groups(const struct call *call)
{
    size_t used = 0;
    while (used < call->places && call->groups[2 * used] != 0) {
        used++;
    }
    printf("  groups: %zu\n", used);
    for (size_t place = 0; place < used; place++) {
        int32_t members = call->groups[2 * place + 1];
        printf("    %" PRId32 ": %" PRId32 " %s\n", call->groups[2 * place], members, members == 1 ? "member" : "members");
    }
}

/* After a refusal all that was lent must be as it was. */
static void print_unchanged(const struct call *call, const struct call *before)
{
    int same = memcmp(call->table, before->table, sizeof call->table) == 0 &&
               memcmp(call->groups, before->groups, sizeof call->groups) == 0 &&
               memcmp(call->sheet, before->sheet, sizeof call->sheet) == 0;
    for (size_t at = 0; at < call->own_len; at++) {
        same = same && call->own[at] == UNWRITTEN;
    }
    puts(same ? "  all that was lent is as it was" : "  something that was lent has changed");
}

void print_outcome(const char *engine, const struct call *call, const struct call *before,
                   const uint64_t answer[ENROL_ANSWER_WORDS])
{
    print_end(engine, answer);
    if (answer[ENROL_ANSWER_END] == ENROL_REFUSED) {
        print_unchanged(call, before);
        return;
    }
    print_name(call->name, answer);
    print_sheet(call, (size_t)answer[ENROL_ANSWER_SHEET]);
    print_pairs(call, (size_t)answer[ENROL_ANSWER_PAIRS]);
    print_groups(call);
}
