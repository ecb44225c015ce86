#include "support.h"

#include <stdio.h>
#include <string.h>

/* The last 0 is the one that ends the text. */
const uint8_t sample_a[36] = "BK\2\0\3\0"
                             "VR\1\0"
                             "VR\2\0"
                             "KN\1\0\5\0\0\0"
                             "KN\2\0\7\0\0\0"
                             "AD\1\0\2";

long read_script(const char *name, uint8_t script[ENROL_LONGEST_SCRIPT + 1])
{
    FILE *file = fopen(name, "rb");
    if (file == NULL) {
        return -1;
    }
    size_t length = fread(script, 1, ENROL_LONGEST_SCRIPT + 1, file);
    int failed = ferror(file);
    fclose(file);
    return failed ? -1 : (long)length;
}

/* The first place whose group is not below this one: sought from the last, since the groups of a table often rise. */
static size_t place_of(int32_t group, const int32_t *groups, size_t used)
{
    while (used > 0 && groups[2 * used - 2] >= group) {
        used--;
    }
    return used;
}

void list_groups(const int32_t *table, size_t table_len, size_t count, int32_t *groups)
{
    size_t used = 0;
    memset(groups, 0, ENROL_LIST_WORDS(table_len) * sizeof *groups);
    for (size_t pair = 0; pair < count && pair < table_len / 2; pair++) {
        int32_t group = table[2 * pair];
        size_t place = place_of(group, groups, used);
        int32_t *words = groups + 2 * place;
        if (place == used || words[0] != group) {
            memmove(words + 2, words, 2 * (used - place) * sizeof *words);
            words[0] = group;
            words[1] = 0;
            used++;
        }
        words[1]++;
    }
}

static const char *const causes[] = {
    [ENROL_NO_CAUSE] = "no cause",
    [ENROL_LENGTH] = "the length is odd, 0 or above 8,192",
    [ENROL_PAST_THE_END] = "a record or mark runs past the end",
    [ENROL_MARK] = "a mark that may not stand there",
    [ENROL_FIELD] = "a kind, operation, label index or argument count out of range",
    [ENROL_AFTER_THE_PROGRAM] = "bytes after the program",
    [ENROL_NESTING] = "nesting above 16",
    [ENROL_TOO_MANY_NAMES] = "more than 32 formals or more than 32 names in a block",
    [ENROL_NAME_TWICE] = "a name twice in a block or among its formals",
    [ENROL_NOT_VISIBLE] = "a name that is not visible",
    [ENROL_WRONG_KIND] = "a name of the wrong kind",
    [ENROL_ARGUMENTS] = "arguments that differ from those of the declared procedure",
    [ENROL_LIMITS] = "d, n, g or the tally out of range",
    [ENROL_AREA_TOO_SHORT] = "a lent area too short",
    [ENROL_TABLE_NOT_RIGHT] = "a table that is not right, or a list of groups that is not the table's",
    [ENROL_OVERFLOW] = "a result that does not fit into signed 32 bits",
    [ENROL_TOO_MANY_ACTIVATIONS] = "d activations are live and one more is needed",
    [ENROL_NUMBER_BELOW_ONE] = "a group or member number below 1",
    [ENROL_GROUP_FULL] = "the group has g members",
    [ENROL_TABLE_FULL] = "the table is full",
    [ENROL_ARGUMENTS_OF_FORMAL] = "arguments that differ from those of the procedure that a formal stands for",
};

const char *cause_in_words(uint64_t number)
{
    if (number < sizeof causes / sizeof causes[0] && causes[number] != NULL) {
        return causes[number];
    }
    return "a cause not known here";
}
