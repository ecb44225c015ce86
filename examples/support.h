/* What the example programs share; the list is the fuzzer's too. */
#ifndef SUPPORT_H
#define SUPPORT_H

#include "enrol.h"

/* Two variables set to 5 and 7, then member 7 put into group 5. */
extern const uint8_t sample_a[36];

/* The bytes of a file, at most one more than a script may have; -1 where it cannot be read. */
long read_script(const char *name, uint8_t script[ENROL_LONGEST_SCRIPT + 1]);

/* Writes the list of a table's groups, ENROL_LIST_WORDS(table_len) words. */
void list_groups(const int32_t *table, size_t table_len, size_t count, int32_t *groups);

const char *cause_in_words(uint64_t number);

#endif
