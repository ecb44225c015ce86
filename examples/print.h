/* What comes of a call, in words. */
#ifndef PRINT_H
#define PRINT_H

#include "engines.h"

/* The end, then the looked-up name, the sheet by activations, the pairs and their groups, or, after a refusal, whether
 * all that was lent is as it was before. */
void print_outcome(const char *engine, const struct call *call, const struct call *before,
                   const uint64_t answer[ENROL_ANSWER_WORDS]);

#endif
