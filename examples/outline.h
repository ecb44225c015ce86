/* The names of a block, read from an accepted script: what is needed to read a sheet. */
#ifndef OUTLINE_H
#define OUTLINE_H

#include "enrol.h"

enum kind { VARIABLE, LABEL, PROCEDURE };

struct name {
    unsigned name;
    enum kind kind;
    int formal;
};

struct outline {
    unsigned names;
    struct name name[ENROL_MOST_NAMES];
};

/* The names of the block whose BK stands at an offset, in the order of the sheet: formals first. */
void outline_of(const uint8_t *script, size_t block, struct outline *outline);

#endif
