#include "outline.h"

#include <string.h>

static unsigned field(const uint8_t *script, size_t at)
{
    return script[at] + 256u * script[at + 1];
}

static int marked(const uint8_t *script, size_t at, const char *mark)
{
    return memcmp(script + at, mark, 2) == 0;
}

/* Bytes of a record, without the records that it holds. */
static size_t length_of(const uint8_t *script, size_t at)
{
    if (marked(script, at, "VR") || marked(script, at, "GO")) {
        return 4;
    }
    if (marked(script, at, "KN") || marked(script, at, "QY")) {
        return 8;
    }
    if (marked(script, at, "CL")) {
        return 6 + 2 * field(script, at + 4);
    }
    return marked(script, at, "AR") ? 10 : 6;
}

/* The records that a record holds: a block's declarations and statements, a procedure's formals and body. */
static size_t held_by(const uint8_t *script, size_t at)
{
    if (marked(script, at, "BK")) {
        return field(script, at + 2) + field(script, at + 4);
    }
    return marked(script, at, "PR") ? field(script, at + 4) + 1 : 0;
}

/* The offset after a record and all that it holds. */
static size_t after(const uint8_t *script, size_t at)
{
    size_t next = at + length_of(script, at);
    for (size_t held = held_by(script, at); held > 0; held--) {
        next = after(script, next);
    }
    return next;
}

static void add(struct outline *outline, unsigned name, enum kind kind, int formal)
{
    outline->name[outline->names++] = (struct name){name, kind, formal};
}

/* The formals of the block, where it is the body of the procedure at an offset: its FM records fill the space between. */
static void add_formals(const uint8_t *script, size_t procedure, size_t block, struct outline *outline)
{
    size_t first = procedure + length_of(script, procedure);
    unsigned formals = field(script, procedure + 4);
    if (first + 6 * formals != block) {
        return;
    }
    for (size_t at = first; at < block; at += 6) {
        add(outline, field(script, at + 2), (enum kind)field(script, at + 4), 1);
    }
}

void outline_of(const uint8_t *script, size_t block, struct outline *outline)
{
    outline->names = 0;
    for (size_t at = 0; at < block; at += length_of(script, at)) {
        if (marked(script, at, "PR")) {
            add_formals(script, at, block, outline);
        }
    }
    size_t at = block + 6;
    for (unsigned left = field(script, block + 2); left > 0; left--) {
        enum kind kind = marked(script, at, "VR") ? VARIABLE : marked(script, at, "LB") ? LABEL : PROCEDURE;
        add(outline, field(script, at + 2), kind, 0);
        at = after(script, at);
    }
}
