/* The enrolment script engine: the C interface of libenrol.a.
 *
 *     enrol_check      may this script be run?
 *     enrol_copy       run it: by the copy rule, on copies of the script's text in an area that the caller lends
 *     enrol_chain      run it: names by static links in activation records that the caller lends
 *     enrol_display    run it: names by a display
 *     enrol_search     run it: names by a search back along the callers
 *
 * The engines differ in how they find a name and in what they are lent for it. Handed the same call, all give the same
 * but for the links, which only the chain engine counts.
 *
 * Which engine to call:
 *
 *     display    for any script: what a name costs does not depend on where it is declared.
 *     chain      where the activation records shall stand in the caller's memory, or where it is asked how many links
 *                lead to the looked-up name.
 *     copy       for the copy rule itself, on real copies of the text. It is lent room for D copies of the script.
 *     search     where no static links and no display shall be kept: for shallow scripts, whose names are declared few
 *                activations away. A name declared far down the callers' chain, as from deep recursion or in a block
 *                15 levels out, costs time for each activation that the search passes, though no step of n.
 *
 * `make bench' prints the times of all four on the same scripts.
 *
 * The library needs nothing but the C library. It allocates nothing, keeps no pointer after a call has returned and
 * holds nothing between calls, so calls on different threads do not disturb each other. A call needs less than 512 KiB
 * of stack.
 *
 * A lent slice is a pointer and a length. No pointer is null: a slice's is not, even where the length is 0, and an
 * answer's is not either. Nothing else writes to what is lent during the call; what a call may write to (table, groups,
 * sheet, area, records, answer) overlaps nothing else that it is lent. Beyond that nothing is asked: any bytes, words
 * and numbers may be handed in, and what does not fit is refused.
 */
#ifndef ENROL_H
#define ENROL_H

#include <stddef.h>
#include <stdint.h>

#ifdef __cplusplus
extern "C" {
#endif

/* Bounds of a script. */
#define ENROL_LONGEST_SCRIPT 8192 /* bytes */
#define ENROL_MOST_LEVELS 16      /* of nesting, the program's block included */
#define ENROL_MOST_NAMES 32       /* of one block, formals included */
#define ENROL_MOST_ARGUMENTS 32   /* of one call */

/* Bounds of what a run is fed; the least are 1, 0, 1 and 0. */
#define ENROL_MOST_ACTIVATIONS 256 /* D */
#define ENROL_MOST_STEPS 1000000   /* N */
#define ENROL_MOST_MEMBERS 65535   /* G */
#define ENROL_MOST_TALLY UINT64_C(1000000000000)

/* Words of an answer: the check's and a run's. */
#define ENROL_CHECK_WORDS 2
#define ENROL_ANSWER_WORDS 9

/* Words that must be lent for d activations: the sheet's, 35 for each, and the copying engine's area for a script of
 * script_len bytes. The chain engine is lent d records. Words of the list of groups beside a table of table_len words:
 * two for every two of the table's. */
#define ENROL_SHEET_WORDS(d) ((size_t)(d) * (ENROL_SHEET_NAMES + ENROL_MOST_NAMES))
#define ENROL_AREA_WORDS(d, script_len) ((size_t)(d) * ((size_t)(script_len) / 2))
#define ENROL_LIST_WORDS(table_len) ((size_t)(table_len) / 2 * 2)

/* A designator names one declared name of a live activation: the activation's number, counted from 1 at the outermost,
 * times 64, plus the name's position among the activation's names, from 1. 0 names none. */
#define ENROL_ACTIVATION_OF(designator) ((designator) / 64)
#define ENROL_POSITION_OF(designator) ((designator) % 64)

/* Causes, with the offset that is reported beside each one; `order' below says which is tested first.
 *
 *  Number  Cause                                                       Offset of
 *
 *       The script, refused by the check and by every run:
 *       1  the length is odd, 0 or above 8,192                         0
 *       2  a record or mark runs past the end                          the record, or where it would begin
 *       3  a mark that may not stand there                             the record
 *       4  a kind, operation, label index or argument count out of     the record
 *          range
 *       5  bytes after the program                                     the first such byte
 *       6  nesting above 16                                            the BK
 *       7  more than 32 formals, or more than 32 names in a block,     the PR or BK
 *          formals included
 *       8  a name twice in a block or among its formals                the second one's record
 *       9  a name that is not visible                                  the record that uses it
 *      10  a name of the wrong kind                                    the record that uses it
 *      11  arguments that differ in number or kind from those of the   the CL
 *          declared procedure
 *
 *       The rest of a call, refused by every run:
 *      12  D, N, G or the tally out of range                           0
 *      13  a lent area too short                                       0
 *      14  a table that is not right, or a list of groups that is not  0
 *          the table's
 *
 *       A run, stopped before the statement:
 *      21  the result of AR does not fit into signed 32 bits           the AR
 *      22  D activations are live and one more is needed               the BK or CL
 *      23  a group or member number below 1                            the AD, RM or QY
 *      24  the pair is absent and its group has G members              the AD
 *      25  the pair is absent and the table is full                    the AD
 *      26  a call through a formal with arguments that differ in       the CL
 *          number or kind from those of the procedure that it
 *          finally stands for
 *
 * Order of refusals: 12; 13 for the sheet, the records and the list; 14 for the table, then for the list; then the
 * script's; last of all 13 for the copying area. Of the script's 1; then record by record in file order 2 to 4 and 6 to
 * 8; then 5; then 9 to 11, record by record in file order. Of one record: its mark is there (2), may stand there (3),
 * its fields are there (2), then 4, 6, 7, 8. The argument count of a CL is judged (4) before its argument names are
 * looked for (2). The names of a record are judged from left to right, each by 9 and then 10; of a CL the called name
 * by 9 and 10, its arguments by 9, then 11.
 *
 * Order of stops of one statement: 23, 24, 25; and 26 before 22.
 *
 * The offset may be script_len itself, where there is no byte to read: for 2 when the record is missing (BK 0 65535
 * and nothing after it gives 2 at 6), and for 1 when the length is 0. The program's own BK stands at 0, so an offset
 * of 0 names a record only beside 2, 3 and 7.
 */
enum enrol_cause {
    ENROL_NO_CAUSE = 0,
    ENROL_LENGTH = 1,
    ENROL_PAST_THE_END = 2,
    ENROL_MARK = 3,
    ENROL_FIELD = 4,
    ENROL_AFTER_THE_PROGRAM = 5,
    ENROL_NESTING = 6,
    ENROL_TOO_MANY_NAMES = 7,
    ENROL_NAME_TWICE = 8,
    ENROL_NOT_VISIBLE = 9,
    ENROL_WRONG_KIND = 10,
    ENROL_ARGUMENTS = 11,
    ENROL_LIMITS = 12,
    ENROL_AREA_TOO_SHORT = 13,
    ENROL_TABLE_NOT_RIGHT = 14,
    ENROL_OVERFLOW = 21,
    ENROL_TOO_MANY_ACTIVATIONS = 22,
    ENROL_NUMBER_BELOW_ONE = 23,
    ENROL_GROUP_FULL = 24,
    ENROL_TABLE_FULL = 25,
    ENROL_ARGUMENTS_OF_FORMAL = 26
};

/* The script check: may this script be run?
 *
 * script      script_len bytes, read and never written
 * answer[0]   0 where the script is accepted, else the refusal's number, 1 to 11
 * answer[1]   where accepted 0, else the byte offset in the script that the refusal is about
 *
 * Both words of the answer are always written, and nothing else is, whether the script is accepted or refused.
 */
void enrol_check(const uint8_t *script, size_t script_len, uint64_t answer[ENROL_CHECK_WORDS]);

/* A run's answer: what stands in each of its words. */
enum enrol_answer {
    ENROL_ANSWER_END = 0,        /* how it ended, an enrol_end */
    ENROL_ANSWER_NUMBER = 1,     /* the cause's, 0 where it finished or was spent */
    ENROL_ANSWER_STEPS = 2,      /* done; a statement that stops is not counted */
    ENROL_ANSWER_OFFSET = 3,     /* as under the causes, 0 where there is none */
    ENROL_ANSWER_PAIRS = 4,      /* in use in the table, afterwards */
    ENROL_ANSWER_SHEET = 5,      /* words written to the sheet, 0 when the run finished */
    ENROL_ANSWER_TALLY = 6,      /* the one handed in plus the steps; it may pass ENROL_MOST_TALLY */
    ENROL_ANSWER_DESIGNATOR = 7, /* of the looked-up name, 0 where it is not visible or no block is live */
    ENROL_ANSWER_LINKS = 8       /* the chain engine's, 0 from the others */
};

enum enrol_end {
    ENROL_FINISHED = 0, /* the program's block was left */
    ENROL_SPENT = 1,    /* N steps were done before that; what the next statement is plays no part */
    ENROL_STOPPED = 2,  /* the next statement has a cause, 21 to 26, and was not begun */
    ENROL_REFUSED = 3   /* for a cause from 1 to 14; nothing was run */
};

/* What stands in the words of one activation on a sheet; `how a sheet is read' below. */
enum enrol_sheet {
    ENROL_SHEET_BLOCK = 0,    /* byte offset of its block's BK */
    ENROL_SHEET_NEXT = 1,     /* number of its next statement */
    ENROL_SHEET_ENCLOSER = 2, /* number of the activation that encloses its text, 0 for the program's */
    ENROL_SHEET_NAMES = 3     /* from here on a word for each name */
};

/* Running a script. Every engine takes and gives the following; what one takes beside it stands at its function.
 *
 * Taken:
 * script     script_len bytes, read and never written; checked in the call, so that it need not be checked before
 * d          the most activations that may be live, 1 to 256
 * n          the most steps that may be done, 0 to 1,000,000. A statement is a step, and so is leaving a block;
 *            entering the program's block is none.
 * g          the most members that a group may have, 1 to 65,535
 * tally      steps counted so far by the caller, at most 1,000,000,000,000
 * table      table_len words, two for each pair (group, member), of which the first `count' pairs are in use.
 *            It is right when table_len is even, the count fits, all numbers in use are at least 1, no pair in use
 *            stands twice and no group has more than g of them. What lies past the pairs in use may be anything.
 * groups     groups_len words, at least ENROL_LIST_WORDS(table_len), too few give 13: the list of the table's groups,
 *            `how the list is kept' below. Words after those asked for may hold anything.
 * name       a name to look up where the run ends, in the innermost live block
 * sheet      sheet_len words, at least ENROL_SHEET_WORDS(d), whatever they hold
 *
 * Given:
 * answer     all nine words, always
 * table      with the pairs that AD has added at the end and without those that RM has taken out: later pairs have
 *            moved down by one and the place freed last holds 0, 0
 * groups     the list of the table as it now is
 * sheet      the state where the run ended, in the first answer[ENROL_ANSWER_SHEET] words
 *
 * Left alone: the script; the table past all places that were ever in use; the list after the words asked for; the
 * sheet past the words written. Where the call is refused, only the answer is written: all else that is lent keeps
 * every word, and the answer has 0 steps, the count and the tally as they were given, 0 sheet words, designator 0 and 0
 * links.
 *
 * Where a run is stopped, all is as it was before the statement at fault: the number of that statement is still the
 * next one on the sheet.
 *
 * How the list is kept. Two words make a place: a group and its number of members in the table. It is the table's when
 * each group of a pair in use has one place and no other group has any, the groups rise from place to place, each
 * number is the count of the group's pairs in use, and every place after the last of them is 0, 0. Each table has one
 * such list. An empty table's has 0 in every word asked for; beside (7,1), (5,7), (5,9) and two free places it is
 *
 *     5 2  7 1  0 0  0 0  0 0
 *
 * A call tests the list that it is handed, and leaves it as the table's, whether it has finished, was spent or stopped:
 * with the table and the pairs of the answer it goes into the next call as it is. A caller that changes the table
 * itself changes the list too. A longer table asks for a longer list, and the places that it has more than before are to
 * be 0, 0. 14 does not tell whether the table or the list was wrong. AD reads from the list how many members its group
 * has.
 *
 * How a sheet is read. The live activations follow each other from the outermost, numbered from 1. Each has the byte
 * offset of its block's BK, the number of its next statement (one more than the block has where none is left), the
 * number of its encloser, and a word for each name of the block: the formals first, then the declarations in the order
 * written. A variable's word is its value, a label's or procedure's is 0, a formal's is the designator of the declared
 * name that it finally stands for. How many names an activation has, and of which kinds, is read from the script at its
 * BK (and from the PR before it, where it is a body).
 *
 * The encloser of an activation is the one that encloses its text. A block's is the one in which the block stands. A
 * body's is the one that declares the procedure, whoever has called it and under whatever name: where a block is live
 * more than once, each time has procedures of its own, and the encloser says whose was called. The program has none, so
 * its word is 0. Who called or entered an activation is the one before it on the sheet. A name that an activation uses
 * and does not declare is its encloser's, or that one's encloser's, and so on.
 *
 * Sample B, with the offsets of its records:
 *
 *     0  BK 3 1                        the program: variable 1, procedures 2 and 3
 *     6    VR 1
 *    10    PR 2 0
 *    16      BK 0 0                    2's body: no names
 *    22    PR 3 1
 *    28      FM 4 2
 *    34      BK 3 6                    3's body: formal 4, variable 5, procedure 6, label 7
 *    40        VR 5
 *    44        PR 6 0
 *    50          BK 0 1                6's body: no names
 *    56            KN 5 9
 *    64        LB 7 5
 *    70        IF 1 7
 *    76        KN 1 1
 *    84        KN 5 1
 *    92        CL 3 1 6
 *   100        KN 5 2
 *   108        CL 4 0
 *   114    CL 3 1 2
 *
 * After 9 steps (n = 9, spent) it has written 23 words:
 *
 *     0 2 0  1 0 0       activation 1: the program; its one statement is begun, so 2 is next; nothing encloses it;
 *                        variable 1 holds 1
 *    34 5 1  66 9 0 0    activation 2: 3's body, statement 5 is next; activation 1 declares 3; formal 4 stands for
 *                        66 = 1 * 64 + 2, procedure 2 of activation 1; variable 5 holds 9; procedure 6 and label 7
 *                        have 0
 *    34 7 1  131 2 0 0   activation 3: 3's body again, no statement left; activation 2 has called it, and it is
 *                        activation 1's 3 as before; formal 4 stands for 131 = 2 * 64 + 3, procedure 6 of activation 2;
 *                        its own variable 5 holds 2
 *    50 2 2              activation 4: 6's body, which has no names; activation 3 has called it by its formal, and it
 *                        is activation 2's 6
 *
 * The looked-up name 5 gives 130 = 2 * 64 + 2: what activation 4 calls 5 is the variable of its encloser, activation 2,
 * whose procedure 6 was handed on and called, and not that of activation 3.
 */

/* Runs a script on the copying engine, which enters a block by copying its text with a new name for each name that it
 * declares, so that each name in a copy stands for one declared name. Taken and given beside what every engine is:
 *
 * area       area_len words, at least ENROL_AREA_WORDS(d, script_len), whatever they hold; too few give 13, but only
 *            where no other refusal is due. The copies stand there: after a run that is not refused the area may hold
 *            anything. For D = 256 and the longest script it is 1,048,576 words.
 * answer     0 links
 */
void enrol_copy(const uint8_t *script, size_t script_len, uint32_t d, uint32_t n, uint32_t g, uint64_t tally,
                int32_t *table, size_t table_len, size_t count, int32_t *groups, size_t groups_len, uint16_t name,
                int32_t *sheet, size_t sheet_len, uint32_t *area, size_t area_len, uint64_t answer[ENROL_ANSWER_WORDS]);

/* An activation record of the chain engine: where the activation's block stands, its next statement, and the record that
 * its static link leads to. */
struct enrol_activation {
    uint32_t block, next, link;
};

/* Runs a script on the chain engine, which finds a name by following static links from one activation record to the
 * next. Taken and given beside what every engine is:
 *
 * records    records_len activation records, at least d, whatever they hold; too few give 13. They are what the engine
 *            runs on: after a run that is not refused they may hold anything.
 * answer     ENROL_ANSWER_LINKS: how many links lead from the innermost live block to the one that declares the
 *            looked-up name as written, 0 to 15; 0 where the name is not visible or no block is live
 */
void enrol_chain(const uint8_t *script, size_t script_len, uint32_t d, uint32_t n, uint32_t g, uint64_t tally,
                 int32_t *table, size_t table_len, size_t count, int32_t *groups, size_t groups_len, uint16_t name,
                 int32_t *sheet, size_t sheet_len, struct enrol_activation *records, size_t records_len,
                 uint64_t answer[ENROL_ANSWER_WORDS]);

/* Runs a script on the display engine, which finds a name in an array of the activations around the innermost block's
 * text. It is lent nothing beside what every engine is, and gives 0 links. */
void enrol_display(const uint8_t *script, size_t script_len, uint32_t d, uint32_t n, uint32_t g, uint64_t tally,
                   int32_t *table, size_t table_len, size_t count, int32_t *groups, size_t groups_len, uint16_t name,
                   int32_t *sheet, size_t sheet_len, uint64_t answer[ENROL_ANSWER_WORDS]);

/* Runs a script on the search engine, which seeks a name in the innermost activation, then in the one that called or
 * entered it, and so on outwards. Only from an activation that was entered through a procedure formal it goes on at
 * another one: at the activation in whose text the procedure stood under its own name when it was handed over. It is
 * lent nothing beside what every engine is, and gives 0 links. */
void enrol_search(const uint8_t *script, size_t script_len, uint32_t d, uint32_t n, uint32_t g, uint64_t tally,
                  int32_t *table, size_t table_len, size_t count, int32_t *groups, size_t groups_len, uint16_t name,
                  int32_t *sheet, size_t sheet_len, uint64_t answer[ENROL_ANSWER_WORDS]);

#ifdef __cplusplus
}
#endif

#endif
