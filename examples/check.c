/* Says whether a script may be run: `check FILE`, or `check` for sample A.
 * Status 0: accepted; 1: refused; 2: the file cannot be read. */
#include <inttypes.h>
#include <stdio.h>

#include "support.h"

static int say(const uint8_t *script, size_t length)
{
    uint64_t answer[ENROL_CHECK_WORDS];
    enrol_check(script, length, answer);
    if (answer[0] == ENROL_NO_CAUSE) {
        printf("accepted: %zu bytes\n", length);
        return 0;
    }
    printf("refused: %" PRIu64 ", %s, at byte %" PRIu64 "\n", answer[0], cause_in_words(answer[0]), answer[1]);
    return 1;
}

int main(int count, char **words)
{
    static uint8_t script[ENROL_LONGEST_SCRIPT + 1];
    if (count < 2) {
        return say(sample_a, sizeof sample_a);
    }
    long length = read_script(words[1], script);
    if (length < 0) {
        perror(words[1]);
        return 2;
    }
    return say(script, (size_t)length);
}
