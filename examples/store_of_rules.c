/* Moves a store of rules over: one rule a line on standard input, and on standard output the same rules with each run of * made one *. It
 * stops at the first line that is no rule, says why, and ends with status 1; then the output is no whole store. */
#include <stdio.h>
#include "wuzlevor.h"

/* The bytes of the next line, or -1 where there is none. Of a line that is too long for a rule one byte more is kept than a rule may have. */
static int read_line(uint8_t *line) {
    int length = 0;
    int c;
    while ((c = getchar()) != EOF && c != '\n')
        if (length <= WUZ_MOST_RULE) line[length++] = (uint8_t)c;
    return c == EOF && length == 0 ? -1 : length;
}

int main(void) {
    uint8_t old[WUZ_MOST_RULE + 1];
    uint8_t new[WUZ_MOST_RULE + 1];
    uint64_t answer[WUZ_REWRITE_ANSWER] = {0};
    int length;
    for (unsigned long number = 1; (length = read_line(old)) >= 0; number++) {
        if (wuz_rewrite_rule(old, (size_t)length, new, WUZ_MOST_RULE, answer, WUZ_REWRITE_ANSWER) != 0) {
            fprintf(stderr, "line %lu refused: %llu, place %llu\n", number, (unsigned long long)answer[0], (unsigned long long)answer[1]);
            return 1;
        }
        new[answer[4]] = '\n';
        if (fwrite(new, 1, answer[4] + 1, stdout) != answer[4] + 1) return 1;
    }
    return ferror(stdin) || fflush(stdout) != 0;
}
