/* Reads a rule file from standard input, tells the size of each line's rule, and judges the last line on the Tuesday of README.md. */
#include <stdio.h>
#include "wuzlevor.h"

/* 16 lines of R, tab, 12 letters, tab, 255 bytes, newline, and one byte more: a longer file is refused. */
enum { MOST_FILE = 16 * 271 + 1 };

static uint8_t file[MOST_FILE];
static uint64_t nodes[WUZ_RULE_FILE_NODES];
static uint64_t table[WUZ_MOST_TABLE];

static int refused(uint64_t number, uint64_t place) {
    fprintf(stderr, "refused: %llu, line %llu\n", (unsigned long long)number, (unsigned long long)place);
    return 1;
}

int main(void) {
    static const uint8_t word[] = "bopcboppcboptttc";
    const size_t n = sizeof word - 1;
    size_t length = fread(file, 1, sizeof file, stdin);
    uint64_t lines[WUZ_LINES] = {0};
    uint64_t answer[WUZ_RULE_FILE_ANSWER] = {0};
    if (wuz_read_rule_file(file, length, answer, WUZ_RULE_FILE_ANSWER, lines, WUZ_LINES, nodes, WUZ_RULE_FILE_NODES) != 0) {
        return refused(answer[0], answer[1]);
    }
    for (uint64_t l = 0; l < answer[4]; l++) {
        printf("line %llu: m %llu, k %llu\n", (unsigned long long)(l + 1), (unsigned long long)lines[2 * l],
               (unsigned long long)lines[2 * l + 1]);
    }
    if (wuz_judge_rule_file(file, length, word, n, WUZ_MOST_WORK, table, WUZ_MOST_TABLE, answer, WUZ_JUDGE_ANSWER) != 0) {
        return refused(answer[0], answer[1]);
    }
    printf("found %llu, count %llu\n", (unsigned long long)answer[2], (unsigned long long)answer[3]);
    for (size_t i = 0; i <= n; i++) {
        for (size_t j = i; j <= n; j++) {
            if (table[4 * i + j / 64] >> (j % 64) & 1) {
                printf("span %zu to %zu\n", i, j);
            }
        }
    }
    return 0;
}
