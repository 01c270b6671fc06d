/* Merges the day files of a door's two readers, INSIDE and OUTSIDE, and tells where the door opened again with no badge since it closed: by
 * the outside reader's day alone, and by the one day of both. */
#include <stdio.h>
#include "wuzlevor.h"

/* One byte more than a day file may have: a longer one is refused. */
enum { MOST_FILE = WUZ_MOST_DAY_FILE + 1 };

/* A day's events. */
struct day {
    size_t n;
    uint8_t letters[WUZ_MOST_EVENTS];
    uint32_t seconds[WUZ_MOST_EVENTS];
};

/* A closing, and an opening directly after it. */
static const uint8_t rule[] = "co";

static uint64_t table[WUZ_MOST_TABLE];

/* Reads the bytes of a file, and tells how many, or -1 where it cannot be read. */
static long read_file(const char *name, uint8_t *bytes) {
    FILE *file = fopen(name, "rb");
    if (file == NULL) return -1;
    size_t length = fread(bytes, 1, MOST_FILE, file);
    int bad = ferror(file);
    fclose(file);
    return bad ? -1 : (long)length;
}

static int refused(const char *what, const uint64_t *answer) {
    fprintf(stderr, "%s refused: %llu, place %llu\n", what, (unsigned long long)answer[0], (unsigned long long)answer[1]);
    return 1;
}

static void print_clock(const char *what, uint32_t second) {
    printf("%s %02u:%02u:%02u", what, (unsigned)(second / 3600), (unsigned)(second / 60 % 60), (unsigned)(second % 60));
}

/* Judges a day, and prints its openings without a badge. */
static int tell(const char *name, const struct day *day) {
    uint64_t answer[WUZ_JUDGE_ANSWER] = {0};
    if (wuz_judge(rule, sizeof rule - 1, day->letters, day->n, WUZ_MOST_WORK, table, WUZ_MOST_TABLE, answer, WUZ_JUDGE_ANSWER) != 0) {
        return refused("the day", answer);
    }
    printf("%s: %llu\n", name, (unsigned long long)answer[2]);
    for (size_t i = 0; i + 2 <= day->n; i++) {
        size_t j = i + 2;
        if (table[4 * i + j / 64] >> (j % 64) & 1) {
            print_clock("  closed", day->seconds[i]);
            print_clock(", opened", day->seconds[j - 1]);
            putchar('\n');
        }
    }
    return 0;
}

int main(int count, char **names) {
    static uint8_t inside[MOST_FILE], outside[MOST_FILE];
    static struct day alone, both;
    uint64_t day_answer[WUZ_DAY_ANSWER] = {0};
    uint64_t answer[WUZ_MERGE_ANSWER] = {0};
    if (count != 3) {
        fprintf(stderr, "usage: %s INSIDE OUTSIDE\n", names[0]);
        return 2;
    }
    long in = read_file(names[1], inside), out = read_file(names[2], outside);
    if (in < 0 || out < 0) {
        fprintf(stderr, "%s: it cannot be read\n", names[in < 0 ? 1 : 2]);
        return 1;
    }
    if (wuz_read_day(outside, (size_t)out, alone.letters, WUZ_MOST_EVENTS, alone.seconds, WUZ_MOST_EVENTS, day_answer,
                     WUZ_DAY_ANSWER) != 0) {
        return refused(names[2], day_answer);
    }
    alone.n = day_answer[4];
    /* At equal seconds the first file's events come first: a badge inside before the opening that it is for. The second file has passed, so
     * 11 to 14 are the first one's. */
    if (wuz_merge_days(inside, (size_t)in, outside, (size_t)out, both.letters, WUZ_MOST_EVENTS, both.seconds, WUZ_MOST_EVENTS, answer,
                       WUZ_MERGE_ANSWER) != 0) {
        return refused(answer[0] == 22 ? "the two days" : names[1], answer);
    }
    both.n = answer[4];
    return tell("outside reader alone", &alone) || tell("both readers", &both) || fflush(stdout) != 0 || ferror(stdout);
}
