/* The same spans by foma: reads an acceptable job on standard input, compiles its rule to a minimal deterministic automaton, runs every
 * span of its word through it, and writes one line: microseconds of the compilation, microseconds of a scan, spans found.
 * build: gcc -O2 bench/foma.c -lfoma */
#include <fomalib.h>
#include <stdio.h>
#include <stdlib.h>
#include <string.h>
#include <sys/resource.h>
#include <time.h>

enum { MOST_JOB = 4096, COLUMNS = 64, SCANS = 50, OTHER_LETTER = 2 /* foma's number for any symbol it has not seen */ };

static const char LETTERS[] = "ABCDEFGHIJKLMNOPQRSTUVWXYZabcdefghijklmnopqrstuvwxyz";

/* A wild rule is ended by the memory it may have, if not by the bench's time limit. */
static const rlim_t MOST_MEMORY = (rlim_t)2 << 30;

/* The automaton as a table: where each state leads by each letter, or -1. A letter's column is the low six bits of its byte,
 * which no two letters share. */
struct table {
    int start;
    int (*next)[COLUMNS];
    char *final;
};

static int column(char letter) {
    return letter & 63;
}

static const char *rest; /* the unread rest of the rule, which its newline ends */

static struct fsm *read_union(void);

static struct fsm *letter(char byte) {
    char symbol[2] = {byte, 0};
    return fsm_symbol(symbol);
}

/* Any one of some letters, of which there is one at least. */
static struct fsm *any_of(const char *letters, size_t count) {
    struct fsm *net = letter(letters[0]);
    for (size_t i = 1; i < count; i++) net = fsm_union(net, letter(letters[i]));
    return fsm_minimize(net);
}

static struct fsm *read_set(void) {
    const char *letters = rest;
    rest = strchr(rest, ']') + 1;
    return any_of(letters, rest - 1 - letters);
}

static struct fsm *read_atom(void) {
    char first = *rest++;
    if (first == '0') return fsm_empty_set();
    if (first == '1') return fsm_empty_string();
    if (first == '.') return any_of(LETTERS, strlen(LETTERS));
    if (first == '[') return read_set();
    if (first != '(') return letter(first);
    struct fsm *inner = read_union();
    rest++;
    return inner;
}

static struct fsm *read_star(void) {
    struct fsm *net = read_atom();
    for (; *rest == '*'; rest++) net = fsm_minimize(fsm_kleene_star(net));
    return net;
}

static struct fsm *read_complement(void) {
    if (*rest != '!') return read_star();
    rest++;
    return fsm_minimize(fsm_complement(read_complement()));
}

static struct fsm *read_concatenation(void) {
    struct fsm *net = read_complement();
    while (!strchr("|&)\n", *rest)) net = fsm_minimize(fsm_concat(net, read_complement()));
    return net;
}

static struct fsm *read_intersection(void) {
    struct fsm *net = read_concatenation();
    while (*rest == '&') {
        rest++;
        net = fsm_minimize(fsm_intersect(net, read_concatenation()));
    }
    return net;
}

static struct fsm *read_union(void) {
    struct fsm *net = read_intersection();
    while (*rest == '|') {
        rest++;
        net = fsm_minimize(fsm_union(net, read_intersection()));
    }
    return net;
}

/* foma's number for the letter of each column. */
static void number_letters(const struct fsm *net, int numbers[COLUMNS]) {
    for (int c = 0; c < COLUMNS; c++) numbers[c] = OTHER_LETTER;
    for (const struct sigma *s = net->sigma; s && s->number != -1; s = s->next)
        if (s->symbol && strlen(s->symbol) == 1) numbers[column(s->symbol[0])] = s->number;
}

static int states_of(const struct fsm *net) {
    int last = 0;
    for (const struct fsm_state *s = net->states; s->state_no != -1; s++)
        if (s->state_no > last) last = s->state_no;
    return last + 1;
}

static struct table table_of(const struct fsm *net) {
    int numbers[COLUMNS], states = states_of(net);
    struct table table = {0, malloc(sizeof(int[COLUMNS]) * states), calloc(states, 1)};
    memset(table.next, -1, sizeof(int[COLUMNS]) * states);
    number_letters(net, numbers);
    for (const struct fsm_state *s = net->states; s->state_no != -1; s++) {
        if (s->final_state == 1) table.final[s->state_no] = 1;
        if (s->start_state == 1) table.start = s->state_no;
        for (int c = 0; c < COLUMNS && s->target != -1; c++)
            if (numbers[c] == s->in) table.next[s->state_no][c] = s->target;
    }
    return table;
}

/* The number of spans that begin after the first events and obey. */
static long scan_from(const struct table *table, const char *word, int length) {
    int state = table->start;
    long found = table->final[state];
    for (int j = 0; j < length; j++) {
        state = table->next[state][column(word[j])];
        if (state < 0) break;
        found += table->final[state];
    }
    return found;
}

static long scan(const struct table *table, const char *word, int length) {
    long found = 0;
    for (int i = 0; i <= length; i++) found += scan_from(table, word + i, length - i);
    return found;
}

static double micros(void) {
    struct timespec now;
    clock_gettime(CLOCK_MONOTONIC, &now);
    return now.tv_sec * 1e6 + now.tv_nsec / 1e3;
}

/* The letters of a day file, each the last byte of its line. */
static int read_word(const char *day, char *word) {
    int length = 0;
    for (const char *end; (end = strchr(day, '\n')); day = end + 1) word[length++] = end[-1];
    return length;
}

int main(void) {
    static char job[MOST_JOB], word[MOST_JOB];
    struct rlimit limit = {MOST_MEMORY, MOST_MEMORY};
    setrlimit(RLIMIT_AS, &limit);
    if (fread(job, 1, MOST_JOB - 1, stdin) == 0) return 1;
    int length = read_word(strchr(job, '\n') + 1, word);
    rest = job + 2;
    double begin = micros();
    struct table table = table_of(fsm_minimize(read_union()));
    double compiled = micros();
    long found = 0;
    const char *volatile same_word = word; /* volatile, so that no scan is left out for being like the one before */
    for (int i = 0; i < SCANS; i++) found = scan(&table, same_word, length);
    double scanned = micros();
    printf("%.1f %.1f %ld\n", compiled - begin, (scanned - compiled) / SCANS, found);
    return 0;
}
