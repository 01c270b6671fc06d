/* Wuzlevor, the day checker of an office-door reader line: the C interface of the proved library, libwuzlevor.a.
 *
 * Texts. An event is one byte, one of the 52 letters A to Z and a to z; a and A are two events. A rule is a text of letters, sets of letters
 * such as [abc] (any one of them; they rise in byte order, capitals first), . (any one of all 52), 0 (no word), 1 (the empty word), | (or),
 * & (and), ! (not: all other words of letters), * (any number of times) and parentheses; two rules side by side are one after the other.
 * From loosest to tightest: |, &, side by side, ! in front, * behind; what has two sides groups from the left. No * stands directly after
 * a *, which is taken for a typing slip; (a*)* is fine.
 * A rule's nodes are its letters, sets, dots, 0s, 1s and operators, "side by side" included; a set is one node, at the offset of its [.
 * A rule file has 1 to 16 lines: R, tab, name, tab, rule, newline. A name is 1 to 12 letters a to z. In a rule of a file <name> stands for
 * the rule of the line above that has this name, in parentheses and with its own names replaced; its nodes and their offsets are those of
 * the text after replacement. In the rule of a call that takes no rule file, < and > are bytes that no rule may have.
 * A day file has a line for each event: E, tab, the second of the day in decimal (1 to 5 digits, no leading zero but 0 itself), tab, the
 * event's letter, newline. Seconds are counted from the day's first midnight, and on when the clocks go back and the day has 25 hours; they
 * never fall from line to line. A job is a line R, tab, rule, newline, and then a day file.
 * Span (i, j) of a word or a day of n events, 0 <= i <= j <= n, is the events after the first i up to and including the j-th.
 *
 * Buffers. Each is a pointer and the number of its elements. No pointer is NULL, even where the number is 0; each is aligned for its
 * elements and points to that many; a buffer that a call writes overlaps no other buffer of the call. What the calls do otherwise is
 * undefined. Nothing is allocated or kept between calls; calls may run in different threads if no buffer that one of them writes is used by
 * another. The calls have run in threads of 512 KiB of stack; no bound of it is proved.
 *
 * Answers. Every call returns its number, 0 where it accepts, and writes the first elements of `answer`: that number, place, found, count,
 * and then values of its own. What follows them in `answer` is not touched. If `answer`, `nodes` or `lines` is shorter than the call asks
 * for, the call returns WUZ_UNANSWERED and writes nothing: no buffer changes, `answer` included.
 *
 * Numbers. 0 is acceptance. On a refusal place, found, count and the call's own values are 0 unless said here, and no buffer but
 * `answer` changes, except the table on 10.
 *
 *   the job's first line
 *   16  it is not R, tab, bytes up to a newline
 *   then the rule: the first of these that fits
 *    1  it is empty
 *    2  it is over 255 bytes
 *    3  it has a byte that no rule may have; place: the offset of the first one
 *    4  it is no sentence, which is a text formed as above, with the letters of a set in any order and any number of * after each other;
 *       place: the length of its longest beginning that some sentence also has
 *   20  a letter of a set is not above the one before it in byte order; place: the offset of the first such letter
 *   21  a * stands directly after a *; place: the offset of the first * that does; not of wuz_rewrite_rule
 *    5  it has over 64 nodes
 *    6  it has over 7 nodes & and !
 *   or a rule file: its lines in turn, and the first bad line is told, whatever the last line uses; place is always the line, from 1; in a
 *   line the first of these that fits, 19, 16 and 18, and then its rule: 1, 2 (of the bytes as written), 3, 4, 17, 20, 21, 5, 6
 *   16  it is not of the form, its newline included; or the file is empty, place: 1
 *   17  its rule has a <name> that no line above has; 4 is judged before, with each <name> as a rule in parentheses, whatever it stands for,
 *       and a < or > that belongs to no <name> is 4
 *   18  a line above has its name
 *   19  it is a 17th line, whatever stands in it; place: 17
 *   or the day, of a job after its rule: 11; then its lines in turn, the first bad line is told, in a line 14, then 12, then 13; 15 last
 *   11  the file is over 2,550 bytes
 *   12  a line is not of the form; place: the line, from 1
 *   13  a second is over 89,999 or below the line before; place: the line
 *   14  a 256th line has begun, whatever stands in it; place: 256
 *   15  `letters` or `seconds` is shorter than the day; of wuz_run_job and
 *       wuz_rewrite_rule, after all else: `out` is shorter than the text
 *   or two days, of wuz_merge_days: 11 to 14 of the first file, and then of the second, each by its own lines; then 22; 15 last, where `letters`
 *   or `seconds` is shorter than both days together
 *   22  the two files have over 255 events together
 *   or, for wuz_judge and wuz_judge_rule_file, after the rule or the file: the first of these that fits
 *    7  the word is over 255 events
 *    8  it has a byte that is no letter; place: the offset of the first one
 *    9  the table has fewer numbers than are needed
 *   10  the work count is above the limit; count: the limit; the needed numbers of the table are all 0
 */
#ifndef WUZLEVOR_H
#define WUZLEVOR_H

#include <stddef.h>
#include <stdint.h>

#ifdef __cplusplus
extern "C" {
#endif

/* The elements that each call writes to its answer (that of wuz_judge_rule_file is wuz_judge's), and those that `nodes` and `lines` must
 * have. */
#define WUZ_RULE_ANSWER 6
#define WUZ_RULE_FILE_ANSWER 5
#define WUZ_DAY_ANSWER 5
#define WUZ_JUDGE_ANSWER 4
#define WUZ_JOB_ANSWER 5
#define WUZ_REWRITE_ANSWER 5
#define WUZ_MERGE_ANSWER 5
#define WUZ_NODES 128
#define WUZ_RULE_FILE_NODES 2048
#define WUZ_LINES 32

/* Returned by a call that has no room for its answer; no number of the table above. */
#define WUZ_UNANSWERED UINT64_MAX

/* The most that a rule, a day and its file, the table of a judgement, its work count and the text of a job can be. */
#define WUZ_MOST_RULE 255
#define WUZ_MOST_EVENTS 255
#define WUZ_MOST_DAY_FILE 2550
#define WUZ_MOST_TABLE 8192
#define WUZ_MOST_WORK 4210688
#define WUZ_MOST_TEXT 328985

/* Reads a rule text. answer (6): number, place, 0, 0, m, k: the rule has m nodes, k of them & or !.
 * nodes (128 at least): on acceptance the first 2 * m are written, for each node its byte offset and its kind, left side, right side, then
 * the node itself; what follows is not touched. "Side by side" has the offset at which its right side begins. Kinds: 0 empty, 1 epsilon,
 * 2 union, 3 intersection, 4 concatenation, 5 complement, 6 star, or for a set of letters 2^63 + the sum of 2^i over its letters, i = 0 to 25
 * for A to Z and 26 to 51 for a to z; a letter's is that of the set of this one, so that of a and of [a] are the same.
 * Numbers: 0 to 6, 20, 21. */
uint64_t wuz_read_rule(const uint8_t *text, size_t text_len, uint64_t *answer, size_t answer_len, uint64_t *nodes, size_t nodes_len);

/* Reads a rule file. answer (5): number, place, 0, 0, r: the file has r lines.
 * lines (32 at least): on acceptance the first 2 * r are written, m and k of each line. nodes (2,048 at least): on acceptance the nodes of
 * each line are written as wuz_read_rule writes them; those of line l, from 0, begin at element 128 * l. An offset can be over
 * 65,535.
 * Nothing else is touched.
 * Numbers: 0 to 6, 16 to 21. */
uint64_t wuz_read_rule_file(const uint8_t *file, size_t file_len, uint64_t *answer, size_t answer_len, uint64_t *lines, size_t lines_len,
                            uint64_t *nodes, size_t nodes_len);

/* Reads a day file. answer (5): number, place, 0, 0, n: the day has n events.
 * letters, seconds: on acceptance the first n are written, in line order; what follows is not touched.
 * Numbers: 0, 11 to 15. */
uint64_t wuz_read_day(const uint8_t *file, size_t file_len, uint8_t *letters, size_t letters_len, uint32_t *seconds, size_t seconds_len,
                      uint64_t *answer, size_t answer_len);

/* Judges every span of a word of n events, as wuz_read_day leaves them in `letters`, by a rule. answer (4): number, place, found, count:
 * found spans obey the rule, and the work count is count, at most m * (n + 1) * (n + 2); 10 exactly where it is above `limit`.
 * table: (k + 1) * (n + 1) * 4 numbers are needed; what follows them is not touched. On acceptance they are written: a block of n + 1 rows
 * of four numbers for the whole rule, and then one for the part that each & or ! heads, in rising byte offset. In row i of a block, span
 * (i, j) is bit j % 64 (the lowest is bit 0) of number j / 64: 1 exactly if the span obeys. All other bits are 0.
 * Numbers: 0 to 10, 20, 21. */
uint64_t wuz_judge(const uint8_t *rule, size_t rule_len, const uint8_t *word, size_t word_len, uint64_t limit, uint64_t *table,
                   size_t table_len, uint64_t *answer, size_t answer_len);

/* Judges every span of a word by the rule of a file's last line, as wuz_judge does by a rule: m and k, and the order of the blocks, are
 * those of that line's replaced text. answer (4) and table: as of wuz_judge.
 * Numbers: 0 to 10, 16 to 21. */
uint64_t wuz_judge_rule_file(const uint8_t *file, size_t file_len, const uint8_t *word, size_t word_len, uint64_t limit, uint64_t *table,
                             size_t table_len, uint64_t *answer, size_t answer_len);

/* Runs a job. answer (5): number, place, found, count, n: the text has n bytes.
 * out: on acceptance the first n bytes are written: a line H, n, m, k, found, count (here n is the number of events), and for each span
 * that obeys a line S, i, j, by rising i and then rising j; fields are decimal, with a tab before each and a newline after the line.
 * What follows is not touched.
 * Numbers: 0 to 6, 11 to 16, 20, 21. */
uint64_t wuz_run_job(const uint8_t *job, size_t job_len, uint8_t *out, size_t out_len, uint64_t *answer, size_t answer_len);

/* Rewrites a stored rule, in which a * may stand directly after a *: each run of * becomes one *, and nothing else changes. answer (5):
 * number, place, 0, 0, n: the new text has n bytes, no more than the old one. All but 21 is judged on the text as given, so a rule of 65
 * nodes is 5 however few are left.
 * out: on acceptance the first n bytes are written, the new text; what follows is not touched. No call that takes a rule refuses it for the
 * new text, and m is no larger, k is the same, the same spans obey, in every block of the table, and the work count is no higher. A rule
 * without such * comes back as it is.
 * Numbers: 0 to 6, 15, 20. */
uint64_t wuz_rewrite_rule(const uint8_t *text, size_t text_len, uint8_t *out, size_t out_len, uint64_t *answer, size_t answer_len);

/* Merges two day files, as of a door with a reader on each face, into one day: by rising second; at equal seconds the first file's events come
 * first, and each file's own order is kept. Nothing is lost and nothing is added. answer (5): number, place, 0, 0, n: the files have n events
 * together. letters, seconds: on acceptance the first n are written, as wuz_read_day writes those of one file that has all these lines in this
 * order; what follows is not touched. Where 11 to 14 is told, it is of the first file if wuz_read_day tells 11 to 14 of that, and else of the
 * second.
 * Numbers: 0, 11 to 15, 22. */
uint64_t wuz_merge_days(const uint8_t *first, size_t first_len, const uint8_t *second, size_t second_len, uint8_t *letters, size_t letters_len,
                        uint32_t *seconds, size_t seconds_len, uint64_t *answer, size_t answer_len);

#ifdef __cplusplus
}
#endif

#endif
