/* Calls the library from C: runs the job of document 01 and prints its listing. */
#include <stdio.h>
#include "wuzlevor.h"

int main(void) {
    static const uint8_t job[] = "R\t!a\nE\t0\ta\n";
    static uint8_t out[WUZ_MOST_TEXT];
    uint64_t answer[WUZ_JOB_ANSWER] = {0};
    uint64_t number = wuz_run_job(job, sizeof job - 1, out, sizeof out, answer, WUZ_JOB_ANSWER);
    if (number != 0) {
        fprintf(stderr, "refused: %llu, place %llu\n", (unsigned long long)number, (unsigned long long)answer[1]);
        return 1;
    }
    printf("number %llu, found %llu\n", (unsigned long long)number, (unsigned long long)answer[2]);
    return fwrite(out, 1, answer[4], stdout) != answer[4];
}
