/* Case K from its polynomial to a file: encoded, proved, written as a transcript and judged.
 * Prints the bytes of examples/k.transcript where the judge accepts them; exits with 1 where
 * anything is refused or cannot be printed. */
#include "razgwilh.h"

#include <inttypes.h>
#include <stdio.h>
#include <stdlib.h>

#define LENGTH(list) (sizeof(list) / sizeof((list)[0]))

static const uint64_t basis[] = {1, 2, 4}, challenges[] = {2, 3}, queries[] = {5};
static const uint64_t coefficients[] = {0, 0, 1};

/* The first refusal of four calls, or the judge's acceptance. */
static struct rz_answer prove_write_judge(uint8_t *bytes, size_t length) {
    uint64_t word[8], store[4], last[1]; /* rz_store_length and rz_last_length of 3, 1, 1 */
    const struct rz_run run = {
        .k = 3,
        .rate = 1,
        .step = 1,
        .offset = 0,
        .basis = RZ_LIST(basis),
        .challenges = RZ_LIST(challenges),
        .word = RZ_LIST(word),
    };
    struct rz_answer answer =
        rz_encode_answer(run.offset, run.basis, RZ_LIST(coefficients), RZ_OUTPUT(word));

    if (rz_done(answer)) {
        answer = rz_prove_answer(&run, RZ_OUTPUT(store), RZ_OUTPUT(last));
    }
    if (rz_done(answer)) {
        answer = rz_write_transcript_answer(&run, RZ_LIST(queries), RZ_LIST(store), RZ_LIST(last),
                                            bytes, length);
    }
    if (rz_done(answer)) {
        answer = rz_judge_transcript_answer(bytes, length);
    }
    return answer;
}

int main(void) {
    const size_t length = rz_transcript_length(3, 1, 1, LENGTH(queries));
    uint8_t *bytes = malloc(length);
    struct rz_answer verdict = prove_write_judge(bytes, length);
    int written = 0;

    if (rz_accepted(verdict)) {
        written = fwrite(bytes, 1, length, stdout) == length && fflush(stdout) == 0;
    } else {
        fprintf(stderr, "refused %" PRIu64 "\n", verdict.number);
    }
    free(bytes);
    return written ? 0 : 1;
}
