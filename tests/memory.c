/* Measures the memory of a call of each function of the library, up to the largest sizes that it
 * takes: the lists lent, and the stack. A call is made on a stack of its own that was filled with
 * a pattern, and has taken all from the first byte on that no longer holds it. Runs are proved and
 * judged with a word of low degree and with one that has a damaged entry. Prints a row for each
 * function: its name, the bytes lent, the bytes of stack. Exits 1 where an answer has another
 * number than it should, or a sheet another length, so that the call did not go all its way. */
#define _XOPEN_SOURCE 700
#include "razgwilh.h"

#include <stdio.h>
#include <stdlib.h>
#include <string.h>
#include <ucontext.h>

#define LENGTH(list) (sizeof(list) / sizeof((list)[0]))
#define LARGEST 20 /* the largest dimension */
#define RATE 1
#define OFFSET 1
#define QUERIES 256
#define SHEET_LINE 56 /* bytes */

/* What the calls are given, in memory that is not on the stack. */
static size_t k, step, rounds, store_length, last_length, transcript_length;
static uint64_t basis[LARGEST], challenges[LARGEST], queries[QUERIES], last[4], next_basis[LARGEST];
static uint64_t word[1 << LARGEST], store[1 << LARGEST], values[1 << LARGEST];
static uint8_t transcript[16779680], sheet[RZ_LARGEST_SHEET];
static struct rz_run run;

/* What they answer, and how many bytes of lists they were lent. */
static struct rz_answer answer;
static uint64_t value;
static size_t lent;

static size_t lent_bytes(size_t bytes) {
    lent += bytes;
    return bytes;
}

static struct rz_list lent_list(const uint64_t *entries, size_t length) {
    lent_bytes(length * sizeof *entries);
    return rz_list_of(entries, length);
}

static struct rz_output lent_output(uint64_t *entries, size_t length) {
    lent_bytes(length * sizeof *entries);
    return rz_output_of(entries, length);
}

static const struct rz_run *lent_run(void) {
    run.basis = lent_list(basis, k);
    run.challenges = lent_list(challenges, rounds);
    run.word = lent_list(word, (size_t)1 << k);
    return &run;
}

static void nothing(void) {
}

static void sum(void) {
    value = rz_sum(word[0], word[1]);
}

static void product(void) {
    value = rz_product(word[0], word[1]);
}

static void inverse(void) {
    answer = rz_inverse_answer(word[0]);
}

/* Ones, which are their own inverses, so that the word stays as it is. */
static void invert(void) {
    rz_invert_list(lent_output(word, (size_t)1 << k));
}

static void encode(void) {
    answer = rz_encode_answer(OFFSET, lent_list(basis, k), lent_list(word, (size_t)1 << k),
                              lent_output(values, (size_t)1 << k));
}

static void interpolate(void) {
    answer = rz_interpolate_answer(OFFSET, lent_list(basis, k), lent_list(word, (size_t)1 << k),
                                   lent_output(values, (size_t)1 << k));
}

static void fold(void) {
    static struct rz_fold_call call;

    call.k = k;
    call.step = step;
    call.offset = OFFSET;
    call.basis = lent_list(basis, k);
    call.word = lent_list(word, (size_t)1 << k);
    call.challenge = challenges[0];
    answer = rz_fold_answer(&call, lent_output(values, (size_t)1 << (k - step)),
                            lent_output(next_basis, k - step));
}

static void count_rounds(void) {
    value = rz_rounds(k, RATE, step);
}

static void count_store(void) {
    value = rz_store_length(k, RATE, step);
}

static void count_last(void) {
    value = rz_last_length(k, RATE, step);
}

static void count_transcript(void) {
    value = rz_transcript_length(k, RATE, step, QUERIES);
}

static void prove(void) {
    answer = rz_prove_answer(lent_run(), lent_output(store, store_length),
                             lent_output(last, last_length));
}

static void layer(void) {
    answer = rz_layer_answer(k, RATE, step, lent_list(store, store_length), 1);
}

static void judge(void) {
    answer = rz_judge_answer(lent_run(), lent_list(queries, QUERIES),
                             lent_list(store, store_length), lent_list(last, last_length));
}

static void write_transcript(void) {
    answer = rz_write_transcript_answer(lent_run(), lent_list(queries, QUERIES),
                                        lent_list(store, store_length),
                                        lent_list(last, last_length), transcript,
                                        lent_bytes(transcript_length));
}

static void judge_transcript(void) {
    answer = rz_judge_transcript_answer(transcript, lent_bytes(transcript_length));
}

static void mark(void) {
    value = rz_sheet_into(transcript, lent_bytes(transcript_length), sheet,
                          lent_bytes(sizeof sheet));
    answer.number = value == rounds * QUERIES * SHEET_LINE ? RZ_ACCEPTED : RZ_NONE;
}

/* How many bytes a call takes of a stack that was filled with this byte. */
static size_t taken(void (*call)(void), int pattern) {
    static uint8_t stack[1 << 16];
    static ucontext_t caller, called;
    size_t untouched = 0;

    memset(stack, pattern, sizeof stack);
    if (getcontext(&called) != 0) {
        exit(2);
    }
    called.uc_stack.ss_sp = stack;
    called.uc_stack.ss_size = sizeof stack;
    called.uc_link = &caller;
    makecontext(&called, call, 0);
    if (swapcontext(&caller, &called) != 0) {
        exit(2);
    }
    while (untouched < sizeof stack && stack[untouched] == pattern) {
        untouched++;
    }
    return sizeof stack - untouched;
}

/* The larger of two such numbers, as the lowest byte written may be the pattern's, less what any
 * call takes on such a stack. */
static size_t stack_of(void (*call)(void)) {
    size_t first = taken(call, 0xa5), second = taken(call, 0x5a);

    return (first > second ? first : second) - taken(nothing, 0xa5);
}

/* A function, the number that it answers where the word is damaged, and what was measured. */
struct row {
    const char *name;
    void (*call)(void);
    uint64_t damaged;
    size_t lent, stack;
};

static struct row rows_of_codes[] = {
    {"rz_sum", sum, 0, 0, 0},
    {"rz_product", product, 0, 0, 0},
    {"rz_inverse_answer", inverse, 0, 0, 0},
    {"rz_invert_list", invert, 0, 0, 0},
    {"rz_encode_answer", encode, 0, 0, 0},
    {"rz_interpolate_answer", interpolate, 0, 0, 0},
};

/* Each call of a run is given what those before it wrote. */
static struct row rows_of_runs[] = {
    {"rz_fold_answer", fold, 0, 0, 0},
    {"rz_rounds", count_rounds, 0, 0, 0},
    {"rz_store_length", count_store, 0, 0, 0},
    {"rz_last_length", count_last, 0, 0, 0},
    {"rz_transcript_length", count_transcript, 0, 0, 0},
    {"rz_prove_answer", prove, RZ_DEGREE_TOO_LARGE, 0, 0},
    {"rz_layer_answer", layer, 0, 0, 0},
    {"rz_judge_answer", judge, RZ_ROUND_CHECK_FAILS, 0, 0},
    {"rz_write_transcript_answer", write_transcript, 0, 0, 0},
    {"rz_judge_transcript_answer", judge_transcript, RZ_ROUND_CHECK_FAILS, 0, 0},
    {"rz_sheet_into", mark, 0, 0, 0},
};

static size_t larger(size_t a, size_t b) {
    return a > b ? a : b;
}

/* The first call, in which the loader may look up memcpy and memset, is not measured. */
static void measure(struct row *rows, size_t count, int damaged) {
    for (size_t i = 0; i < count; i++) {
        lent = 0;
        answer.number = 0;
        rows[i].call();
        rows[i].lent = larger(rows[i].lent, lent);
        rows[i].stack = larger(rows[i].stack, stack_of(rows[i].call));
        if (answer.number != (damaged ? rows[i].damaged : RZ_ACCEPTED)) {
            printf("memory: %s answers %d\n", rows[i].name, (int)answer.number);
            exit(1);
        }
    }
}

static void print(const struct row *rows, size_t count) {
    for (size_t i = 0; i < count; i++) {
        printf("%s %lu %lu\n", rows[i].name, (unsigned long)rows[i].lent,
               (unsigned long)rows[i].stack);
    }
}

/* The run of a constant word, whose folds are the same constant. */
static void set_up(void) {
    rounds = rz_rounds(k, RATE, step);
    store_length = rz_store_length(k, RATE, step);
    last_length = rz_last_length(k, RATE, step);
    transcript_length = (size_t)rz_transcript_length(k, RATE, step, QUERIES);
    run.k = k;
    run.rate = RATE;
    run.step = step;
    run.offset = OFFSET;
    for (size_t t = 0; t < QUERIES; t++) {
        queries[t] = t << step;
    }
}

int main(void) {
    for (size_t t = 0; t < LARGEST; t++) {
        basis[t] = UINT64_C(1) << t;
        challenges[t] = UINT64_MAX - t;
    }
    for (size_t j = 0; j < LENGTH(word); j++) {
        word[j] = 1;
    }
    for (k = 0; k <= LARGEST; k++) {
        measure(rows_of_codes, LENGTH(rows_of_codes), 0);
    }
    k = LARGEST;
    for (step = 1; step <= 3; step++) {
        set_up();
        word[0] = 1;
        measure(rows_of_runs, LENGTH(rows_of_runs), 0);
        word[0] = 2;
        measure(rows_of_runs, LENGTH(rows_of_runs), 1);
    }
    print(rows_of_codes, LENGTH(rows_of_codes));
    print(rows_of_runs, LENGTH(rows_of_runs));
    return 0;
}
