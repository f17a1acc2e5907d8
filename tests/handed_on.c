/* Defines the raw functions itself, without the library: each records what it is handed and
 * answers five different numbers, that of the sheet a length, that of a list nothing. So every
 * function of the header's part 6 is seen to hand on its arguments whole and in their order, never
 * a null pointer, and to name what comes back. C and C++ both compile it. */
#include "razgwilh.h"

#include <stdio.h>

#define ROOM 32

/* What the functions of part 6 are given, by its place among the raw function's arguments, where a
 * list is one argument. A number is a length without its pointer. */
static struct rz_output given[ROOM];

/* What the raw functions were handed, by the same places. A number has no pointer. */
static struct {
    size_t calls, arguments;
    uint64_t numbers[ROOM];
    const void *pointers[ROOM];
} handed;

static const uint64_t nothing_done[] = {RZ_NONE, RZ_NONE, RZ_NONE, 0, RZ_NONE};
static const uint64_t answered[] = {101, 102, 103, 104, 105};
static const uint64_t sheet_length = 106;

static const char *function = "";
static int failures = 0;

static void expect(int holds, const char *what) {
    if (!holds) {
        printf("handed on: %s: %s\n", function, what);
        failures++;
    }
}

static void take(const void *pointer, uint64_t number) {
    handed.pointers[handed.arguments] = pointer;
    handed.numbers[handed.arguments] = number;
    handed.arguments++;
}

static void take_number(uint64_t number) {
    take(NULL, number);
}

static void give_answer(uint64_t *answer, size_t length) {
    handed.calls++;
    expect(length == RZ_ANSWER_LENGTH, "the length of the answer's list");
    for (size_t i = 0; i < RZ_ANSWER_LENGTH; i++) {
        expect(answer[i] == nothing_done[i], "what the answer's list held before");
        answer[i] = answered[i];
    }
}

void rz_inverse(uint64_t a, uint64_t *answer, size_t answer_length) {
    take_number(a);
    give_answer(answer, answer_length);
}

void rz_invert(uint64_t *elements, size_t length) {
    take(elements, length);
    handed.calls++;
}

void rz_encode(uint64_t offset, const uint64_t *basis, size_t basis_length,
               const uint64_t *coefficients, size_t coefficients_length, uint64_t *values,
               size_t values_length, uint64_t *answer, size_t answer_length) {
    take_number(offset);
    take(basis, basis_length);
    take(coefficients, coefficients_length);
    take(values, values_length);
    give_answer(answer, answer_length);
}

void rz_interpolate(uint64_t offset, const uint64_t *basis, size_t basis_length,
                    const uint64_t *word, size_t word_length, uint64_t *coefficients,
                    size_t coefficients_length, uint64_t *answer, size_t answer_length) {
    take_number(offset);
    take(basis, basis_length);
    take(word, word_length);
    take(coefficients, coefficients_length);
    give_answer(answer, answer_length);
}

void rz_fold(size_t k, size_t step, uint64_t offset, const uint64_t *basis, size_t basis_length,
             const uint64_t *word, size_t word_length, uint64_t challenge, uint64_t *values,
             size_t values_length, uint64_t *next_basis, size_t next_basis_length,
             uint64_t *answer, size_t answer_length) {
    take_number(k);
    take_number(step);
    take_number(offset);
    take(basis, basis_length);
    take(word, word_length);
    take_number(challenge);
    take(values, values_length);
    take(next_basis, next_basis_length);
    give_answer(answer, answer_length);
}

void rz_prove(size_t k, size_t rate, size_t step, uint64_t offset, const uint64_t *basis,
              size_t basis_length, const uint64_t *challenges, size_t challenges_length,
              const uint64_t *word, size_t word_length, uint64_t *store, size_t store_length,
              uint64_t *last, size_t last_length, uint64_t *answer, size_t answer_length) {
    take_number(k);
    take_number(rate);
    take_number(step);
    take_number(offset);
    take(basis, basis_length);
    take(challenges, challenges_length);
    take(word, word_length);
    take(store, store_length);
    take(last, last_length);
    give_answer(answer, answer_length);
}

void rz_layer(size_t k, size_t rate, size_t step, const uint64_t *store, size_t store_length,
              size_t i, uint64_t *answer, size_t answer_length) {
    take_number(k);
    take_number(rate);
    take_number(step);
    take(store, store_length);
    take_number(i);
    give_answer(answer, answer_length);
}

void rz_judge(size_t k, size_t rate, size_t step, uint64_t offset, const uint64_t *basis,
              size_t basis_length, const uint64_t *challenges, size_t challenges_length,
              const uint64_t *queries, size_t queries_length, const uint64_t *word,
              size_t word_length, const uint64_t *store, size_t store_length,
              const uint64_t *last, size_t last_length, uint64_t *answer, size_t answer_length) {
    take_number(k);
    take_number(rate);
    take_number(step);
    take_number(offset);
    take(basis, basis_length);
    take(challenges, challenges_length);
    take(queries, queries_length);
    take(word, word_length);
    take(store, store_length);
    take(last, last_length);
    give_answer(answer, answer_length);
}

void rz_write_transcript(size_t k, size_t rate, size_t step, uint64_t offset,
                         const uint64_t *basis, size_t basis_length, const uint64_t *challenges,
                         size_t challenges_length, const uint64_t *queries, size_t queries_length,
                         const uint64_t *word, size_t word_length, const uint64_t *store,
                         size_t store_length, const uint64_t *last, size_t last_length,
                         uint8_t *bytes, size_t bytes_length, uint64_t *answer,
                         size_t answer_length) {
    take_number(k);
    take_number(rate);
    take_number(step);
    take_number(offset);
    take(basis, basis_length);
    take(challenges, challenges_length);
    take(queries, queries_length);
    take(word, word_length);
    take(store, store_length);
    take(last, last_length);
    take(bytes, bytes_length);
    give_answer(answer, answer_length);
}

void rz_judge_transcript(const uint8_t *bytes, size_t bytes_length, uint64_t *answer,
                         size_t answer_length) {
    take(bytes, bytes_length);
    give_answer(answer, answer_length);
}

uint64_t rz_sheet(const uint8_t *bytes, size_t bytes_length, uint8_t *out, size_t out_length) {
    take(bytes, bytes_length);
    take(out, out_length);
    handed.calls++;
    return sheet_length;
}

static uint64_t number(size_t place) {
    return given[place].length;
}

static struct rz_list list(size_t place) {
    return rz_list_of(given[place].entries, given[place].length);
}

static struct rz_output output(size_t place) {
    return given[place];
}

static struct rz_answer call_inverse(void) {
    return rz_inverse_answer(number(0));
}

/* That the raw function was called stands for its answer. */
static struct rz_answer call_invert(void) {
    rz_invert_list(output(0));
    return rz_answer_of(handed.calls == 1 ? answered : nothing_done);
}

static struct rz_answer call_encode(void) {
    return rz_encode_answer(number(0), list(1), list(2), output(3));
}

static struct rz_answer call_interpolate(void) {
    return rz_interpolate_answer(number(0), list(1), list(2), output(3));
}

static struct rz_answer call_fold(void) {
    const struct rz_fold_call call = {number(0), number(1), number(2),
                                      list(3),   list(4),   number(5)};

    return rz_fold_answer(&call, output(6), output(7));
}

static struct rz_answer call_prove(void) {
    const struct rz_run run = {number(0), number(1), number(2), number(3),
                               list(4),   list(5),   list(6)};

    return rz_prove_answer(&run, output(7), output(8));
}

static struct rz_answer call_layer(void) {
    return rz_layer_answer(number(0), number(1), number(2), list(3), number(4));
}

/* The word stands behind the queries. */
static struct rz_answer call_judge(void) {
    const struct rz_run run = {number(0), number(1), number(2), number(3),
                               list(4),   list(5),   list(7)};

    return rz_judge_answer(&run, list(6), list(8), list(9));
}

/* The word stands behind the queries. */
static struct rz_answer call_write_transcript(void) {
    const struct rz_run run = {number(0), number(1), number(2), number(3),
                               list(4),   list(5),   list(7)};

    return rz_write_transcript_answer(&run, list(6), list(8), list(9),
                                      (uint8_t *)given[10].entries, number(10));
}

static struct rz_answer call_judge_transcript(void) {
    return rz_judge_transcript_answer((const uint8_t *)given[0].entries, number(0));
}

/* The length that the raw function gave stands for its answer, and RZ_NONE for nothing done. */
static struct rz_answer call_sheet(void) {
    const uint64_t length =
        rz_sheet_into((const uint8_t *)given[0].entries, number(0), (uint8_t *)given[1].entries,
                      number(1));

    expect(length == sheet_length || length == RZ_NONE, "the length of a sheet");
    return rz_answer_of(length == sheet_length ? answered : nothing_done);
}

/* Every place gets a pointer and a number of its own. No narrower type holds the numbers. */
static void start(const char *name) {
    static uint64_t entries[ROOM];

    function = name;
    handed.calls = 0;
    handed.arguments = 0;
    for (size_t i = 0; i < ROOM; i++) {
        given[i] = rz_output_of(&entries[i], UINT64_C(0xfedcba9876543200) + i);
    }
}

static void expect_answer(struct rz_answer answer, const uint64_t *due) {
    expect(answer.number == due[0], "number");
    expect(answer.place == due[1], "place");
    expect(answer.round == due[2], "round");
    expect(answer.reads == due[3], "reads");
    expect(answer.value == due[4], "value");
}

/* `arguments` has an n for each number of the raw function and an l for each list. */
static void expect_handed_on(struct rz_answer answer, const char *arguments) {
    size_t i;

    expect_answer(answer, answered);
    expect(handed.calls == 1, "one call of the raw function");
    for (i = 0; arguments[i] != '\0'; i++) {
        const uint64_t *entries = given[i].entries;

        expect(handed.numbers[i] == given[i].length, "a number or a length");
        if (arguments[i] == 'l') {
            expect(handed.pointers[i] != NULL, "no null pointer");
            expect(entries == NULL || handed.pointers[i] == entries, "a pointer");
        }
    }
    expect(handed.arguments == i, "how many arguments");
}

static void expect_nothing_done(struct rz_answer answer) {
    expect_answer(answer, nothing_done);
    expect(handed.calls == 0, "no call of the raw function");
}

static void expect_function(const char *name, struct rz_answer (*call)(void),
                            const char *arguments) {
    start(name);
    expect_handed_on(call(), arguments);
    for (size_t i = 0; arguments[i] != '\0'; i++) {
        if (arguments[i] == 'l') {
            start(name);
            given[i] = rz_output_of(NULL, 0);
            expect_handed_on(call(), arguments);

            start(name);
            given[i] = rz_output_of(NULL, (size_t)1 << 63);
            expect_nothing_done(call());
        }
    }
}

int main(void) {
    expect_function("rz_inverse_answer", call_inverse, "n");
    expect_function("rz_invert_list", call_invert, "l");
    expect_function("rz_encode_answer", call_encode, "nlll");
    expect_function("rz_interpolate_answer", call_interpolate, "nlll");
    expect_function("rz_fold_answer", call_fold, "nnnllnll");
    expect_function("rz_prove_answer", call_prove, "nnnnlllll");
    expect_function("rz_layer_answer", call_layer, "nnnln");
    expect_function("rz_judge_answer", call_judge, "nnnnllllll");
    expect_function("rz_write_transcript_answer", call_write_transcript, "nnnnlllllll");
    expect_function("rz_judge_transcript_answer", call_judge_transcript, "l");
    expect_function("rz_sheet_into", call_sheet, "ll");

    start("rz_fold_answer without a fold call");
    expect_nothing_done(rz_fold_answer(NULL, output(0), output(1)));
    start("rz_prove_answer without a run");
    expect_nothing_done(rz_prove_answer(NULL, output(0), output(1)));
    start("rz_judge_answer without a run");
    expect_nothing_done(rz_judge_answer(NULL, list(0), list(1), list(2)));
    start("rz_write_transcript_answer without a run");
    expect_nothing_done(rz_write_transcript_answer(NULL, list(0), list(1), list(2),
                                                   (uint8_t *)given[3].entries, number(3)));
    return failures != 0;
}
