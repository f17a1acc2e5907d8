/* Calls every function through include/razgwilh.h, so that a declaration that does not fit the
 * library shows: the raw ones with answer lists of every length, and the others, which are given
 * null pointers too. C and C++ both compile it, with tests/second_file.c. */
#include "razgwilh.h"

#include <stdio.h>
#include <string.h>

#define LENGTH(list) (sizeof(list) / sizeof((list)[0]))
#define PATTERN UINT64_C(0x0123456789abcdef)
#define ROOM 8

int accepted_elsewhere(const uint8_t *bytes, size_t length);

static int failures = 0;

static void expect(int holds, const char *what) {
    if (!holds) {
        printf("header: %s\n", what);
        failures++;
    }
}

static void fill(uint64_t list[ROOM]) {
    for (size_t i = 0; i < ROOM; i++) {
        list[i] = PATTERN;
    }
}

/* The list holds `written` in its first `length` entries, and the pattern in the others. */
static void expect_list(const uint64_t list[ROOM], const uint64_t *written, size_t length,
                        const char *what) {
    for (size_t i = 0; i < ROOM; i++) {
        expect(list[i] == (i < length ? written[i] : PATTERN), what);
    }
}

static void expect_untouched(const uint64_t list[ROOM], const char *what) {
    expect_list(list, list, 0, what);
}

static struct rz_answer answer_with(uint64_t number, uint64_t place, uint64_t round,
                                    uint64_t reads, uint64_t value) {
    struct rz_answer answer;

    answer.number = number;
    answer.place = place;
    answer.round = round;
    answer.reads = reads;
    answer.value = value;
    return answer;
}

static struct rz_answer done(void) {
    return answer_with(RZ_ACCEPTED, RZ_NONE, RZ_NONE, 0, RZ_NONE);
}

static struct rz_answer given(uint64_t value) {
    return answer_with(RZ_ACCEPTED, RZ_NONE, RZ_NONE, 0, value);
}

static struct rz_answer accepted(uint64_t reads) {
    return answer_with(RZ_ACCEPTED, RZ_NONE, RZ_NONE, reads, RZ_NONE);
}

static struct rz_answer refused(uint64_t number, uint64_t place) {
    return answer_with(number, place, RZ_NONE, 0, RZ_NONE);
}

static struct rz_answer nothing_done(void) {
    return refused(RZ_NONE, RZ_NONE);
}

static void expect_answer(struct rz_answer answer, struct rz_answer due, const char *what) {
    expect(answer.number == due.number, what);
    expect(answer.place == due.place, what);
    expect(answer.round == due.round, what);
    expect(answer.reads == due.reads, what);
    expect(answer.value == due.value, what);
    expect(rz_accepted(answer) == (due.number == 0), what);
    expect(rz_done(answer) == (due.number == 0), what);
}

/* A raw answer. A list of another length than that of an answer is left alone. */
static void expect_raw(const uint64_t list[ROOM], size_t length, struct rz_answer due,
                       const char *what) {
    const uint64_t numbers[] = {due.number, due.place, due.round, due.reads, due.value};

    expect_list(list, numbers, length == RZ_ANSWER_LENGTH ? RZ_ANSWER_LENGTH : 0, what);
}

/* Cases F and G: one round over four points, with an empty store. */
static const uint64_t basis[] = {1, 2}, word[] = {7, 4, 1, 2}, challenge[] = {4};
static const uint64_t queries_g[] = {0, 3}, last_g[] = {0xb};

/* Case K, but from offset 8: two rounds over eight points. Queries 5 and 4 share a first-layer
 * coset, and query 8 is out of range. */
static const uint64_t basis_k[] = {1, 2, 4}, challenges_k[] = {2, 3}, queries_k[] = {5, 4, 8};
static const uint64_t word_k[] = {0, 1, 4, 5, 0x10, 0x11, 0x14, 0x15};
static const uint64_t layer_k[] = {0xa, 0xc, 0x1e, 0x18}, last_k[] = {0x41};

static struct rz_run run_g(void) {
    struct rz_run run = {2, 1, 1, 0, RZ_LIST(basis), RZ_LIST(challenge), RZ_LIST(word)};

    return run;
}

static struct rz_run run_k(void) {
    struct rz_run run = {3, 1, 1, 8, RZ_LIST(basis_k), RZ_LIST(challenges_k), RZ_LIST(word_k)};

    return run;
}

/* Case D with the word of case E. */
static struct rz_fold_call fold_d(void) {
    struct rz_fold_call call = {2, 1, 8, RZ_LIST(basis), RZ_LIST(word), 4};

    return call;
}

static void expect_version(void) {
    char numbers[64];

    snprintf(numbers, sizeof numbers, "%d.%d.%d", RZ_VERSION_MAJOR, RZ_VERSION_MINOR,
             RZ_VERSION_PATCH);
    expect(strcmp(numbers, RZ_VERSION) == 0, "RZ_VERSION");
    expect(sizeof(struct rz_answer) == RZ_ANSWER_LENGTH * sizeof(uint64_t), "RZ_ANSWER_LENGTH");
}

/* Every number but 0 is a refusal. */
static void expect_accepted(void) {
    const uint64_t large[] = {UINT64_C(1) << 32, UINT64_C(1) << 63, RZ_NONE};

    for (uint64_t number = 0; number <= 18; number++) {
        expect(rz_accepted(refused(number, RZ_NONE)) == (number == 0), "rz_accepted");
        expect(rz_done(refused(number, RZ_NONE)) == (number == 0), "rz_done");
    }
    for (size_t i = 0; i < LENGTH(large); i++) {
        expect(!rz_accepted(refused(large[i], RZ_NONE)), "rz_accepted: large numbers");
        expect(!rz_done(refused(large[i], RZ_NONE)), "rz_done: large numbers");
    }
}

static void expect_initialisers(void) {
    const struct rz_answer none = RZ_NO_ANSWER;
    uint64_t room[3];

    expect_answer(none, nothing_done(), "RZ_NO_ANSWER");
    expect(RZ_LIST(word).entries == word, "RZ_LIST: entries");
    expect(RZ_LIST(word).length == 4, "RZ_LIST: length");
    expect(RZ_OUTPUT(room).entries == room, "RZ_OUTPUT: entries");
    expect(RZ_OUTPUT(room).length == 3, "RZ_OUTPUT: length");
}

static void expect_inverse(uint64_t a, size_t length, struct rz_answer due) {
    uint64_t list[ROOM];

    fill(list);
    rz_inverse(a, list, length);
    expect_raw(list, length, due, "rz_inverse");
    expect_answer(rz_inverse_answer(a), due, "rz_inverse_answer");
}

static void expect_arithmetic(size_t length) {
    expect(rz_sum(UINT64_C(0xf00000000000000f), 5) == UINT64_C(0xf00000000000000a), "rz_sum");
    expect(rz_product(UINT64_C(0x8000000000000000), 2) == 0x1b, "rz_product");
    expect_inverse(2, length, given(UINT64_C(0x800000000000000d)));
    expect_inverse(0, length, given(0));
}

/* Zeros, elements and their inverses, and none behind the list's end. */
static void expect_inverted(void) {
    static const uint64_t due[] = {UINT64_C(0x800000000000000d), 0, 1, 2};
    uint64_t raw[ROOM], list[ROOM];

    fill(raw);
    fill(list);
    raw[0] = list[0] = 2;
    raw[1] = list[1] = 0;
    raw[2] = list[2] = 1;
    raw[3] = list[3] = UINT64_C(0x800000000000000d);
    rz_invert(raw, 4);
    expect_list(raw, due, 4, "rz_invert");
    rz_invert_list(rz_output_of(list, 4));
    expect_list(list, due, 4, "rz_invert_list");
    rz_invert_list(rz_output_of(list, 0));
    rz_invert_list(rz_output_of(NULL, 0));
    rz_invert_list(rz_output_of(NULL, 1));
    expect_list(list, due, 4, "rz_invert_list: no list");
}

/* Case E there and back, but from offset 8. */
static const uint64_t coefficients[] = {7, 3}, filled_in[] = {7, 3, 0, 0};
static const uint64_t encoded[] = {0x1f, 0x1c, 0x19, 0x1a};

/* With an answer's list of any length. */
static void expect_raw_codes(size_t length) {
    uint64_t answer[ROOM], output[ROOM];
    size_t written = length == RZ_ANSWER_LENGTH ? 4 : 0;

    fill(answer);
    fill(output);
    rz_encode(8, basis, 2, coefficients, 2, output, 4, answer, length);
    expect_raw(answer, length, done(), "rz_encode: answer");
    expect_list(output, encoded, written, "rz_encode: values");

    fill(answer);
    fill(output);
    rz_interpolate(8, basis, 2, encoded, 4, output, 4, answer, length);
    expect_raw(answer, length, done(), "rz_interpolate: answer");
    expect_list(output, filled_in, written, "rz_interpolate: coefficients");
}

static void expect_codes(void) {
    const struct rz_list both = RZ_LIST(basis), polynomial = RZ_LIST(coefficients);
    const struct rz_list values = RZ_LIST(encoded);
    uint64_t list[ROOM];
    const struct rz_output output = {list, 4};

    fill(list);
    expect_answer(rz_encode_answer(8, both, polynomial, output), done(), "rz_encode_answer");
    expect_list(list, encoded, 4, "rz_encode_answer: values");

    fill(list);
    expect_answer(rz_interpolate_answer(8, both, values, output), done(), "rz_interpolate_answer");
    expect_list(list, filled_in, 4, "rz_interpolate_answer: coefficients");
}

/* Each length stands in its own place: a refusal names the list, and the output is left alone. */
static void expect_encoding_refused(struct rz_list points, struct rz_list input,
                                    size_t output_length, struct rz_answer due) {
    uint64_t answer[ROOM], output[ROOM];

    fill(answer);
    fill(output);
    rz_encode(0, points.entries, points.length, input.entries, input.length, output,
              output_length, answer, RZ_ANSWER_LENGTH);
    expect_raw(answer, RZ_ANSWER_LENGTH, due, "rz_encode: refusal");
    expect_answer(rz_encode_answer(0, points, input, rz_output_of(output, output_length)), due,
                  "rz_encode_answer: refusal");
    expect_untouched(output, "values after a refusal");
}

static void expect_interpolation_refused(struct rz_list points, struct rz_list input,
                                         size_t output_length, struct rz_answer due) {
    uint64_t answer[ROOM], output[ROOM];

    fill(answer);
    fill(output);
    rz_interpolate(0, points.entries, points.length, input.entries, input.length, output,
                   output_length, answer, RZ_ANSWER_LENGTH);
    expect_raw(answer, RZ_ANSWER_LENGTH, due, "rz_interpolate: refusal");
    expect_answer(rz_interpolate_answer(0, points, input, rz_output_of(output, output_length)),
                  due, "rz_interpolate_answer: refusal");
    expect_untouched(output, "coefficients after a refusal");
}

static void expect_codes_refused(void) {
    const uint64_t twice[] = {1, 1};
    const struct rz_list one = rz_list_of(basis, 1), both = RZ_LIST(basis);
    const struct rz_list dependent = RZ_LIST(twice);
    const struct rz_list three = rz_list_of(word, 3), four = RZ_LIST(word);

    expect_encoding_refused(one, three, 2, refused(RZ_WRONG_LENGTH, 3));
    expect_encoding_refused(both, four, 5, refused(RZ_WRONG_LENGTH, 6));
    expect_encoding_refused(dependent, four, 4, refused(RZ_BASIS_DEPENDENT, 1));
    expect_interpolation_refused(both, three, 4, refused(RZ_WRONG_LENGTH, 3));
    expect_interpolation_refused(both, four, 3, refused(RZ_WRONG_LENGTH, 6));
    expect_interpolation_refused(dependent, four, 4, refused(RZ_BASIS_DEPENDENT, 1));
}

static const uint64_t folded_d[] = {0x13, 0x13}, next_basis_d[] = {6};

/* With an answer's list of any length. */
static void expect_raw_fold(size_t length) {
    uint64_t answer[ROOM], values[ROOM], next_basis[ROOM];
    int answers = length == RZ_ANSWER_LENGTH;

    fill(answer);
    fill(values);
    fill(next_basis);
    rz_fold(2, 1, 8, basis, 2, word, 4, 4, values, 2, next_basis, 1, answer, length);
    expect_raw(answer, length, given(0x48), "rz_fold: answer");
    expect_list(values, folded_d, answers ? 2 : 0, "rz_fold: values");
    expect_list(next_basis, next_basis_d, answers ? 1 : 0, "rz_fold: next basis");
}

static void expect_fold(void) {
    const struct rz_fold_call call = fold_d();
    uint64_t values[ROOM], next_basis[ROOM];

    fill(values);
    fill(next_basis);
    expect_answer(rz_fold_answer(&call, rz_output_of(values, 2), rz_output_of(next_basis, 1)),
                  given(0x48), "rz_fold_answer");
    expect_list(values, folded_d, 2, "rz_fold_answer: values");
    expect_list(next_basis, next_basis_d, 1, "rz_fold_answer: next basis");
}

/* Each argument of a fold stands in its own place: a refusal names it, and both lists are left
 * alone. */
static void expect_fold_refused(size_t k, size_t step, size_t basis_length, size_t word_length,
                                size_t values_length, size_t next_length, struct rz_answer due) {
    const struct rz_fold_call call = {k, step, 8, {basis, basis_length}, {word, word_length}, 4};
    uint64_t answer[ROOM], values[ROOM], next_basis[ROOM];

    fill(answer);
    fill(values);
    fill(next_basis);
    rz_fold(k, step, 8, basis, basis_length, word, word_length, 4, values, values_length,
            next_basis, next_length, answer, RZ_ANSWER_LENGTH);
    expect_raw(answer, RZ_ANSWER_LENGTH, due, "rz_fold: refusal");
    expect_answer(rz_fold_answer(&call, rz_output_of(values, values_length),
                                 rz_output_of(next_basis, next_length)),
                  due, "rz_fold_answer: refusal");
    expect_untouched(values, "values after a refused fold");
    expect_untouched(next_basis, "next basis after a refused fold");
}

static void expect_folds_refused(void) {
    expect_fold_refused(1, 1, 2, 4, 2, 1, refused(RZ_DIMENSION_OUT_OF_RANGE, RZ_NONE));
    expect_fold_refused(2, 4, 2, 4, 2, 1, refused(RZ_STEP_OUT_OF_RANGE, RZ_NONE));
    expect_fold_refused(2, 3, 2, 4, 2, 1, refused(RZ_DIMENSION_TOO_SMALL, RZ_NONE));
    expect_fold_refused(2, 1, 1, 3, 3, 2, refused(RZ_WRONG_LENGTH, 1));
    expect_fold_refused(2, 1, 2, 3, 3, 2, refused(RZ_WRONG_LENGTH, 3));
    expect_fold_refused(2, 1, 2, 4, 3, 2, refused(RZ_WRONG_LENGTH, 6));
    expect_fold_refused(2, 1, 2, 4, 2, 2, refused(RZ_WRONG_LENGTH, 7));
}

/* Layer 1 of case K, the whole store. */
static struct rz_answer part_k(void) {
    return answer_with(RZ_ACCEPTED, 0, RZ_NONE, 0, 4);
}

/* Case K proved, looked up and judged, with an answer's list of any length. */
static void expect_raw_run(size_t length) {
    uint64_t answer[ROOM], store[ROOM], last[ROOM];
    int answers = length == RZ_ANSWER_LENGTH;

    fill(answer);
    fill(store);
    fill(last);
    rz_prove(3, 1, 1, 8, basis_k, 3, challenges_k, 2, word_k, 8, store, 4, last, 1, answer,
             length);
    expect_raw(answer, length, done(), "rz_prove: answer");
    expect_list(store, layer_k, answers ? 4 : 0, "rz_prove: store");
    expect_list(last, last_k, answers ? 1 : 0, "rz_prove: last coefficients");

    fill(answer);
    rz_layer(3, 1, 1, layer_k, 4, 1, answer, length);
    expect_raw(answer, length, part_k(), "rz_layer");

    fill(answer);
    rz_judge(3, 1, 1, 8, basis_k, 3, challenges_k, 2, queries_k, 1, word_k, 8, layer_k, 4, last_k,
             1, answer, length);
    expect_raw(answer, length, accepted(4), "rz_judge");
}

static void expect_run(void) {
    const struct rz_run run = run_k();
    uint64_t store[ROOM], last[ROOM];

    fill(store);
    fill(last);
    expect_answer(rz_prove_answer(&run, rz_output_of(store, 4), rz_output_of(last, 1)), done(),
                  "rz_prove_answer");
    expect_list(store, layer_k, 4, "rz_prove_answer: store");
    expect_list(last, last_k, 1, "rz_prove_answer: last coefficients");
    expect_answer(rz_layer_answer(3, 1, 1, rz_list_of(store, 4), 1), part_k(), "rz_layer_answer");
    expect_answer(rz_judge_answer(&run, rz_list_of(queries_k, 1), rz_list_of(store, 4),
                                  rz_list_of(last, 1)),
                  accepted(4), "rz_judge_answer");
}

/* What is given to prover, judge and writer beside case K's numbers. */
struct lengths {
    size_t k, rate, step, basis, challenges, word, store, last;
};

/* A transcript of case K, with one query, has 7 counts and 23 entries. There is room for three. */
#define BYTES_K (4 * 7 + 8 * 23)
#define BYTES_ROOM (BYTES_K + 8 * 2)

static void fill_bytes(uint8_t bytes[BYTES_ROOM]) {
    memset(bytes, 0xa5, BYTES_ROOM);
}

/* The first `length` bytes are those of `written`, and the others what they were. */
static void expect_bytes(const uint8_t bytes[BYTES_ROOM], const uint8_t *written,
                         size_t length, const char *what) {
    for (size_t i = 0; i < BYTES_ROOM; i++) {
        expect(bytes[i] == (i < length ? written[i] : 0xa5), what);
    }
}

/* A transcript is refused, and every byte left alone. */
static void expect_writing_refused(struct lengths n, const uint64_t *points, size_t queries,
                                   size_t length, struct rz_answer due) {
    const struct rz_run run = {n.k, n.rate, n.step, 8, {points, n.basis},
                               {challenges_k, n.challenges}, {word_k, n.word}};
    uint64_t answer[ROOM];
    uint8_t bytes[BYTES_ROOM];

    fill(answer);
    fill_bytes(bytes);
    rz_write_transcript(n.k, n.rate, n.step, 8, points, n.basis, challenges_k, n.challenges,
                        queries_k, queries, word_k, n.word, layer_k, n.store, last_k, n.last,
                        bytes, length, answer, RZ_ANSWER_LENGTH);
    expect_raw(answer, RZ_ANSWER_LENGTH, due, "rz_write_transcript: refusal");
    expect_answer(rz_write_transcript_answer(&run, rz_list_of(queries_k, queries),
                                             rz_list_of(layer_k, n.store),
                                             rz_list_of(last_k, n.last), bytes, length),
                  due, "rz_write_transcript_answer: refusal");
    expect_bytes(bytes, bytes, 0, "bytes after a refusal");
}

/* Each argument stands in its own place: prover, judge and writer refuse it alike, and what they
 * would write to is left alone. */
static void expect_run_refused(struct lengths n, struct rz_answer due) {
    const struct rz_run run = {n.k, n.rate, n.step, 8, {basis_k, n.basis},
                               {challenges_k, n.challenges}, {word_k, n.word}};
    uint64_t answer[ROOM], store[ROOM], last[ROOM];

    fill(answer);
    fill(store);
    fill(last);
    rz_prove(n.k, n.rate, n.step, 8, basis_k, n.basis, challenges_k, n.challenges, word_k, n.word,
             store, n.store, last, n.last, answer, RZ_ANSWER_LENGTH);
    expect_raw(answer, RZ_ANSWER_LENGTH, due, "rz_prove: refusal");
    expect_answer(rz_prove_answer(&run, rz_output_of(store, n.store), rz_output_of(last, n.last)),
                  due, "rz_prove_answer: refusal");
    expect_untouched(store, "store after a refusal");
    expect_untouched(last, "last coefficients after a refusal");

    fill(answer);
    rz_judge(n.k, n.rate, n.step, 8, basis_k, n.basis, challenges_k, n.challenges, queries_k, 1,
             word_k, n.word, layer_k, n.store, last_k, n.last, answer, RZ_ANSWER_LENGTH);
    expect_raw(answer, RZ_ANSWER_LENGTH, due, "rz_judge: refusal");
    expect_answer(rz_judge_answer(&run, rz_list_of(queries_k, 1), rz_list_of(layer_k, n.store),
                                  rz_list_of(last_k, n.last)),
                  due, "rz_judge_answer: refusal");

    expect_writing_refused(n, basis_k, 1, BYTES_K, due);
}

static void expect_runs_refused(void) {
    static const struct {
        struct lengths lengths;
        uint64_t number, place;
    } runs[] = {
        {{1, 1, 1, 3, 2, 8, 4, 1}, RZ_DIMENSION_OUT_OF_RANGE, RZ_NONE},
        {{3, 7, 1, 3, 2, 8, 4, 1}, RZ_RATE_OUT_OF_RANGE, RZ_NONE},
        {{3, 1, 4, 3, 2, 8, 4, 1}, RZ_STEP_OUT_OF_RANGE, RZ_NONE},
        {{3, 3, 1, 3, 2, 8, 4, 1}, RZ_DIMENSION_TOO_SMALL, RZ_NONE},
        {{3, 1, 1, 2, 1, 7, 3, 0}, RZ_WRONG_LENGTH, 1},
        {{3, 1, 1, 3, 1, 7, 3, 0}, RZ_WRONG_LENGTH, 2},
        {{3, 1, 1, 3, 2, 7, 3, 0}, RZ_WRONG_LENGTH, 3},
        {{3, 1, 1, 3, 2, 8, 3, 0}, RZ_WRONG_LENGTH, 4},
        {{3, 1, 1, 3, 2, 8, 4, 0}, RZ_WRONG_LENGTH, 5},
    };

    for (size_t i = 0; i < LENGTH(runs); i++) {
        expect_run_refused(runs[i].lengths, refused(runs[i].number, runs[i].place));
    }
}

/* Case K judged with as many queries and with a last coefficient. */
static void expect_judged(size_t queries, const uint64_t *last, struct rz_answer due) {
    const struct rz_run run = run_k();
    uint64_t answer[ROOM];

    fill(answer);
    rz_judge(3, 1, 1, 8, basis_k, 3, challenges_k, 2, queries_k, queries, word_k, 8, layer_k, 4,
             last, 1, answer, RZ_ANSWER_LENGTH);
    expect_raw(answer, RZ_ANSWER_LENGTH, due, "rz_judge: queries");
    expect_answer(rz_judge_answer(&run, rz_list_of(queries_k, queries), RZ_LIST(layer_k),
                                  rz_list_of(last, 1)),
                  due, "rz_judge_answer: queries");
}

/* The numbers that one of the two alone gives: 9, 10, 17 and 11 of the judge, 12 of the prover. */
static void expect_own_numbers(void) {
    const uint64_t last_one[] = {0, 0, 0, 1}, zero[] = {0};
    const struct rz_answer degree = answer_with(RZ_DEGREE_TOO_LARGE, 1, RZ_NONE, 0, 1);
    struct rz_run run = run_g();
    uint64_t answer[ROOM], store[ROOM], last[ROOM];

    expect_judged(0, last_k, refused(RZ_QUERY_COUNT_OUT_OF_RANGE, RZ_NONE));
    expect_judged(3, last_k, refused(RZ_QUERY_OUT_OF_RANGE, 2));
    expect_judged(2, last_k, refused(RZ_COSET_SHARED, 1));
    expect_judged(2, zero, refused(RZ_COSET_SHARED, 1));
    expect_judged(1, zero, answer_with(RZ_ROUND_CHECK_FAILS, 0, 1, 4, RZ_NONE));

    fill(answer);
    fill(store);
    fill(last);
    rz_prove(2, 1, 1, 0, basis, 2, challenge, 1, last_one, 4, store, 0, last, 1, answer,
             RZ_ANSWER_LENGTH);
    expect_raw(answer, RZ_ANSWER_LENGTH, degree, "rz_prove: degree");
    run.word = RZ_LIST(last_one);
    expect_answer(rz_prove_answer(&run, rz_output_of(store, 0), rz_output_of(last, 1)), degree,
                  "rz_prove_answer: degree");
    expect_untouched(last, "last coefficients after a degree that is told");
}

/* Case G as a transcript: a row for each count and for each entry. */
static const uint8_t case_g[] = {
    /* k, rate, step */
    3, 0, 0, 0,
    2, 0, 0, 0, 0, 0, 0, 0,
    1, 0, 0, 0, 0, 0, 0, 0,
    1, 0, 0, 0, 0, 0, 0, 0,
    /* offset, basis */
    3, 0, 0, 0,
    0, 0, 0, 0, 0, 0, 0, 0,
    1, 0, 0, 0, 0, 0, 0, 0,
    2, 0, 0, 0, 0, 0, 0, 0,
    /* challenge */
    1, 0, 0, 0,
    4, 0, 0, 0, 0, 0, 0, 0,
    /* queries */
    2, 0, 0, 0,
    0, 0, 0, 0, 0, 0, 0, 0,
    3, 0, 0, 0, 0, 0, 0, 0,
    /* word */
    4, 0, 0, 0,
    7, 0, 0, 0, 0, 0, 0, 0,
    4, 0, 0, 0, 0, 0, 0, 0,
    1, 0, 0, 0, 0, 0, 0, 0,
    2, 0, 0, 0, 0, 0, 0, 0,
    /* last coefficient */
    1, 0, 0, 0,
    0xb, 0, 0, 0, 0, 0, 0, 0,
};

/* As many bytes of a transcript, with an answer's list of any length. */
static void expect_raw_transcript(const uint8_t *bytes, size_t bytes_length, size_t length,
                                  struct rz_answer due) {
    uint64_t answer[ROOM];

    fill(answer);
    rz_judge_transcript(bytes, bytes_length, answer, length);
    expect_raw(answer, length, due, "rz_judge_transcript");
}

static void expect_raw_transcripts(size_t length) {
    expect_raw_transcript(case_g, sizeof case_g, length, accepted(4));
    expect_raw_transcript(case_g, 0, length, refused(RZ_BYTES_END, 1));
}

static void expect_transcript(const uint8_t *bytes, size_t bytes_length, struct rz_answer due) {
    expect_raw_transcript(bytes, bytes_length, RZ_ANSWER_LENGTH, due);
    expect_answer(rz_judge_transcript_answer(bytes, bytes_length), due,
                  "rz_judge_transcript_answer");
    expect(accepted_elsewhere(bytes, bytes_length) == (due.number == 0), "another file");
}

/* Case G, and the numbers that bytes alone can get: 1, 2 and 3; 17 comes before 3. */
static void expect_transcripts(void) {
    uint8_t changed[sizeof case_g + 1] = {0};

    expect_transcript(case_g, sizeof case_g, accepted(4));
    expect_transcript(case_g, 0, refused(RZ_BYTES_END, 1));
    expect_transcript(case_g, sizeof case_g - 1, refused(RZ_BYTES_END, 6));
    memcpy(changed, case_g, sizeof case_g);
    expect_transcript(changed, sizeof changed, refused(RZ_TRAILING_BYTES, RZ_NONE));
    changed[80] = 1;
    expect_transcript(changed, sizeof changed, refused(RZ_COSET_SHARED, 1));
    changed[0] = 4;
    expect_transcript(changed, sizeof changed, refused(RZ_COUNT_DIFFERS, 1));
}

/* As many bytes of a transcript have the sheet `due`; a room of `room` bytes gets it where it is
 * large enough, and is left alone else. */
static void expect_sheet_in(size_t room, const uint8_t *bytes, size_t length, const char *due) {
    const size_t due_length = strlen(due), written = due_length <= room ? due_length : 0;
    uint8_t raw[BYTES_ROOM], out[BYTES_ROOM];

    fill_bytes(raw);
    expect(rz_sheet(bytes, length, raw, room) == due_length, "rz_sheet: length");
    expect_bytes(raw, (const uint8_t *)due, written, "rz_sheet: lines");
    fill_bytes(out);
    expect(rz_sheet_into(bytes, length, out, room) == due_length, "rz_sheet_into: length");
    expect_bytes(out, (const uint8_t *)due, written, "rz_sheet_into: lines");
}

/* With room for exactly the sheet, for more, for a byte less, and with none. */
static void expect_sheet(const uint8_t *bytes, size_t length, const char *due) {
    const size_t due_length = strlen(due);

    expect_sheet_in(due_length, bytes, length, due);
    expect_sheet_in(due_length + 1, bytes, length, due);
    expect_sheet_in(BYTES_ROOM, bytes, length, due);
    expect_sheet_in(due_length == 0 ? 0 : due_length - 1, bytes, length, due);
    expect_sheet_in(0, bytes, length, due);
    expect(rz_sheet_into(bytes, length, NULL, 0) == due_length, "null: no room for a sheet");
    expect(rz_sheet_into(bytes, length, NULL, due_length + 1) == RZ_NONE, "null: room");
}

/* Case G; with entry 1 of the word made 5, which has a line behind the first check that fails;
 * and refused for another cause than that. */
static void expect_sheets(void) {
    uint8_t changed[sizeof case_g];

    expect_sheet(case_g, sizeof case_g,
                 "    0        0   0 000000000000000b 000000000000000b ok\n"
                 "    1        3   0 000000000000000b 000000000000000b ok\n");
    expect_sheet(case_g, 0, "");
    expect_sheet(case_g, sizeof case_g - 1, "");
    memcpy(changed, case_g, sizeof case_g);
    changed[100] = 5;
    expect_sheet(changed, sizeof changed,
                 "    0        0   0 000000000000000f 000000000000000b no\n"
                 "    1        3   0 000000000000000b 000000000000000b ok\n");
    changed[80] = 1;
    expect_sheet(changed, sizeof changed, "");
    expect(rz_sheet_into(NULL, 0, NULL, 0) == 0, "null: the sheet of no bytes");
    expect(rz_sheet_into(NULL, 1, changed, sizeof changed) == RZ_NONE, "null: bytes of a sheet");
}

/* The largest sheet: of the zero word, which is accepted, with 256 queries and 19 rounds. */
static void expect_largest_sheet(void) {
    static const uint64_t zeros[1 << 20] = {0};
    static uint64_t points[20], queries[256];
    static uint8_t bytes[16779680], out[RZ_LARGEST_SHEET];
    const struct rz_run run = {20, 1, 1, 0, RZ_LIST(points), {zeros, 19}, RZ_LIST(zeros)};
    const struct rz_list store = {zeros, rz_store_length(20, 1, 1)};

    for (size_t i = 0; i < LENGTH(points); i++) {
        points[i] = UINT64_C(1) << i;
    }
    for (size_t i = 0; i < LENGTH(queries); i++) {
        queries[i] = 2 * i;
    }
    expect_answer(rz_write_transcript_answer(&run, RZ_LIST(queries), store, rz_list_of(zeros, 1),
                                             bytes, sizeof bytes),
                  done(), "the largest transcript");
    expect(rz_sheet_into(bytes, sizeof bytes, out, sizeof out) == sizeof out, "RZ_LARGEST_SHEET");
    expect(memcmp(out + sizeof out - 56,
                  "  255      510  18 0000000000000000 0000000000000000 ok\n", 56) == 0,
           "the last line of the largest sheet");
}

/* A section of a transcript: its count and its entries, the lowest byte first. Answers where it
 * ends. */
static size_t put_section(uint8_t *bytes, size_t at, struct rz_list list) {
    for (size_t i = 0; i < 4; i++) {
        bytes[at++] = (uint8_t)(list.length >> (8 * i));
    }
    for (size_t i = 0; i < 8 * list.length; i++) {
        bytes[at++] = (uint8_t)(list.entries[i / 8] >> (8 * (i % 8)));
    }
    return at;
}

/* Case K with query 5 and a last coefficient, as a transcript. */
static void transcript_k(uint8_t bytes[BYTES_K], struct rz_list last) {
    static const uint64_t parameters[] = {3, 1, 1}, coset[] = {8, 1, 2, 4};
    const struct rz_list lists[] = {
        RZ_LIST(parameters),      RZ_LIST(coset),   RZ_LIST(challenges_k),
        rz_list_of(queries_k, 1), RZ_LIST(word_k),  RZ_LIST(layer_k),
        last,
    };
    size_t at = 0;

    for (size_t i = 0; i < LENGTH(lists); i++) {
        at = put_section(bytes, at, lists[i]);
    }
    expect(at == BYTES_K, "the length of case K as a transcript");
}

/* Case K written, with an answer's list of any length. */
static void expect_raw_writing(size_t length) {
    uint64_t answer[ROOM];
    uint8_t bytes[BYTES_ROOM], due[BYTES_K];

    transcript_k(due, RZ_LIST(last_k));
    fill(answer);
    fill_bytes(bytes);
    rz_write_transcript(3, 1, 1, 8, basis_k, 3, challenges_k, 2, queries_k, 1, word_k, 8, layer_k,
                        4, last_k, 1, bytes, BYTES_K, answer, length);
    expect_raw(answer, length, done(), "rz_write_transcript: answer");
    expect_bytes(bytes, due, length == RZ_ANSWER_LENGTH ? BYTES_K : 0,
                 "rz_write_transcript: bytes");
}

/* Case K written with a last coefficient, whatever the judge says of it. */
static void expect_written(const uint64_t *last, struct rz_answer verdict) {
    const struct rz_run run = run_k();
    uint8_t bytes[BYTES_ROOM], due[BYTES_K];

    transcript_k(due, rz_list_of(last, 1));
    fill_bytes(bytes);
    expect_answer(rz_write_transcript_answer(&run, rz_list_of(queries_k, 1), RZ_LIST(layer_k),
                                             rz_list_of(last, 1), bytes, BYTES_K),
                  done(), "rz_write_transcript_answer");
    expect_bytes(bytes, due, BYTES_K, "rz_write_transcript_answer: bytes");
    expect_answer(rz_judge_transcript_answer(bytes, BYTES_K), verdict, "what was written");
}

static void expect_writing(void) {
    const uint64_t zero[] = {0};
    const struct rz_run run = run_g();
    uint8_t bytes[sizeof case_g];

    expect_written(last_k, accepted(4));
    expect_written(zero, answer_with(RZ_ROUND_CHECK_FAILS, 0, 1, 4, RZ_NONE));
    expect_answer(rz_write_transcript_answer(&run, RZ_LIST(queries_g), rz_list_of(NULL, 0),
                                             RZ_LIST(last_g), bytes, sizeof bytes),
                  done(), "rz_write_transcript_answer: case G");
    expect(memcmp(bytes, case_g, sizeof case_g) == 0, "case G as it is written");
}

/* List 8, whose length goes by the number of queries, before 8, 9, 10 and 17. */
static void expect_writings_refused(void) {
    static const uint64_t dependent[] = {1, 2, 3};
    static const struct {
        size_t queries, length;
        uint64_t number, place;
    } calls[] = {
        {1, 0, RZ_WRONG_LENGTH, 8},
        {1, BYTES_K - 1, RZ_WRONG_LENGTH, 8},
        {1, BYTES_K + 1, RZ_WRONG_LENGTH, 8},
        {0, BYTES_K, RZ_WRONG_LENGTH, 8},
        {0, BYTES_K - 8, RZ_QUERY_COUNT_OUT_OF_RANGE, RZ_NONE},
        {2, BYTES_K, RZ_WRONG_LENGTH, 8},
        {2, BYTES_K + 8, RZ_COSET_SHARED, 1},
        {3, BYTES_K + 16, RZ_QUERY_OUT_OF_RANGE, 2},
    };
    const struct lengths n = {3, 1, 1, 3, 2, 8, 4, 1};

    for (size_t i = 0; i < LENGTH(calls); i++) {
        expect_writing_refused(n, basis_k, calls[i].queries, calls[i].length,
                               refused(calls[i].number, calls[i].place));
    }
    expect_writing_refused(n, dependent, 2, BYTES_K, refused(RZ_WRONG_LENGTH, 8));
    expect_writing_refused(n, dependent, 2, BYTES_K + 8, refused(RZ_BASIS_DEPENDENT, 2));
}

/* The trap of the raw functions: a list of zeros with its length in bytes reads as accepted, on a
 * damaged store. What the caller should call instead refuses it. */
static void expect_trap(void) {
    const uint64_t damaged[] = {0xb, 0xc, 0x1e, 0x18}, query[] = {0};
    const struct rz_run run = run_k();
    uint64_t a[5] = {0};

    rz_judge(3, 1, 1, 8, basis_k, 3, challenges_k, 2, query, 1, word_k, 8, damaged, 4, last_k, 1,
             a, sizeof a);
    for (size_t i = 0; i < LENGTH(a); i++) {
        expect(a[i] == 0, "rz_judge: a list of 40 numbers is left alone");
    }
    expect_answer(rz_judge_answer(&run, RZ_LIST(query), RZ_LIST(damaged), RZ_LIST(last_k)),
                  answer_with(RZ_ROUND_CHECK_FAILS, 0, 0, 4, RZ_NONE),
                  "rz_judge_answer: a damaged store");
}

static int in_range(size_t k, size_t rate, size_t step) {
    return k >= 2 && k <= 20 && rate >= 1 && rate <= 6 && step >= 1 && step <= 3 &&
           k >= rate + step;
}

/* The layers that the lookup finds in a store of the length told fill it, and there are as many as
 * the rounds say. */
static void expect_layers(size_t k, size_t rate, size_t step) {
    static const uint64_t room[1 << 20] = {0};
    const size_t rounds = rz_rounds(k, rate, step);
    const struct rz_list store = rz_list_of(room, rz_store_length(k, rate, step));
    uint64_t end = 0;

    for (size_t i = 0; i <= rounds; i++) {
        struct rz_answer part = rz_layer_answer(k, rate, step, store, i);
        int stored = i >= 1 && i < rounds;
        uint64_t length = stored ? UINT64_C(1) << (k - i * step) : 0;

        expect_answer(part, answer_with(RZ_ACCEPTED, stored ? end : 0, RZ_NONE, 0, length),
                      "rz_layer_answer: every layer");
        end += length;
    }
    expect(end == store.length, "rz_store_length: the layers fill it");
}

static void expect_transcript_length(size_t k, size_t rate, size_t step) {
    static const size_t queries[] = {0, 1, 256, 257, ((size_t)1 << 60) - 1};
    const size_t rounds = rz_rounds(k, rate, step);
    const size_t entries = 4 + k + rounds + ((size_t)1 << (k % 64)) +
                           rz_store_length(k, rate, step) + rz_last_length(k, rate, step);

    for (size_t i = 0; i < LENGTH(queries); i++) {
        uint64_t due = 4 * (5 + rounds) + 8 * (entries + queries[i]);

        expect(rz_transcript_length(k, rate, step, queries[i]) ==
                   (in_range(k, rate, step) ? due : 0),
               "rz_transcript_length");
    }
    expect(rz_transcript_length(k, rate, step, (size_t)1 << 60) == 0 &&
               rz_transcript_length(k, rate, step, SIZE_MAX) == 0,
           "rz_transcript_length: more queries than any list has");
}

static void expect_lengths(size_t k, size_t rate, size_t step) {
    expect_transcript_length(k, rate, step);
    if (!in_range(k, rate, step)) {
        expect(rz_rounds(k, rate, step) == 0, "rz_rounds: out of range");
        expect(rz_store_length(k, rate, step) == 0, "rz_store_length: out of range");
        expect(rz_last_length(k, rate, step) == 0, "rz_last_length: out of range");
        return;
    }
    size_t rounds = (k - rate) / step;
    expect(rz_rounds(k, rate, step) == rounds, "rz_rounds");
    expect(rz_last_length(k, rate, step) == UINT64_C(1) << (k - rate - rounds * step),
           "rz_last_length");
    expect_layers(k, rate, step);
}

static void expect_all_lengths(void) {
    for (size_t k = 0; k <= 21; k++) {
        for (size_t rate = 0; rate <= 7; rate++) {
            for (size_t step = 0; step <= 4; step++) {
                expect_lengths(k, rate, step);
            }
        }
    }
    expect_lengths(SIZE_MAX, 1, 1);
    expect_lengths(3, SIZE_MAX, 1);
    expect_lengths(3, 1, SIZE_MAX);
    expect_lengths(3, SIZE_MAX, SIZE_MAX);
    expect(rz_store_length(2, 1, 1) == 0, "rz_store_length: one round");
    expect(rz_store_length(3, 1, 1) == 4, "rz_store_length: case K");
    expect(rz_store_length(20, 6, 3) == 149504, "rz_store_length: case O");
    expect(rz_transcript_length(2, 1, 1, 2) == sizeof case_g, "rz_transcript_length: case G");
    expect(rz_transcript_length(20, 1, 1, 256) == 16779680, "rz_transcript_length: the largest");
}

/* Null pointers. One with length 0 is a list without entries; with another length it leaves all
 * undone. */
static const struct rz_list no_entries = {NULL, 0}, missing = {NULL, 1};
static const struct rz_output no_room = {NULL, 0}, missing_room = {NULL, 1};

static void expect_nulls_in_encoding(void) {
    const uint64_t zeros[] = {0, 0, 0, 0};
    const struct rz_list both = RZ_LIST(basis), seven = rz_list_of(coefficients, 1);
    uint64_t values[ROOM];
    const struct rz_output one = {values, 1}, four = {values, 4};

    fill(values);
    expect_answer(rz_encode_answer(0, missing, seven, four), nothing_done(), "null: basis");
    expect_answer(rz_encode_answer(0, both, missing, four), nothing_done(), "null: coefficients");
    expect_answer(rz_encode_answer(0, both, seven, missing_room), nothing_done(), "null: values");
    expect_untouched(values, "null: values where nothing was done");
    expect_answer(rz_encode_answer(0, both, seven, no_room), refused(RZ_WRONG_LENGTH, 6),
                  "null: no values");
    expect_answer(rz_encode_answer(0, no_entries, seven, one), done(), "null: no basis");
    expect_list(values, coefficients, 1, "null: the value at one point");
    expect_answer(rz_encode_answer(0, both, no_entries, four), done(), "null: no coefficients");
    expect_list(values, zeros, 4, "null: values of zero");
}

static void expect_nulls_in_interpolation(void) {
    const struct rz_list both = RZ_LIST(basis), seven = rz_list_of(word, 1);
    const struct rz_list all = RZ_LIST(word);
    uint64_t found[ROOM];
    const struct rz_output one = {found, 1}, four = {found, 4};

    fill(found);
    expect_answer(rz_interpolate_answer(0, missing, all, four), nothing_done(), "null: basis");
    expect_answer(rz_interpolate_answer(0, both, missing, four), nothing_done(), "null: word");
    expect_answer(rz_interpolate_answer(0, both, all, missing_room), nothing_done(),
                  "null: coefficients found");
    expect_answer(rz_interpolate_answer(0, both, no_entries, four), refused(RZ_WRONG_LENGTH, 3),
                  "null: no word");
    expect_answer(rz_interpolate_answer(0, both, all, no_room), refused(RZ_WRONG_LENGTH, 6),
                  "null: no coefficients found");
    expect_untouched(found, "null: coefficients where nothing was done");
    expect_answer(rz_interpolate_answer(0, no_entries, seven, one), done(), "null: no basis");
    expect_list(found, word, 1, "null: the coefficient of one point");
}

static void expect_fold_with(struct rz_list points, struct rz_list input, struct rz_output values,
                             struct rz_output next_basis, struct rz_answer due) {
    struct rz_fold_call call = fold_d();

    call.basis = points;
    call.word = input;
    expect_answer(rz_fold_answer(&call, values, next_basis), due, "null: rz_fold_answer");
}

static void expect_nulls_in_folds(void) {
    const struct rz_list both = RZ_LIST(basis), all = RZ_LIST(word);
    struct rz_fold_call call = fold_d();
    uint64_t list[ROOM], other[ROOM];
    const struct rz_output values = {list, 2}, one = {list, 1}, next_basis = {other, 1};

    fill(list);
    fill(other);
    expect_fold_with(missing, all, values, next_basis, nothing_done());
    expect_fold_with(both, missing, values, next_basis, nothing_done());
    expect_fold_with(both, all, missing_room, next_basis, nothing_done());
    expect_fold_with(both, all, values, missing_room, nothing_done());
    expect_answer(rz_fold_answer(NULL, values, next_basis), nothing_done(), "null: fold call");
    expect_fold_with(no_entries, all, values, next_basis, refused(RZ_WRONG_LENGTH, 1));
    expect_fold_with(both, no_entries, values, next_basis, refused(RZ_WRONG_LENGTH, 3));
    expect_fold_with(both, all, no_room, next_basis, refused(RZ_WRONG_LENGTH, 6));
    expect_fold_with(both, all, values, no_room, refused(RZ_WRONG_LENGTH, 7));
    expect_untouched(list, "null: values where nothing was done");
    expect_untouched(other, "null: next basis where nothing was done");

    call.step = 2;
    expect(rz_done(rz_fold_answer(&call, one, no_room)), "null: no next basis");
    expect(list[0] != PATTERN, "null: the value of a fold to one point");
}

/* Prover, judge and writer with what they share. */
static void expect_all(const struct rz_run *run, struct rz_answer due, const char *what) {
    uint64_t last[ROOM];
    uint8_t bytes[sizeof case_g];

    fill(last);
    expect_answer(rz_prove_answer(run, no_room, rz_output_of(last, 1)), due, what);
    expect_untouched(last, what);
    expect_answer(rz_judge_answer(run, RZ_LIST(queries_g), no_entries, RZ_LIST(last_g)), due,
                  what);
    expect_answer(rz_write_transcript_answer(run, RZ_LIST(queries_g), no_entries, RZ_LIST(last_g),
                                             bytes, sizeof bytes),
                  due, what);
}

static void expect_nulls_in_shared_lists(void) {
    struct rz_run run;
    struct rz_list *lists[] = {&run.basis, &run.challenges, &run.word};

    for (size_t i = 0; i < LENGTH(lists); i++) {
        run = run_g();
        *lists[i] = missing;
        expect_all(&run, nothing_done(), "null: a list of the run");
        *lists[i] = no_entries;
        expect_all(&run, refused(RZ_WRONG_LENGTH, i + 1), "null: no entries in the run");
    }
    expect_all(NULL, nothing_done(), "null: run");
}

/* Case G's one round: its store is a list without entries. */
static void expect_nulls_in_proofs(void) {
    const struct rz_run run = run_g();
    uint64_t list[ROOM];
    const struct rz_output last = {list, 1};

    fill(list);
    expect_answer(rz_prove_answer(&run, missing_room, last), nothing_done(), "null: store");
    expect_answer(rz_prove_answer(&run, no_room, missing_room), nothing_done(), "null: last");
    expect_answer(rz_prove_answer(&run, no_room, no_room), refused(RZ_WRONG_LENGTH, 5),
                  "null: no last");
    expect_untouched(list, "null: last coefficients where nothing was done");
    expect_answer(rz_prove_answer(&run, no_room, last), done(), "null: no store");
    expect_list(list, last_g, 1, "null: last coefficient with no store");
}

static void expect_nulls_in_judging(void) {
    const struct rz_run run = run_g();
    const struct rz_list queries = RZ_LIST(queries_g), last = RZ_LIST(last_g);

    expect_answer(rz_judge_answer(&run, missing, no_entries, last), nothing_done(),
                  "null: queries");
    expect_answer(rz_judge_answer(&run, queries, missing, last), nothing_done(), "null: store");
    expect_answer(rz_judge_answer(&run, queries, no_entries, missing), nothing_done(),
                  "null: last");
    expect_answer(rz_judge_answer(&run, no_entries, no_entries, last),
                  refused(RZ_QUERY_COUNT_OUT_OF_RANGE, RZ_NONE), "null: no queries");
    expect_answer(rz_judge_answer(&run, queries, no_entries, no_entries),
                  refused(RZ_WRONG_LENGTH, 5), "null: no last");
    expect_answer(rz_judge_answer(&run, queries, no_entries, last), accepted(4), "null: no store");
}

/* Case G again. Bytes that are not there are list 8 without entries. */
static void expect_nulls_in_writing(void) {
    const struct rz_run run = run_g();
    const struct rz_list queries = RZ_LIST(queries_g), last = RZ_LIST(last_g);
    uint8_t bytes[sizeof case_g];
    const size_t all = sizeof bytes, none = sizeof bytes - 8 * LENGTH(queries_g);

    memset(bytes, 0, sizeof bytes);
    expect_answer(rz_write_transcript_answer(&run, missing, no_entries, last, bytes, all),
                  nothing_done(), "null: queries written");
    expect_answer(rz_write_transcript_answer(&run, queries, missing, last, bytes, all),
                  nothing_done(), "null: store written");
    expect_answer(rz_write_transcript_answer(&run, queries, no_entries, missing, bytes, all),
                  nothing_done(), "null: last written");
    expect_answer(rz_write_transcript_answer(&run, queries, no_entries, last, NULL, all),
                  nothing_done(), "null: bytes to be written");
    expect_answer(rz_write_transcript_answer(&run, queries, no_entries, last, NULL, 0),
                  refused(RZ_WRONG_LENGTH, 8), "null: no bytes to be written");
    expect_answer(rz_write_transcript_answer(&run, no_entries, no_entries, last, bytes, none),
                  refused(RZ_QUERY_COUNT_OUT_OF_RANGE, RZ_NONE), "null: no queries written");
    expect(bytes[0] == 0, "null: bytes where nothing was done");
}

static void expect_other_nulls(void) {
    const struct rz_answer empty_part = answer_with(RZ_ACCEPTED, 0, RZ_NONE, 0, 0);

    expect_answer(rz_layer_answer(3, 1, 1, missing, 1), nothing_done(), "null: layers");
    expect_answer(rz_layer_answer(3, 1, 1, no_entries, 1), empty_part, "null: no layers");
    expect_answer(rz_judge_transcript_answer(NULL, 1), nothing_done(), "null: bytes");
    expect_answer(rz_judge_transcript_answer(NULL, 0), refused(RZ_BYTES_END, 1), "null: no bytes");
}

static void expect_nulls(void) {
    expect_nulls_in_encoding();
    expect_nulls_in_interpolation();
    expect_nulls_in_folds();
    expect_nulls_in_shared_lists();
    expect_nulls_in_proofs();
    expect_nulls_in_judging();
    expect_nulls_in_writing();
    expect_other_nulls();
}

int main(void) {
    expect_version();
    expect_accepted();
    expect_initialisers();
    for (size_t length = 0; length <= ROOM; length++) {
        expect_arithmetic(length);
        expect_raw_codes(length);
        expect_raw_fold(length);
        expect_raw_run(length);
        expect_raw_transcripts(length);
        expect_raw_writing(length);
    }
    expect_inverted();
    expect_codes();
    expect_codes_refused();
    expect_fold();
    expect_folds_refused();
    expect_run();
    expect_runs_refused();
    expect_own_numbers();
    expect_transcripts();
    expect_sheets();
    expect_largest_sheet();
    expect_writing();
    expect_writings_refused();
    expect_trap();
    expect_all_lengths();
    expect_nulls();
    return failures != 0;
}
