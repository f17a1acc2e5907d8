/* The cases of Table A, over lists and as transcripts, and a transcript for each number that bytes
 * can get, through the C interface. Prints what examples/cases.stdout has. */
#include "razgwilh.h"

#include <inttypes.h>
#include <stdio.h>

#define LENGTH(list) (sizeof(list) / sizeof((list)[0]))

static void show_refusal(struct rz_answer answer) {
    printf("refused %" PRIu64, answer.number);
    if (answer.place != RZ_NONE) {
        printf(", place %" PRIu64, answer.place);
    }
    if (answer.round != RZ_NONE) {
        printf(", round %" PRIu64, answer.round);
    }
}

static void show_verdict(struct rz_answer verdict) {
    if (rz_accepted(verdict)) {
        printf("accepted");
    } else {
        show_refusal(verdict);
    }
    printf(", reads %" PRIu64, verdict.reads);
}

static void show_list(struct rz_list list) {
    for (size_t i = 0; i < list.length; i++) {
        printf("%s%" PRIx64, i > 0 ? ", " : "", list.entries[i]);
    }
}

/* What was filled in, or why nothing was. */
static void show_filled(struct rz_answer answer, struct rz_output output) {
    if (!rz_done(answer)) {
        show_refusal(answer);
        return;
    }
    show_list(rz_list_of(output.entries, output.length));
}

static void field_cases(void) {
    struct rz_answer inverse = rz_inverse_answer(2);

    printf("A  8000000000000000 times 2 = %" PRIx64 "\n",
           rz_product(UINT64_C(0x8000000000000000), 2));
    printf("B  3 times 7 = %" PRIx64 "\n", rz_product(3, 7));
    printf("C  inverse of 2 = ");
    show_filled(inverse, rz_output_of(&inverse.value, 1));
    printf("\n");
}

static void code_cases(void) {
    const uint64_t basis[] = {1, 2}, dependent[] = {1, 2, 3}, coefficients[] = {7, 3};
    const struct rz_list both = RZ_LIST(basis), polynomial = RZ_LIST(coefficients);
    uint64_t word[4], back[4], more[8];
    const struct rz_output values = RZ_OUTPUT(word), found = RZ_OUTPUT(back);
    const struct rz_output none = RZ_OUTPUT(more);

    printf("E  7, 3 encode to ");
    show_filled(rz_encode_answer(0, both, polynomial, values), values);
    printf("; back: ");
    show_filled(rz_interpolate_answer(0, both, RZ_LIST(word), found), found);
    printf("\nM  basis 1, 2, 3: ");
    show_filled(rz_encode_answer(0, RZ_LIST(dependent), polynomial, none), none);
    printf("\n");
}

/* Cases D to J: the words, and what case G is judged with. */
static const uint64_t encoded[] = {7, 4, 1, 2}, changed[] = {7, 4, 1, 3};
static const uint64_t last_one[] = {0, 0, 0, 1}, basis_g[] = {1, 2};
static const uint64_t challenge_g[] = {4}, queries_g[] = {0, 3}, last_g[] = {0xb};

/* Cases K and L. */
static const uint64_t basis_k[] = {1, 2, 4}, challenges_k[] = {2, 3}, last_k[] = {1};
static const uint64_t word_k[] = {0, 1, 4, 5, 0x10, 0x11, 0x14, 0x15};

/* A fold with step 1 of a word over 2^k points: its values, next offset and next basis, or why
 * there are none. */
static void show_fold(size_t k, uint64_t offset, const uint64_t *basis, const uint64_t *word,
                      uint64_t challenge, uint64_t *values, uint64_t *next_basis) {
    const size_t half = (size_t)1 << (k - 1);
    const struct rz_fold_call call = {
        .k = k,
        .step = 1,
        .offset = offset,
        .basis = {basis, k},
        .word = {word, 2 * half},
        .challenge = challenge,
    };
    struct rz_answer answer = rz_fold_answer(&call, rz_output_of(values, half),
                                             rz_output_of(next_basis, k - 1));

    show_filled(answer, rz_output_of(values, half));
    if (rz_done(answer)) {
        printf("; next offset %" PRIx64 ", basis ", answer.value);
        show_list(rz_list_of(next_basis, k - 1));
    }
}

static void fold_cases(void) {
    const uint64_t zeros[] = {0, 0, 0, 0};
    uint64_t layer[4], layer_basis[2], last[2], last_basis[1];

    printf("D  offset 8, zeros at 4: ");
    show_fold(2, 8, basis_g, zeros, 4, last, last_basis);
    printf("\nF  7, 4, 1, 2 at 4: ");
    show_fold(2, 0, basis_g, encoded, 4, last, last_basis);
    printf("\nJ  0, 0, 0, 1 at 4: ");
    show_fold(2, 0, basis_g, last_one, 4, last, last_basis);
    printf("\nJ  0, 0, 0, 1 at 2: ");
    show_fold(2, 0, basis_g, last_one, 2, last, last_basis);
    printf("\nK  0, 1, 4, 5, 10, 11, 14, 15 at 2: ");
    show_fold(3, 0, basis_k, word_k, 2, layer, layer_basis);
    printf("\nK  that at 3: ");
    show_fold(2, 0, layer_basis, layer, 3, last, last_basis);
    printf("\n");
}

/* k 2, R 1, step 1 over the basis 1, 2 from 0: one round, so that the store is empty. */
static struct rz_run one_round(const uint64_t *word, const uint64_t *challenge) {
    struct rz_run run = {
        .k = 2,
        .rate = 1,
        .step = 1,
        .offset = 0,
        .basis = RZ_LIST(basis_g),
        .challenges = {challenge, 1},
        .word = {word, 4},
    };

    return run;
}

/* A word proved at a challenge. */
static void show_proof(const uint64_t *word, uint64_t challenge) {
    const struct rz_run run = one_round(word, &challenge);
    uint64_t coefficient[1];
    const struct rz_output store = {NULL, 0}, last = RZ_OUTPUT(coefficient);

    show_filled(rz_prove_answer(&run, store, last), last);
}

/* A word judged, with coefficient b and challenge 4. */
static void show_judging(const uint64_t *word, size_t queries_length) {
    const struct rz_run run = one_round(word, challenge_g);
    const struct rz_list queries = {queries_g, queries_length};

    show_verdict(rz_judge_answer(&run, queries, rz_list_of(NULL, 0), RZ_LIST(last_g)));
}

static void one_round_cases(void) {
    printf("F  7, 4, 1, 2 at 4 is proved by ");
    show_proof(encoded, 4);
    printf("\nG  queries 0, 3: ");
    show_judging(encoded, 2);
    printf("\nH  entry 3 made 3: ");
    show_judging(changed, 2);
    printf("\nI  only query 0: ");
    show_judging(changed, 1);
    printf("\nJ  0, 0, 0, 1 at 4: ");
    show_proof(last_one, 4);
    printf("\nJ  0, 0, 0, 1 at 2 is proved by ");
    show_proof(last_one, 2);
    printf("\n");
}

/* The run of cases K and L. */
static struct rz_run two_rounds(void) {
    struct rz_run run = {
        .k = 3,
        .rate = 1,
        .step = 1,
        .offset = 0,
        .basis = RZ_LIST(basis_k),
        .challenges = RZ_LIST(challenges_k),
        .word = RZ_LIST(word_k),
    };

    return run;
}

/* That run with a layer 1 and a query. */
static void show_two_rounds(struct rz_list store, uint64_t query) {
    const struct rz_run run = two_rounds();

    show_verdict(rz_judge_answer(&run, rz_list_of(&query, 1), store, RZ_LIST(last_k)));
}

static void two_round_cases(void) {
    const struct rz_run run = two_rounds();
    uint64_t layers[4], coefficient[1];
    const struct rz_list store = RZ_LIST(layers);
    const struct rz_output last = RZ_OUTPUT(coefficient);
    struct rz_answer proof = rz_prove_answer(&run, RZ_OUTPUT(layers), last);
    struct rz_answer part = rz_layer_answer(3, 1, 1, store, 1);

    printf("K  layer 1: ");
    show_list(rz_list_of(layers + part.place, part.value));
    printf("; proved by ");
    show_filled(proof, last);
    printf("\nK  query 5: ");
    show_two_rounds(store, 5);
    layers[0] = 3;
    printf("\nL  entry 0 of layer 1 made 3, query 0: ");
    show_two_rounds(store, 0);
    printf("; query 7: ");
    show_two_rounds(store, 7);
    printf("\n");
}

/* The rounds, the last coefficients and the stored layers, and a dimension out of range. */
static void case_o(void) {
    static const uint64_t layers[149504];
    const struct rz_list store = {layers, rz_store_length(20, 6, 3)}, none = {NULL, 0};
    const struct rz_run larger = {.k = 21, .rate = 6, .step = 3};

    printf("O  k 20, R 6, step 3: rounds %zu", rz_rounds(20, 6, 3));
    printf(", last coefficients %zu, layers of ", rz_last_length(20, 6, 3));
    for (size_t i = 1; i <= 4; i++) {
        printf("%s%" PRIu64, i > 1 ? ", " : "", rz_layer_answer(20, 6, 3, store, i).value);
    }
    printf("; k 21: ");
    show_verdict(rz_judge_answer(&larger, none, none, none));
    printf("\n");
}

/* A value in `width` bytes, the lowest first; answers where it ends. */
static size_t put(uint8_t *out, size_t at, uint64_t value, size_t width) {
    for (size_t i = 0; i < width; i++) {
        out[at + i] = (uint8_t)(value >> (8 * i));
    }
    return at + width;
}

static size_t put_entries(uint8_t *out, size_t at, struct rz_list list) {
    for (size_t i = 0; i < list.length; i++) {
        at = put(out, at, list.entries[i], 8);
    }
    return at;
}

/* A section: its count and its entries. */
static size_t put_section(uint8_t *out, size_t at, struct rz_list list) {
    at = put(out, at, list.length, 4);
    return put_entries(out, at, list);
}

/* Sections 1 to 4. */
static size_t put_front(uint8_t *out, const struct rz_run *run, struct rz_list queries) {
    const uint64_t parameters[] = {run->k, run->rate, run->step};
    size_t at = put_section(out, 0, RZ_LIST(parameters));

    at = put(out, at, 1 + run->basis.length, 4);
    at = put(out, at, run->offset, 8);
    at = put_entries(out, at, run->basis);
    at = put_section(out, at, run->challenges);
    return put_section(out, at, queries);
}

/* A whole transcript, each stored layer in its own section; answers how many bytes it has. */
static size_t put_run(uint8_t *out, const struct rz_run *run, struct rz_list queries,
                      struct rz_list store, struct rz_list last) {
    const size_t rounds = rz_rounds(run->k, run->rate, run->step);
    size_t at = put_front(out, run, queries);

    at = put_section(out, at, run->word);
    for (size_t i = 1; i < rounds; i++) {
        struct rz_answer part = rz_layer_answer(run->k, run->rate, run->step, store, i);

        at = put_section(out, at, rz_list_of(store.entries + part.place, part.value));
    }
    return put_section(out, at, last);
}

/* The verdict on a file of these bytes, of any length. */
static void show_transcript(const char *name, const uint8_t *bytes, size_t length) {
    printf("%s", name);
    show_verdict(rz_judge_transcript_answer(bytes, length));
}

/* No run here has more bytes than that of case P with 257 queries. */
static void show_run(const char *name, const struct rz_run *run, struct rz_list queries,
                     struct rz_list store, struct rz_list last) {
    uint8_t bytes[10444];

    show_transcript(name, bytes, put_run(bytes, run, queries, store, last));
}

/* k 9, R 1, step 1: the word of 7, 3 at challenges 1 to 8, with a query in each of the 256
 * first-layer cosets, and with one more. */
static void case_p(void) {
    const uint64_t basis[] = {1, 2, 4, 8, 16, 32, 64, 128, 256}, coefficients[] = {7, 3};
    const uint64_t challenges[] = {1, 2, 3, 4, 5, 6, 7, 8};
    uint64_t word[512], layers[508], coefficient[1], indices[257];
    const struct rz_run run = {
        .k = 9,
        .rate = 1,
        .step = 1,
        .offset = 0,
        .basis = RZ_LIST(basis),
        .challenges = RZ_LIST(challenges),
        .word = RZ_LIST(word),
    };
    const struct rz_list enough = {indices, 256}, too_many = RZ_LIST(indices);
    const struct rz_list store = RZ_LIST(layers), last = RZ_LIST(coefficient);

    for (size_t i = 0; i < LENGTH(indices); i++) {
        indices[i] = i % 256 * 2;
    }
    struct rz_answer encoding =
        rz_encode_answer(0, run.basis, RZ_LIST(coefficients), RZ_OUTPUT(word));
    struct rz_answer proof = rz_prove_answer(&run, RZ_OUTPUT(layers), RZ_OUTPUT(coefficient));
    if (!rz_done(encoding) || !rz_done(proof)) {
        printf("P  not proved\n");
        return;
    }
    printf("P  256 queries in 256 cosets: ");
    show_verdict(rz_judge_answer(&run, enough, store, last));
    show_run("; as a transcript: ", &run, enough, store, last);
    printf("; 257: ");
    show_verdict(rz_judge_answer(&run, too_many, store, last));
    show_run("; as a transcript: ", &run, too_many, store, last);
    printf("\n");
}

/* The run of cases G to I. */
static void show_one_round(const char *name, const uint64_t *word, size_t queries_length) {
    const struct rz_run run = one_round(word, challenge_g);
    const struct rz_list queries = {queries_g, queries_length};

    show_run(name, &run, queries, rz_list_of(NULL, 0), RZ_LIST(last_g));
}

/* The run of cases K and L with an entry 0 of layer 1 and a query. */
static void show_two_rounds_as_bytes(const char *name, uint64_t first, uint64_t query) {
    const uint64_t layer[] = {first, 4, 0x16, 0x10};
    const struct rz_run run = two_rounds();

    show_run(name, &run, rz_list_of(&query, 1), RZ_LIST(layer), RZ_LIST(last_k));
}

/* Case G with a number changed, and with as many bytes. */
static void show_changed(const char *name, size_t at, uint64_t value, size_t width,
                         size_t length) {
    const struct rz_run run = one_round(encoded, challenge_g);
    uint8_t bytes[137] = {0};

    put_run(bytes, &run, RZ_LIST(queries_g), rz_list_of(NULL, 0), RZ_LIST(last_g));
    put(bytes, at, value, width);
    show_transcript(name, bytes, length);
}

/* What is refused by sections 1 to 4, or where no layer follows them. */
static void show_front(const char *name, const struct rz_run *run, struct rz_list queries) {
    uint8_t bytes[300];

    show_transcript(name, bytes, put_front(bytes, run, queries));
}

/* M: k 3 and the basis 1, 2, 3. O: no layer follows the queries, and k 21. */
static void front_cases(void) {
    const uint64_t dependent[] = {1, 2, 3}, challenges[] = {1, 2, 3, 4}, query[] = {0};
    const struct rz_list no_query = {NULL, 0};
    uint64_t powers[20];
    struct rz_run run = {.k = 3, .rate = 1, .step = 1, .basis = RZ_LIST(dependent)};

    show_front("\nM  as a transcript: ", &run, no_query);
    for (size_t i = 0; i < LENGTH(powers); i++) {
        powers[i] = UINT64_C(1) << i;
    }
    run = (struct rz_run){
        .k = 20,
        .rate = 6,
        .step = 3,
        .basis = RZ_LIST(powers),
        .challenges = RZ_LIST(challenges),
    };
    show_front("\nO  as a transcript without layers: ", &run, RZ_LIST(query));
    run.k = 21;
    show_front("; k 21: ", &run, no_query);
}

static void transcripts(void) {
    static const uint8_t zeros[65537];

    show_one_round("G  as a transcript: ", encoded, 2);
    show_one_round("\nH  as a transcript: ", changed, 2);
    show_one_round("\nI  as a transcript: ", changed, 1);
    show_two_rounds_as_bytes("\nK  as a transcript, query 5: ", 2, 5);
    show_two_rounds_as_bytes("\nL  as a transcript, query 0: ", 3, 0);
    show_two_rounds_as_bytes("; query 7: ", 3, 7);
    show_transcript("\nN  the empty transcript: ", NULL, 0);
    show_changed("\nG  without its last byte: ", 0, 3, 4, 135);
    show_changed("\nG  with another count in section 2: ", 28, 4, 4, 136);
    show_changed("\nG  with a byte more: ", 0, 3, 4, 137);
    show_changed("\nG  with k 21: ", 4, 21, 8, 136);
    show_changed("\nG  with R 0: ", 12, 0, 8, 136);
    show_changed("\nG  with step 4: ", 20, 4, 8, 136);
    show_changed("\nG  with R 2: ", 12, 2, 8, 136);
    show_changed("\nG  with basis 1, 1: ", 48, 1, 8, 136);
    show_changed("\nG  with query 1 at index 4: ", 80, 4, 8, 136);
    show_changed("\nG  with query 1 at index 1: ", 80, 1, 8, 136);
    show_changed("\nG  with challenge 5: ", 60, 5, 8, 136);
    show_changed("\nG  with 4294967295 queries: ", 68, 4294967295, 4, 136);
    front_cases();
    show_transcript("\nA file of 65537 zeros: ", zeros, LENGTH(zeros));
    printf("\n");
}

int main(void) {
    field_cases();
    code_cases();
    fold_cases();
    one_round_cases();
    two_round_cases();
    case_o();
    case_p();
    transcripts();
    return 0;
}
