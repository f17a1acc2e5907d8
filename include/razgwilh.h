/* The C interface of Razgwilh's proved library: FRI over additive cosets of the field of 2^64
 * elements, for x86-64, where size_t has 64 bits.
 *
 *   1  elements, cosets, words
 *   2  the answer
 *   3  the numbers
 *   4  lists
 *   5  what a call needs beforehand: rounds and lengths; how much memory it takes
 *   6  the functions: arithmetic, encoding, folding, the protocol over lists and over bytes,
 *      marking sheets
 *   7  the raw functions, with a warning
 *   8  the functions of part 6, made of those of part 7
 *
 * To judge a transcript, include this header and link the library:
 *
 *     struct rz_answer verdict = rz_judge_transcript_answer(bytes, length);
 *     if (rz_accepted(verdict)) ..
 *
 * The functions of the library are proved to do what is said here. The inline functions of this
 * header hand their arguments on to them, and are tested. */
#ifndef RAZGWILH_H
#define RAZGWILH_H

#include <stddef.h>
#include <stdint.h>

#define RZ_VERSION "0.9.5"
#define RZ_VERSION_MAJOR 0
#define RZ_VERSION_MINOR 9
#define RZ_VERSION_PATCH 5

#ifdef __cplusplus
extern "C" {
#endif

/* 1. ELEMENTS, COSETS, WORDS
 *
 * An element of the field of 2^64 elements is a 64-bit number: bit i is the coefficient of t^i,
 * modulo t^64 + t^4 + t^3 + t + 1.
 *
 * A coset of dimension k has an offset, any element, and a basis of k independent elements; its
 * point j, for j below 2^k, is the offset plus the sum of the basis elements b_t for which bit t
 * of j is set. A word lists 2^k values in point order. A polynomial is the list of its
 * coefficients, constant first. */

/* 2. THE ANSWER
 *
 * A function that can refuse, the inverse and the layer lookup answer five numbers:
 *   number  0 when it went well, else that of the cause; RZ_NONE where nothing was done
 *   place   the section (numbers 1, 2), basis place (8), query (10, 11, 17), degree (12) or list
 *           (13); for the layer lookup, a start
 *   round   for number 11
 *   reads   how many entries a judge read: 0 where none were, and for every other function
 *   value   what the function gives, where it gives something and number is 0; for the prover, the
 *           degree on number 12
 * RZ_NONE stands for a place, a round or a value that there is none of. A function that gives an
 * element gives it whenever number is 0, and RZ_NONE is then the element with all bits set.
 *
 * No cause has the number RZ_NONE: it says that nothing at all was written or done, because a
 * pointer was null (part 4). All other numbers but reads, which is 0, are then RZ_NONE too. */
#define RZ_NONE UINT64_MAX

struct rz_answer {
    uint64_t number, place, round, reads, value;
};

/* Initialises an answer that is still to come, as where nothing was done; {0} would read as
 * accepted:
 *
 *     struct rz_answer verdict = RZ_NO_ANSWER; */
#define RZ_NO_ANSWER {RZ_NONE, RZ_NONE, RZ_NONE, 0, RZ_NONE}

/* For a judge's verdict, the answer of rz_judge_answer or rz_judge_transcript_answer: 1 exactly
 * where number is 0, and the judge accepted. */
static inline int rz_accepted(struct rz_answer verdict);

/* For the answer of a function that judges nothing: 1 exactly where number is 0, and the function
 * did what it is for. The layer lookup refuses nothing: its value says whether there is such a
 * layer. */
static inline int rz_done(struct rz_answer answer);

/* gcc and clang warn where an answer is not used. */
#if defined(__GNUC__)
#define RZ_MUST_USE __attribute__((warn_unused_result))
#else
#define RZ_MUST_USE
#endif

/* 3. THE NUMBERS
 *
 * Each with its cause, in the words of docs/NUMBERS.md, which says what an operator does next, and
 * of docs/CALLERS.md, with rate for R and step for eta. A number, once given, keeps its cause for
 * good. Retired, and not used again: 15, the inverse of zero, which versions up to 0.6 gave; 16, a
 * later layer's basis is dependent, for which versions up to 0.7 checked and which never came
 * about. Beside RZ_NONE there are no others. */
enum rz_number {
    RZ_ACCEPTED = 0,
    /* the bytes end in a count or its entries */
    RZ_BYTES_END = 1,
    /* a count differs from the one due, in another section than 4 */
    RZ_COUNT_DIFFERS = 2,
    /* bytes after the last section */
    RZ_TRAILING_BYTES = 3,
    /* k out of range */
    RZ_DIMENSION_OUT_OF_RANGE = 4,
    /* rate out of range */
    RZ_RATE_OUT_OF_RANGE = 5,
    /* step out of range */
    RZ_STEP_OUT_OF_RANGE = 6,
    /* k < rate + step, or k < step in a lone fold */
    RZ_DIMENSION_TOO_SMALL = 7,
    /* a basis element lies in the span of earlier ones */
    RZ_BASIS_DEPENDENT = 8,
    /* no query, or over 256 */
    RZ_QUERY_COUNT_OUT_OF_RANGE = 9,
    /* a query index is 2^k or more */
    RZ_QUERY_OUT_OF_RANGE = 10,
    /* a round check fails */
    RZ_ROUND_CHECK_FAILS = 11,
    /* layer r has degree d or more; the prover alone gives it */
    RZ_DEGREE_TOO_LARGE = 12,
    /* a lent list has the wrong length: 1 basis, 2 challenges, 3 word or encoder coefficients,
     * 4 store, 5 last coefficients, 6 output values, 7 next basis, 8 bytes of a transcript */
    RZ_WRONG_LENGTH = 13,
    /* the program's input has over 65,536 bytes; the program `judge` alone gives it, where
     * sections 1 to 4 pass, and no function of this header */
    RZ_INPUT_TOO_LONG = 14,
    /* two queries share a first-layer coset */
    RZ_COSET_SHARED = 17
};

/* 4. LISTS
 *
 * A lent list is a pointer to its first entry and its length, in entries and not in bytes. A list
 * that is written to overlaps no other list of the call; lists that are only read may overlap.
 * Nobody else writes to any of them meanwhile.
 *
 * A null pointer with length 0 is a list without entries, wherever part 6 takes a list or bytes. A
 * null pointer with another length, and a null pointer to a run or a fold call, are mistakes of
 * the caller: the answer's number, or a sheet's length, is RZ_NONE, and nothing is done. The
 * inversion of a list, which answers nothing, then does nothing. */

/* A list that is read. */
struct rz_list {
    const uint64_t *entries;
    size_t length;
};

/* A list that is written to. */
struct rz_output {
    uint64_t *entries;
    size_t length;
};

/* The length is in entries: 3 for an array of three, where sizeof gives 24. */
static inline struct rz_list rz_list_of(const uint64_t *entries, size_t length);

/* The same for a list that is written to. */
static inline struct rz_output rz_output_of(uint64_t *entries, size_t length);

/* A whole array as a list, its entries counted. They are for arrays and not for pointers, whose
 * entries cannot be counted: a parameter `uint64_t word[]` is a pointer too. */
#define RZ_LIST(array) rz_list_of((array), sizeof(array) / sizeof((array)[0]))
#define RZ_OUTPUT(array) rz_output_of((array), sizeof(array) / sizeof((array)[0]))

/* 5. WHAT A CALL NEEDS BEFOREHAND
 *
 * Parameters are in range where k is 2 to 20, the rate (R) 1 to 6, the step (eta) 1 to 3, and k is
 * at least rate + step. The functions of this part give 0 for parameters out of range; with others
 * rz_rounds and rz_last_length are at least 1, and rz_store_length is 0 where there is one round.
 *
 *   list                              length
 *   basis                             k
 *   challenges                        rz_rounds
 *   word                              2^k
 *   store                             rz_store_length
 *   last coefficients                 rz_last_length
 *   queries                           1 to 256, at most 2^(k - step)
 *   bytes of a transcript             rz_transcript_length, in bytes
 *   coefficients to be encoded        at most 2^k, where k is the length of the basis, 0 to 20
 *   values of an encoding             2^k
 *   coefficients of an interpolation  2^k
 *   values of a lone fold             2^(k - step)
 *   next basis of a lone fold         k - step */

/* r, how many rounds there are: (k - rate) / step, rounded down. */
size_t rz_rounds(size_t k, size_t rate, size_t step);

/* How many entries the store has: the sum of 2^(k - i * step) for i from 1 to r - 1. */
size_t rz_store_length(size_t k, size_t rate, size_t step);

/* d, how many last coefficients there are: 2^(k - rate - r * step), which is 1, 2 or 4. */
size_t rz_last_length(size_t k, size_t rate, size_t step);

/* How many bytes a transcript with so many queries has, whatever their number is: 4 for each of
 * the 5 + r counts, and 8 for each entry, which are 3 parameters, offset and basis (1 + k), r
 * challenges, the queries, the word (2^k), the store (rz_store_length) and d last coefficients.
 * 0 also for 2^60 queries or more, which no list has. */
uint64_t rz_transcript_length(size_t k, size_t rate, size_t step, size_t queries);

/* Beside the lists that it is lent a call takes stack, and no other memory. Nothing is allocated,
 * nothing is kept from one call to the next, and of C the library calls memcpy and memset alone.
 * That is seen from the archive, and what follows is measured or counted: none of it is proved,
 * since no contract speaks of memory.
 * At the largest sizes, which are k 20 with rate 1 and 256 queries, with the step that takes the
 * most, the functions take what follows; rz_invert_list is lent 2^20 elements there, and takes no
 * more stack for more:
 *
 *   function                          lent  list   stack
 *   rz_sum                               0     0     256
 *   rz_product                           0    16     512
 *   rz_inverse_answer                    0    16     768
 *   rz_invert_list               8,388,608    64   1,024
 *   rz_encode_answer            16,777,376    64   4,352
 *   rz_interpolate_answer       16,777,376    64   4,352
 *   rz_fold_answer              12,583,224    64   2,304
 *   rz_rounds                            0     0     256
 *   rz_store_length                      0     0     256
 *   rz_last_length                       0     0     256
 *   rz_transcript_length                 0     0     256
 *   rz_prove_answer             16,777,504   256   6,144
 *   rz_layer_answer              8,388,576     5     512
 *   rz_judge_answer             16,779,552   266  10,496
 *   rz_write_transcript_answer  33,559,232    64   1,280
 *   rz_judge_transcript_answer  16,779,680   266  15,616
 *   rz_sheet_into               17,052,064   266  12,032
 *
 * lent: the bytes of all lists that the call is lent; at smaller sizes the lengths above give it.
 * list: how many elements the longest local list has, of the raw function and of all that it
 * calls, a list of lists with all their elements, counted in the compiler's form of the code; it
 * is part of the stack.
 * stack: the bytes of stack, the arguments and the function of this header included, measured
 * where gcc compiles that function without optimisation, and rounded up to a multiple of 256;
 * smaller sizes may take as much. A loader that looks up memcpy or memset in the first call that
 * needs it takes stack of its own, which is not counted. */

/* 6. THE FUNCTIONS */

/* The sum of two elements: the exclusive or. */
uint64_t rz_sum(uint64_t a, uint64_t b);

/* The product of two elements. */
uint64_t rz_product(uint64_t a, uint64_t b);

/* value: the inverse of a; as in AES, that of 0 is 0. It is never refused: the number is 0 always.
 * The answer has no place, no round, and 0 reads. */
RZ_MUST_USE
static inline struct rz_answer rz_inverse_answer(uint64_t a);

/* Each element of the list becomes its inverse, in its place; a 0 stays 0. The list may have any
 * length, and nothing is refused. In a long list an element takes a tenth of the time of an
 * inverse by itself. */
static inline void rz_invert_list(struct rz_output list);

/* Writes the polynomial's values at all 2^k points, in point order, into `values`; k is the length
 * of the basis. There are at most 2^k coefficients; those left off are zero. Refused, in this
 * order, with
 *   number 4   k is over 20; no place
 *   number 13  a list has the wrong length, and its place is the lower such list: 3,
 *              `coefficients`, over 2^k; 6, `values`, other than 2^k
 *   number 8   a basis element lies in the span of earlier ones, and its place is the first such
 *              place, from 0
 * A refusal leaves `values` as it was. The answer has no value, no round, and 0 reads. */
RZ_MUST_USE
static inline struct rz_answer rz_encode_answer(uint64_t offset, struct rz_list basis,
                                                struct rz_list coefficients,
                                                struct rz_output values);

/* Writes the 2^k coefficients of the one polynomial of degree below 2^k that has the value word[j]
 * at point j, for every j, into `coefficients`. Refused as rz_encode_answer is, where list 3 is
 * `word` and list 6 is `coefficients`, each of length 2^k. A refusal leaves `coefficients` as it
 * was. The answer has no value, no round, and 0 reads. */
RZ_MUST_USE
static inline struct rz_answer rz_interpolate_answer(uint64_t offset, struct rz_list basis,
                                                     struct rz_list word,
                                                     struct rz_output coefficients);

/* What a lone fold is given: a word over the coset of dimension k with this offset and basis, the
 * step, and the challenge. */
struct rz_fold_call {
    size_t k, step;
    uint64_t offset;
    struct rz_list basis, word;
    uint64_t challenge;
};

/* Folds a word over a coset of dimension k with a step, at a challenge. q is the product of X - a
 * over all sums of some or none of the first `step` basis elements. The next coset has dimension
 * k - step, the offset q(offset) and the basis q(basis[step]) .. q(basis[k - 1]), which is written
 * into `next_basis`; the next coset's point j is q of points j * 2^step to
 * j * 2^step + 2^step - 1. Into values[j] goes the value at the challenge of the one polynomial of
 * degree below 2^step that has the word's values at those points. The challenge may be any
 * element, a point too. value: the next offset; with it and `next_basis` the values can be folded
 * again, as long as k - step is at least 2. Where k is the step, the next basis is empty. Nothing
 * is folded in place: `values` is another list than `word`. Refused, in this order, with
 *   number 4   k is outside 2 to 20; no place
 *   number 6   the step is outside 1 to 3; no place
 *   number 7   k is below the step; no place
 *   number 13  a list has the wrong length, and its place is the lowest such list: 1, `basis`,
 *              other than k; 3, `word`, other than 2^k; 6, `values`, other than 2^(k - step); 7,
 *              `next_basis`, other than k - step
 *   number 8   a basis element lies in the span of earlier ones, and its place is the first such
 *              place, from 0
 * A refusal leaves `values` and `next_basis` as they were, and has no value. The answer has no
 * round, and 0 reads. */
RZ_MUST_USE
static inline struct rz_answer rz_fold_answer(const struct rz_fold_call *call,
                                              struct rz_output values,
                                              struct rz_output next_basis);

/* The protocol over lists, with parameters in the ranges of part 5. Layer 0 is the word, over the
 * coset of dimension k with this offset and basis. Round i, from 0, folds layer i at challenge i
 * with the step, as rz_fold_answer does: the fold is layer i + 1, over the next coset, with its
 * next offset and next basis. Layer i has 2^(k - i * step) entries. There are r rounds. Layers 1
 * to r - 1 lie joined in the store, which has the sum of their entries, none when r is 1. Layer r,
 * of at most 256 entries, is sent as the last coefficients: the first d coefficients of its
 * interpolant, constant first. They are those of the last polynomial. A coset of a layer's fold is
 * the 2^step points that q sends to one point, as rz_fold_answer has it; those of layer 0 are the
 * first-layer cosets. */

/* What the prover, the judge and the writer of transcripts are all given. */
struct rz_run {
    size_t k, rate, step;
    uint64_t offset;
    struct rz_list basis, challenges, word;
};

/* The prover: layers 1 to r - 1 into `store`, the last coefficients into `last`. Refused, in this
 * order, with
 *   number 4   k is out of range; no place
 *   number 5   the rate is out of range; no place
 *   number 6   the step is out of range; no place
 *   number 7   k is below rate + step; no place
 *   number 13  a list has the wrong length, and its place is the lowest such list: 1, the basis,
 *              other than k; 2, the challenges, other than r; 3, the word, other than 2^k; 4,
 *              `store`, other than rz_store_length; 5, `last`, other than d
 *   number 8   a basis element lies in the span of earlier ones, and its place is the first such
 *              place, from 0
 *   number 12  layer r has degree d or more, and place and value are that degree; `store` then
 *              holds the layers, and `last` is as it was
 * All other refusals leave `store` and `last` as they were. No value but with number 12, no
 * round, 0 reads. */
RZ_MUST_USE
static inline struct rz_answer rz_prove_answer(const struct rz_run *run, struct rz_output store,
                                               struct rz_output last);

/* The layer lookup: layer i of a store, 1 <= i < r, is the part of `store` that starts at the
 * answer's place and has as many entries as its value says. It refuses nothing: value 0, with
 * place 0, says that there is no such layer, because the parameters are out of range, i is another
 * one or the store has another length; number is 0 then too. No round, 0 reads. */
RZ_MUST_USE
static inline struct rz_answer rz_layer_answer(size_t k, size_t rate, size_t step,
                                               struct rz_list store, size_t i);

/* The judge: for each entry j of `queries`, an index below 2^k, and each round i, the fold at
 * challenge i of the coset of layer i that holds index j / 2^(step * i) must equal the entry of
 * layer i + 1 at index j / 2^(step * (i + 1)) or, in the last round, the last polynomial at the
 * point of layer r with that index; divisions are rounded down. Number 0 where all are equal.
 * Refused as rz_prove_answer is by 4, 5, 6, 7, 13 and 8, then with
 *   number 9   no query, or over 256; no place
 *   number 10  an entry of `queries` is 2^k or more, and its place is the first such position,
 *              from 0
 *   number 17  two queries share a first-layer coset, which entries j and j' of `queries` do where
 *              j / 2^step = j' / 2^step, rounded down; place is the first position, from 0, whose
 *              query shares its coset with an earlier one
 *   number 11  a round check fails: the first one, lowest query first, then lowest round; place is
 *              its position in `queries`, from 0, and round its round
 * reads: queries * r * 2^step where number is 0; t * r * 2^step + min(i + 2, r) * 2^step for
 * number 11 at position t and round i; else 0. No list is written. The answer has no value, and no
 * round but with number 11. */
RZ_MUST_USE
static inline struct rz_answer rz_judge_answer(const struct rz_run *run, struct rz_list queries,
                                               struct rz_list store, struct rz_list last);

/* The protocol over bytes. A transcript is a row of sections, each a count in 4 bytes and as many
 * entries of 8 bytes each, all little-endian:
 *   section 1        k, rate, step
 *   section 2        the offset, then the basis: k + 1 entries
 *   section 3        r challenges
 *   section 4        1 to 256 query indices
 *   section 5 + i    layer i, for i from 0 to r - 1; layer 0 is the word
 *   section 5 + r    d last coefficients
 * Nothing follows. The store is layers 1 to r - 1, joined. */

/* The writer: the transcript of these lists into `bytes`, of which there are `length`. Any lists
 * that pass the checks are written, honest or not, and what rz_judge_transcript_answer says of the
 * bytes is what rz_judge_answer says of the lists. Refused as rz_judge_answer is, but never with
 * number 11; number 13 has one list more, behind the others: 8, `bytes`, where `length` is other
 * than rz_transcript_length for as many queries as there are, be it none or over 256. A refusal
 * leaves every byte as it was. The answer has no value, no round, and 0 reads. */
RZ_MUST_USE
static inline struct rz_answer rz_write_transcript_answer(const struct rz_run *run,
                                                          struct rz_list queries,
                                                          struct rz_list store,
                                                          struct rz_list last, uint8_t *bytes,
                                                          size_t length);

/* The judge over the bytes of a transcript, of any length. The lists that the bytes carry are
 * judged as rz_judge_answer judges them. Refused section by section; in each, in this order, with
 *   number 1   the 4 bytes of its count are not all there, and its place is the section, from 1
 *   number 2   its count is not the one due, and its place is the section; in section 4 instead
 *   number 9   its count is 0 or over 256; no place
 *   number 1   the bytes of its entries are not all there, and its place is the section
 * and by the values of its entries, as rz_judge_answer has them: 4, 5, 6 and 7 in section 1, 8 in
 * section 2, 10 and 17 in section 4. After the last section, with
 *   number 3   bytes follow; no place
 * and last with number 11, as rz_judge_answer has it. The reads are those of rz_judge_answer. The
 * answer has no value, and no round but with number 11. */
RZ_MUST_USE
static inline struct rz_answer rz_judge_transcript_answer(const uint8_t *bytes, size_t length);

/* The marking sheet of a transcript, of any length: a line for every query and every round, by
 * query, then round, also those after the first check that fails. A line has 55 bytes and a line
 * feed; its fields, with one space between, are
 *   query            5, decimal: its position in section 4, from 0
 *   index            8, decimal: the entry of section 4, as given
 *   round            3, decimal, from 0
 *   value computed  16 hexadecimal digits: the fold
 *   value found     16 hexadecimal digits: what the fold must equal
 *   `ok` where the two values are equal, else `no`
 * Decimals are padded with spaces on the left, hexadecimal digits, in lower case, with zeros. The
 * two values are those that rz_judge_answer compares. There is no header, and no byte behind the
 * last line feed. The first line of case G:
 *
 *         0        0   0 000000000000000b 000000000000000b ok
 *
 * Gives the length of the sheet in bytes: 56 * queries * r where rz_judge_transcript_answer gives
 * number 0 or 11, and 0, for no lines, where it gives another. Where there are lines, all are `ok`
 * exactly where number is 0; else the first `no` stands at the query and round of number 11. No
 * number of part 3 is given.
 *
 * Where the sheet is not longer than `room`, how many bytes `out` has, the front of `out` becomes
 * the sheet and the rest stays as it was; else all of `out` stays as it was. So the length can be
 * asked for with a null pointer and 0, and no round is computed then. RZ_LARGEST_SHEET bytes are
 * room enough for every sheet. */
RZ_MUST_USE
static inline uint64_t rz_sheet_into(const uint8_t *bytes, size_t length, uint8_t *out,
                                     size_t room);

/* The length of the largest sheet: 256 queries, 19 rounds (k 20, rate 1, step 1), 56 bytes. */
#define RZ_LARGEST_SHEET (256 * 19 * 56)

/* 7. THE RAW FUNCTIONS
 *
 * They are for those who bind another language; a C program calls those of part 6. rz_judge does
 * what is said of rz_judge_answer, rz_prove what is said of rz_prove_answer, and so on, with these
 * differences: the answer's five numbers, in the order of part 2, are written into the list
 * `answer`, and no pointer may be null, even where the list is empty. rz_sheet and rz_invert,
 * which answer no such numbers, do what is said of rz_sheet_into and rz_invert_list with the
 * second difference alone.
 *
 * WARNING. Where `answer_length` is not RZ_ANSWER_LENGTH, nothing at all is written or done: the
 * list `answer` is left alone. A list of zeros then reads as accepted:
 *
 *     uint64_t a[5] = {0};
 *     rz_judge(.., a, sizeof a);    sizeof a is 40, not 5: nothing is judged
 *     if (a[0] == 0) ..             holds for every store, a damaged or forged one too
 *
 * So initialise the list with RZ_NO_ANSWER, and set its first number to RZ_NONE, which no cause
 * has, before each further call. */
#define RZ_ANSWER_LENGTH 5

void rz_inverse(uint64_t a, uint64_t *answer, size_t answer_length);

void rz_invert(uint64_t *list, size_t length);

void rz_encode(uint64_t offset, const uint64_t *basis, size_t basis_length,
               const uint64_t *coefficients, size_t coefficients_length, uint64_t *values,
               size_t values_length, uint64_t *answer, size_t answer_length);

void rz_interpolate(uint64_t offset, const uint64_t *basis, size_t basis_length,
                    const uint64_t *word, size_t word_length, uint64_t *coefficients,
                    size_t coefficients_length, uint64_t *answer, size_t answer_length);

void rz_fold(size_t k, size_t step, uint64_t offset, const uint64_t *basis, size_t basis_length,
             const uint64_t *word, size_t word_length, uint64_t challenge, uint64_t *values,
             size_t values_length, uint64_t *next_basis, size_t next_basis_length,
             uint64_t *answer, size_t answer_length);

void rz_prove(size_t k, size_t rate, size_t step, uint64_t offset, const uint64_t *basis,
              size_t basis_length, const uint64_t *challenges, size_t challenges_length,
              const uint64_t *word, size_t word_length, uint64_t *store, size_t store_length,
              uint64_t *last, size_t last_length, uint64_t *answer, size_t answer_length);

void rz_layer(size_t k, size_t rate, size_t step, const uint64_t *store, size_t store_length,
              size_t i, uint64_t *answer, size_t answer_length);

void rz_judge(size_t k, size_t rate, size_t step, uint64_t offset, const uint64_t *basis,
              size_t basis_length, const uint64_t *challenges, size_t challenges_length,
              const uint64_t *queries, size_t queries_length, const uint64_t *word,
              size_t word_length, const uint64_t *store, size_t store_length,
              const uint64_t *last, size_t last_length, uint64_t *answer, size_t answer_length);

void rz_write_transcript(size_t k, size_t rate, size_t step, uint64_t offset,
                         const uint64_t *basis, size_t basis_length, const uint64_t *challenges,
                         size_t challenges_length, const uint64_t *queries, size_t queries_length,
                         const uint64_t *word, size_t word_length, const uint64_t *store,
                         size_t store_length, const uint64_t *last, size_t last_length,
                         uint8_t *bytes, size_t bytes_length, uint64_t *answer,
                         size_t answer_length);

void rz_judge_transcript(const uint8_t *bytes, size_t bytes_length, uint64_t *answer,
                         size_t answer_length);

uint64_t rz_sheet(const uint8_t *bytes, size_t bytes_length, uint8_t *out, size_t out_length);

/* 8. THE FUNCTIONS OF PART 6, MADE OF THOSE OF PART 7
 *
 * Each presets the five numbers, calls the raw function unless a pointer is missing, and names
 * what stands there then; for the sheet, the length is RZ_NONE where a pointer is missing, and for
 * the inversion of a list there are no numbers. */

static inline int rz_accepted(struct rz_answer verdict) {
    return verdict.number == RZ_ACCEPTED;
}

static inline int rz_done(struct rz_answer answer) {
    return answer.number == RZ_ACCEPTED;
}

static inline struct rz_list rz_list_of(const uint64_t *entries, size_t length) {
    struct rz_list list;

    list.entries = entries;
    list.length = length;
    return list;
}

static inline struct rz_output rz_output_of(uint64_t *entries, size_t length) {
    struct rz_output output;

    output.entries = entries;
    output.length = length;
    return output;
}

static inline struct rz_answer rz_answer_of(const uint64_t *numbers) {
    struct rz_answer answer;

    answer.number = numbers[0];
    answer.place = numbers[1];
    answer.round = numbers[2];
    answer.reads = numbers[3];
    answer.value = numbers[4];
    return answer;
}

/* Whether there are as many entries as the length says, as far as the pointer tells. */
static inline int rz_there(const void *entries, size_t length) {
    return entries != NULL || length == 0;
}

static inline int rz_list_there(struct rz_list list) {
    return rz_there(list.entries, list.length);
}

static inline int rz_output_there(struct rz_output output) {
    return rz_there(output.entries, output.length);
}

static inline int rz_run_there(const struct rz_run *run) {
    return run != NULL && rz_list_there(run->basis) && rz_list_there(run->challenges) &&
           rz_list_there(run->word);
}

/* A pointer that is not null: for a list without entries, to a number that is never read. */
static inline const uint64_t *rz_entries(struct rz_list list) {
    static const uint64_t unread = 0;

    return list.entries == NULL ? &unread : list.entries;
}

/* The same for a list that is written to. */
static inline uint64_t *rz_room(struct rz_output output) {
    static uint64_t unwritten = 0;

    return output.entries == NULL ? &unwritten : output.entries;
}

/* The same for bytes that are read. */
static inline const uint8_t *rz_bytes(const uint8_t *bytes) {
    static const uint8_t unread = 0;

    return bytes == NULL ? &unread : bytes;
}

/* The same for bytes that are written to. */
static inline uint8_t *rz_bytes_room(uint8_t *bytes) {
    static uint8_t unwritten = 0;

    return bytes == NULL ? &unwritten : bytes;
}

static inline struct rz_answer rz_inverse_answer(uint64_t a) {
    uint64_t numbers[RZ_ANSWER_LENGTH] = RZ_NO_ANSWER;

    rz_inverse(a, numbers, RZ_ANSWER_LENGTH);
    return rz_answer_of(numbers);
}

static inline void rz_invert_list(struct rz_output list) {
    if (rz_output_there(list)) {
        rz_invert(rz_room(list), list.length);
    }
}

static inline struct rz_answer rz_encode_answer(uint64_t offset, struct rz_list basis,
                                                struct rz_list coefficients,
                                                struct rz_output values) {
    uint64_t numbers[RZ_ANSWER_LENGTH] = RZ_NO_ANSWER;

    if (rz_list_there(basis) && rz_list_there(coefficients) && rz_output_there(values)) {
        rz_encode(offset, rz_entries(basis), basis.length, rz_entries(coefficients),
                  coefficients.length, rz_room(values), values.length, numbers, RZ_ANSWER_LENGTH);
    }
    return rz_answer_of(numbers);
}

static inline struct rz_answer rz_interpolate_answer(uint64_t offset, struct rz_list basis,
                                                     struct rz_list word,
                                                     struct rz_output coefficients) {
    uint64_t numbers[RZ_ANSWER_LENGTH] = RZ_NO_ANSWER;

    if (rz_list_there(basis) && rz_list_there(word) && rz_output_there(coefficients)) {
        rz_interpolate(offset, rz_entries(basis), basis.length, rz_entries(word), word.length,
                       rz_room(coefficients), coefficients.length, numbers, RZ_ANSWER_LENGTH);
    }
    return rz_answer_of(numbers);
}

static inline struct rz_answer rz_fold_answer(const struct rz_fold_call *call,
                                              struct rz_output values,
                                              struct rz_output next_basis) {
    uint64_t numbers[RZ_ANSWER_LENGTH] = RZ_NO_ANSWER;

    if (call != NULL && rz_list_there(call->basis) && rz_list_there(call->word) &&
        rz_output_there(values) && rz_output_there(next_basis)) {
        rz_fold(call->k, call->step, call->offset, rz_entries(call->basis), call->basis.length,
                rz_entries(call->word), call->word.length, call->challenge, rz_room(values),
                values.length, rz_room(next_basis), next_basis.length, numbers, RZ_ANSWER_LENGTH);
    }
    return rz_answer_of(numbers);
}

static inline struct rz_answer rz_prove_answer(const struct rz_run *run, struct rz_output store,
                                               struct rz_output last) {
    uint64_t numbers[RZ_ANSWER_LENGTH] = RZ_NO_ANSWER;

    if (rz_run_there(run) && rz_output_there(store) && rz_output_there(last)) {
        rz_prove(run->k, run->rate, run->step, run->offset, rz_entries(run->basis),
                 run->basis.length, rz_entries(run->challenges), run->challenges.length,
                 rz_entries(run->word), run->word.length, rz_room(store), store.length,
                 rz_room(last), last.length, numbers, RZ_ANSWER_LENGTH);
    }
    return rz_answer_of(numbers);
}

static inline struct rz_answer rz_layer_answer(size_t k, size_t rate, size_t step,
                                               struct rz_list store, size_t i) {
    uint64_t numbers[RZ_ANSWER_LENGTH] = RZ_NO_ANSWER;

    if (rz_list_there(store)) {
        rz_layer(k, rate, step, rz_entries(store), store.length, i, numbers, RZ_ANSWER_LENGTH);
    }
    return rz_answer_of(numbers);
}

static inline struct rz_answer rz_judge_answer(const struct rz_run *run, struct rz_list queries,
                                               struct rz_list store, struct rz_list last) {
    uint64_t numbers[RZ_ANSWER_LENGTH] = RZ_NO_ANSWER;

    if (rz_run_there(run) && rz_list_there(queries) && rz_list_there(store) &&
        rz_list_there(last)) {
        rz_judge(run->k, run->rate, run->step, run->offset, rz_entries(run->basis),
                 run->basis.length, rz_entries(run->challenges), run->challenges.length,
                 rz_entries(queries), queries.length, rz_entries(run->word), run->word.length,
                 rz_entries(store), store.length, rz_entries(last), last.length, numbers,
                 RZ_ANSWER_LENGTH);
    }
    return rz_answer_of(numbers);
}

static inline struct rz_answer rz_write_transcript_answer(const struct rz_run *run,
                                                          struct rz_list queries,
                                                          struct rz_list store,
                                                          struct rz_list last, uint8_t *bytes,
                                                          size_t length) {
    uint64_t numbers[RZ_ANSWER_LENGTH] = RZ_NO_ANSWER;

    if (rz_run_there(run) && rz_list_there(queries) && rz_list_there(store) &&
        rz_list_there(last) && rz_there(bytes, length)) {
        rz_write_transcript(run->k, run->rate, run->step, run->offset, rz_entries(run->basis),
                            run->basis.length, rz_entries(run->challenges),
                            run->challenges.length, rz_entries(queries), queries.length,
                            rz_entries(run->word), run->word.length, rz_entries(store),
                            store.length, rz_entries(last), last.length, rz_bytes_room(bytes),
                            length, numbers, RZ_ANSWER_LENGTH);
    }
    return rz_answer_of(numbers);
}

static inline struct rz_answer rz_judge_transcript_answer(const uint8_t *bytes, size_t length) {
    uint64_t numbers[RZ_ANSWER_LENGTH] = RZ_NO_ANSWER;

    if (rz_there(bytes, length)) {
        rz_judge_transcript(rz_bytes(bytes), length, numbers, RZ_ANSWER_LENGTH);
    }
    return rz_answer_of(numbers);
}

static inline uint64_t rz_sheet_into(const uint8_t *bytes, size_t length, uint8_t *out,
                                     size_t room) {
    if (!rz_there(bytes, length) || !rz_there(out, room)) {
        return RZ_NONE;
    }
    return rz_sheet(rz_bytes(bytes), length, rz_bytes_room(out), room);
}

#ifdef __cplusplus
}
#endif

#endif
