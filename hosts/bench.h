/* The mass bench for C: the calls of crates/api/out/libapi.a, which tools/host-archive builds. It is proved for x86-64 Linux.
 *
 * Every call takes any input, ends, and hands back one number: 0 exactly where it accepts, else its refusal,
 *
 *     number + 2^8 * index + 2^16 * place
 *
 * which BENCH_NUMBER, BENCH_INDEX and BENCH_PLACE take apart. The index is that of a job in bench_pool, and 0 in every other call. A place that is
 * the caller's own number, as an object that does not exist, is handed back modulo 2^48.
 *
 * What is lent. A buffer is a pointer and its length in elements. The pointer is not NULL, also where the length is 0, and
 * buffers that a call writes overlap no other buffer of the call. Two kinds of buffer are written:
 *   rooms: `words`, `table`, `values`, `hundredths`, `deviations`, `out`, and `readings` of bench_practice;
 *   slots, after all other arguments: `signed_slots` for signed answers, `answer` for unsigned ones, `real` for doubles.
 *
 * What is written, and when. A call that accepts writes the first entries of its rooms and its own slots, listed below, from the
 * front; later entries stay as they were. A call that is refused writes nowhere, its slots included.
 *
 * no. | given when                                                        | place in a file  | place in another call
 *   1 | a field's three-byte start or its body runs past the end          | field start      | -
 *   2 | another tag stands there                                          | field start      | -
 *   3 | the length is not the one required: of a field; of a slice        | field start      | 0
 *   4 | a size is broken                                                  | field start      | 0
 *   5 | an object is out of range, is the fixed object with flag 0 or 2,  | that byte        | its index in `blocks`
 *     | or was already in its block; then: there is no object, initial    |                  |
 *     | block or block of the number asked for                            | -                | that number
 *   6 | the developed design is unbalanced                                | 0                | 0
 *   7 | the restraint set is empty or has a bit at v or above, or its     | field start      | 0
 *     | accepted sum is out of range                                      |                  |
 *  11 | the restraint set has one object: one standard is too few         | field start      | 0
 *   8 | a reading is out of range                                         | its first byte   | its index in `readings`
 *   9 | bytes follow the fourth field                                     | first such byte  | -
 *  10 | a room is too short, or slots of any kind are too few             | 0                | 0
 *  12 | the edition is not 2                                              | that byte        | -
 *  13 | a file that is moved to the first edition has an optional field   | start of the     | -
 *     |                                                                   | first one        |
 *  14 | groups: g below 2 or g*v above 50; fewer than two groups, or they | -                | 0
 *     | are not of one size of at least 2                                 |                  |
 *  15 | the claims of a sheet are not one for each object                 | 0                | 0
 *  16 | practice: a true value or the width is out of its range           | -                | 0
 *  17 | a pooled job has another v or beta than job 0; its index beside   | -                | 0
 *     | it                                                                |                  |
 *  18 | no jobs to pool, more than 64, or lengths that do not add up      | -                | 0
 * A call that takes no file looks, of what it takes, for 4, then 3, 5, 6, 16, 7, 11, 8. A file is looked at field by field: 1 for the
 * start, 2, 3, 1 for the body; 4 right after the first field; after the fourth 9; then 5, 6, 7, 11, 8. 10 comes last in every call. A file of the
 * second edition is first looked at for its length, 4 at 0, and its edition field, after whose own tests 12; in the place of 9 stand the
 * optional fields, for each 1, 2 (a tag below 80 hexadecimal or not above the one before), 3 (names not 8v bytes), 1. 13 comes after all
 * checks of reading and before 10. A sheet is looked at for 15 after all checks of its job. The calls on groups look for 4, 3, 14, 5, 6,
 * then 10. Jobs that are pooled are looked at for 18, then each for the refusals of a file, then for 17. Development, tables, totals and
 * sums of squares need no balance: no 6. Deviations, Q and spread take no restraint: no 7, no 11.
 *
 * Sizes: n from 3 to 50; flag 0 to 3; v at most 50; p at least 1, 2p at most v; m from 1 to 64; b = m*n at most 1,300; readings within
 * +-200,000,000; the accepted sum within +-1,000,000,000,000.
 * Flag: with 1 and 3 the fixed object takes part and v is n + 1, with 0 and 2 v is n. With 0 and 1 a shift is added modulo n; with 2 and 3
 * by the addition of the field of n elements, and n is one of 8, 9, 16, 25, 27, 32, 49: elements are base-q digits packed into a number, q
 * the prime, the lowest digit first, and each two digits are added modulo q.
 *
 * Calls may be made from several threads at once, each with its own buffers to write: the library keeps nothing between calls.
 * Of the stack, which no proof speaks of, each takes at most this, in KB of 1,000 bytes, with what is passed to it:
 *   122 KB | bench_grouped
 *    82 KB | bench_judge
 *    72 KB | bench_uncertainty_of
 *    62 KB | bench_company, bench_opposition
 *    46 KB | bench_listing, bench_listing_second, bench_certificate, bench_certificate_second, bench_check_file, bench_check_second, bench_pool
 *    41 KB | bench_values, bench_value_of, bench_published, bench_deviation_of, bench_q, bench_spread, bench_check_parts
 *    33 KB | bench_practice_file
 *    29 KB | bench_deviations, bench_practice
 *    26 KB | bench_total, bench_sum_of_squared_totals
 *    14 KB | bench_solve, bench_solve_second, bench_card, bench_card_second, bench_read, bench_read_second, bench_to_second, bench_to_first
 *     8 KB | bench_judge_by_differences, bench_group_base, bench_refusal, bench_analyse, bench_write, bench_write_second
 *     5 KB | bench_develop, bench_develop_initial
 *     1 KB | bench_pairs_refusal, bench_sum_of_squares, bench_field_at
 * A thread that makes any of them needs about 127 KB with what the thread itself takes. That is measured with the archive for x86-64 on
 * every stored job that is accepted, with room and with none (tests/stack/run); it is the same on all of them.
 */
#ifndef BENCH_H
#define BENCH_H

#include <stddef.h>
#include <stdint.h>

#ifdef __cplusplus
extern "C" {
#endif

/* What a call handed back, taken apart. */
#define BENCH_NUMBER(returned) ((int)((returned) & 255))
#define BENCH_INDEX(returned) ((int)((returned) >> 8 & 255))
#define BENCH_PLACE(returned) ((uint64_t)(returned) >> 16)

/* Rooms that are enough for every job. */
enum { BENCH_WORDS = 2600, BENCH_TABLE = 2500, BENCH_VALUES = 50, BENCH_DEVIATIONS = 1300, BENCH_FILE = 6584, BENCH_FILE_SECOND = 16384, BENCH_TEXT = 65536 };

/* `answer` of bench_judge and bench_judge_by_differences; bench_analyse and bench_solve have more behind it. */
enum {
    BENCH_V = 0,  /* objects */
    BENCH_B = 1,  /* blocks */
    BENCH_R = 2,  /* beta(v - 1) */
    BENCH_P = 3,  /* objects a side */
    BENCH_L1 = 4, /* blocks in which two objects share a side */
    BENCH_L2 = 5, /* blocks in which two objects oppose */
    BENCH_JUDGE_SLOTS = 6
};

/* `answer` of bench_analyse and bench_solve, after the six above; `real`[0] is the spread, 0.0 where there is none. */
enum {
    BENCH_DENOMINATOR = 6, /* of every value */
    BENCH_Q_HIGH = 7,      /* Q, v*beta times the sum of squared deviations, is 2^64 times this */
    BENCH_Q_LOW = 8,       /* and this */
    BENCH_VBETA = 9,       /* v*beta, the denominator of every deviation */
    BENCH_FREEDOM = 10,    /* degrees of freedom */
    BENCH_HUNDREDTHS = 11, /* the spread in whole hundredths of a count */
    BENCH_HAS_SPREAD = 12, /* 1 where there is a spread, 0 where there is no degree of freedom */
    BENCH_SOLVE_SLOTS = 13,
    BENCH_SOLVE_REAL_SLOTS = 1
};

/* `answer` of bench_spread: the last six of those; `real`[0] is the spread. */
enum {
    BENCH_SPREAD_Q_HIGH = 0,
    BENCH_SPREAD_Q_LOW = 1,
    BENCH_SPREAD_VBETA = 2,
    BENCH_SPREAD_FREEDOM = 3,
    BENCH_SPREAD_HUNDREDTHS = 4,
    BENCH_SPREAD_HAS_SPREAD = 5,
    BENCH_SPREAD_SLOTS = 6,
    BENCH_SPREAD_REAL_SLOTS = 1
};

/* bench_value_of: `signed_slots`, then `answer`, then `real`. */
enum {
    BENCH_VALUE_NUMERATOR = 0,
    BENCH_VALUE_HUNDREDTHS = 1, /* published: hundredths of a count, as bench_published has them */
    BENCH_VALUE_SIGNED_SLOTS = 2,
    BENCH_VALUE_DENOMINATOR = 0,
    BENCH_VALUE_FACTOR = 1, /* numerator of the variance factor, over the same denominator */
    BENCH_VALUE_SLOTS = 2,
    BENCH_VALUE_REAL = 0,        /* numerator / denominator */
    BENCH_VALUE_REAL_FACTOR = 1, /* factor / denominator */
    BENCH_VALUE_REAL_SLOTS = 2
};

/* bench_uncertainty_of: `answer`, then `real`. */
enum {
    BENCH_UNCERTAINTY_HUNDREDTHS = 0, /* hundredths of a count, 0 where none is stated */
    BENCH_UNCERTAINTY_STATED = 1,     /* 1 where it is stated, 0 where there is no degree of freedom */
    BENCH_UNCERTAINTY_SLOTS = 2,
    BENCH_UNCERTAINTY_REAL = 0, /* hundredths / 100 */
    BENCH_UNCERTAINTY_REAL_SLOTS = 1
};

/* bench_deviation_of: `signed_slots`, then `answer`. bench_total: `signed_slots`. The sums of squares and bench_q: `answer`,
 * a number of two words: 2^64 times the high one, and the low one. */
enum {
    BENCH_DEVIATION_NUMERATOR = 0,
    BENCH_DEVIATION_SIGNED_SLOTS = 1,
    BENCH_DEVIATION_DENOMINATOR = 0,
    BENCH_DEVIATION_SLOTS = 1,
    BENCH_TOTAL = 0,
    BENCH_TOTAL_SIGNED_SLOTS = 1,
    BENCH_SUM_HIGH = 0,
    BENCH_SUM_LOW = 1,
    BENCH_SUM_SLOTS = 2
};

/* bench_field_at: `answer`. bench_read: `signed_slots`, then `answer`. bench_write, bench_practice_file and bench_listing: `answer`. */
enum {
    BENCH_FIELD_BODY = 0, /* where the body starts */
    BENCH_FIELD_NEXT = 1, /* the byte after it */
    BENCH_FIELD_SLOTS = 2,
    BENCH_READ_SUM = 0,
    BENCH_READ_SIGNED_SLOTS = 1,
    BENCH_READ_N = 0,
    BENCH_READ_FLAG = 1,
    BENCH_READ_P = 2,
    BENCH_READ_M = 3,
    BENCH_READ_BLOCKS_AT = 4,   /* the byte at which the initial blocks start */
    BENCH_READ_READINGS_AT = 5, /* the byte at which the readings start */
    BENCH_READ_SET = 6,
    BENCH_READ_SLOTS = 7,
    BENCH_LENGTH = 0, /* the bytes written */
    BENCH_LENGTH_SLOTS = 1
};

/* ---- designs: n elements, the flag (above), p objects a side, m initial blocks. `blocks` has the m initial
 * blocks, each p left objects, then p right ones, a byte each; 255 is the fixed object, which is object n everywhere else. */

/* Why a block list is refused: 4, 3, 5. */
uint64_t bench_pairs_refusal(size_t n, size_t flag, size_t p, size_t m, const uint8_t *blocks, size_t blocks_length);

/* Develops every initial block: 2b words, left word, right word, next shift; bit i of a word is object i. */
uint64_t bench_develop(size_t n, size_t flag, size_t p, size_t m, const uint8_t *blocks, size_t blocks_length,
                       uint64_t *words, size_t words_length);

/* Develops initial block j into its own 2n words, from word 2nj on; the others stay. Room for all 2b is asked for. */
uint64_t bench_develop_initial(size_t n, size_t flag, size_t p, size_t m, const uint8_t *blocks, size_t blocks_length,
                               size_t j, uint64_t *words, size_t words_length);

/* In how many blocks objects i and j share a side, and in how many they oppose: entry 50i + j of BENCH_TABLE. On the diagonal, in
 * how many blocks i stands, and 0. Entries past the objects are 0. */
uint64_t bench_company(size_t n, size_t flag, size_t p, size_t m, const uint8_t *blocks, size_t blocks_length,
                       uint64_t *table, size_t table_length);
uint64_t bench_opposition(size_t n, size_t flag, size_t p, size_t m, const uint8_t *blocks, size_t blocks_length,
                          uint64_t *table, size_t table_length);

/* Judges whether a design is balanced: by its two tables, and by the differences of its initial blocks, which takes less time. Both give the
 * same answer. */
uint64_t bench_judge(size_t n, size_t flag, size_t p, size_t m, const uint8_t *blocks, size_t blocks_length,
                     uint64_t *answer, size_t answer_length);
uint64_t bench_judge_by_differences(size_t n, size_t flag, size_t p, size_t m, const uint8_t *blocks, size_t blocks_length,
                                    uint64_t *answer, size_t answer_length);

/* ---- groups. `answer` of bench_grouped, and of bench_group_base after four others. */
enum {
    BENCH_GROUPED_L11 = 0, /* blocks in which two objects of one group share a side */
    BENCH_GROUPED_L21 = 1, /* blocks in which they oppose */
    BENCH_GROUPED_L12 = 2, /* blocks in which two objects of different groups share a side */
    BENCH_GROUPED_L22 = 3, /* blocks in which they oppose */
    BENCH_GROUPED_SLOTS = 4,
    BENCH_GROUP_V = 0, /* objects of the grouped set: g times v */
    BENCH_GROUP_B = 1, /* blocks */
    BENCH_GROUP_R = 2, /* blocks in which an object stands */
    BENCH_GROUP_P = 3, /* objects a side: g times p */
    BENCH_GROUP_L11 = 4,
    BENCH_GROUP_L21 = 5,
    BENCH_GROUP_L12 = 6,
    BENCH_GROUP_L22 = 7,
    BENCH_GROUP_SLOTS = 8
};

/* Judges `count` blocks (1 to 1,300) of p objects a side over v objects (v at most 50, p at least 1, 2p at most v) with respect to groups. `blocks` has
 * 2*p*count objects, p left and then p right ones for each block, each from 0 to v - 1; 255 is no object here. `groups` has v bytes, the group
 * number of each object: any byte, only whether two are equal counts. Accepts exactly if the four counts are the same for all pairs of their kind.
 * Refusals: 4, 3, 14, 5 at the index of the byte, 6, 10. */
uint64_t bench_grouped(size_t count, size_t v, size_t p, const uint8_t *blocks, size_t blocks_length,
                       const uint8_t *groups, size_t groups_length, uint64_t *answer, size_t answer_length);

/* The grouped set of a balanced design: every object i becomes its g members, gi to gi + g - 1 (g at least 2, g*v at most 50). Writes 2b words of the
 * grouped blocks: left word, right word, next block. Refusals: 4, 3, 14, 5, 6, 10. */
uint64_t bench_group_base(size_t n, size_t flag, size_t p, size_t m, const uint8_t *blocks, size_t blocks_length,
                          size_t g, uint64_t *words, size_t words_length, uint64_t *answer, size_t answer_length);

/* ---- jobs: a design with its readings, b of them, all shifts of the first initial block, then of the second; and a restraint set,
 * of which bit i is object i, two objects at least, with its accepted sum. */

/* The total of one object: the readings with it on the left less those with it on the right. */
uint64_t bench_total(size_t n, size_t flag, size_t p, size_t m, const uint8_t *blocks, size_t blocks_length,
                     const int32_t *readings, size_t readings_length, size_t object,
                     int64_t *signed_slots, size_t signed_slots_length);

/* The sum of the squared readings, which takes no blocks, and that of the squared totals. */
uint64_t bench_sum_of_squares(size_t n, size_t flag, size_t p, size_t m,
                              const int32_t *readings, size_t readings_length,
                              uint64_t *answer, size_t answer_length);
uint64_t bench_sum_of_squared_totals(size_t n, size_t flag, size_t p, size_t m, const uint8_t *blocks, size_t blocks_length,
                                     const int32_t *readings, size_t readings_length,
                                     uint64_t *answer, size_t answer_length);

/* Why a whole job is refused: 4, 3, 5, 6, 7, 11, 8. */
uint64_t bench_refusal(size_t n, size_t flag, size_t p, size_t m, const uint8_t *blocks, size_t blocks_length,
                       const int32_t *readings, size_t readings_length, uint64_t set, int64_t sum);

/* The v numerators of the values. Their denominator is that of bench_value_of and of bench_analyse. */
uint64_t bench_values(size_t n, size_t flag, size_t p, size_t m, const uint8_t *blocks, size_t blocks_length,
                      const int32_t *readings, size_t readings_length, uint64_t set, int64_t sum,
                      int64_t *values, size_t values_length);

/* The value of one object, and its variance factor: the sum of the squares of the coefficients with which the readings enter the
 * value. Its numerator is t - 1 for a member of the restraint, t + 1 for any other object, its denominator that of the value, t*v*beta,
 * not reduced. The variance of the value is the factor times that of one reading: the standard deviation is the spread times its root. */
uint64_t bench_value_of(size_t n, size_t flag, size_t p, size_t m, const uint8_t *blocks, size_t blocks_length,
                        const int32_t *readings, size_t readings_length, uint64_t set, int64_t sum, size_t object,
                        int64_t *signed_slots, size_t signed_slots_length,
                        uint64_t *answer, size_t answer_length,
                        double *real, size_t real_length);

/* The standard uncertainty of one object: the least whole number u of hundredths of a count that is not below 100 times the exact standard deviation of
 * one reading times the root of the variance factor, so that it is never understated: u*u*(t*v*beta)*(v*beta)*f is at least 10,000*Q*factor. None is
 * stated where f is 0. Refused as bench_value_of is. */
uint64_t bench_uncertainty_of(size_t n, size_t flag, size_t p, size_t m, const uint8_t *blocks, size_t blocks_length,
                              const int32_t *readings, size_t readings_length, uint64_t set, int64_t sum, size_t object,
                              uint64_t *answer, size_t answer_length,
                              double *real, size_t real_length);

/* The v published hundredths of a count. Members of the restraint: the whole number at or below 100 times the value; what then lacks
 * to 100*sum is given out one hundredth each, to the largest fractional parts first, the lowest object first among equals. So the
 * members' hundredths add to 100*sum. Other objects: the nearest whole number, an exact half to the even one. */
uint64_t bench_published(size_t n, size_t flag, size_t p, size_t m, const uint8_t *blocks, size_t blocks_length,
                         const int32_t *readings, size_t readings_length, uint64_t set, int64_t sum,
                         int64_t *hundredths, size_t hundredths_length);

/* The b numerators of the deviations. Their denominator is that of bench_deviation_of, v*beta. */
uint64_t bench_deviations(size_t n, size_t flag, size_t p, size_t m, const uint8_t *blocks, size_t blocks_length,
                          const int32_t *readings, size_t readings_length,
                          int64_t *deviations, size_t deviations_length);

/* The deviation of one block. */
uint64_t bench_deviation_of(size_t n, size_t flag, size_t p, size_t m, const uint8_t *blocks, size_t blocks_length,
                            const int32_t *readings, size_t readings_length, size_t block,
                            int64_t *signed_slots, size_t signed_slots_length,
                            uint64_t *answer, size_t answer_length);

/* Q: v*beta times the sum of squared deviations. */
uint64_t bench_q(size_t n, size_t flag, size_t p, size_t m, const uint8_t *blocks, size_t blocks_length,
                 const int32_t *readings, size_t readings_length,
                 uint64_t *answer, size_t answer_length);

/* The spread, with all that it is made from. */
uint64_t bench_spread(size_t n, size_t flag, size_t p, size_t m, const uint8_t *blocks, size_t blocks_length,
                      const int32_t *readings, size_t readings_length,
                      uint64_t *answer, size_t answer_length,
                      double *real, size_t real_length);

/* Everything at once: 2b words, v numerators of the values, b numerators of the deviations, and the slots of BENCH_SOLVE_SLOTS. */
uint64_t bench_analyse(size_t n, size_t flag, size_t p, size_t m, const uint8_t *blocks, size_t blocks_length,
                       const int32_t *readings, size_t readings_length, uint64_t set, int64_t sum,
                       uint64_t *words, size_t words_length,
                       int64_t *values, size_t values_length,
                       int64_t *deviations, size_t deviations_length,
                       uint64_t *answer, size_t answer_length,
                       double *real, size_t real_length);

/* ---- files */

/* The field at a place of some bytes, by its tag and the length that its body must have: 1, 2, 3, 1, each at that place. */
uint64_t bench_field_at(const uint8_t *bytes, size_t bytes_length, size_t place, uint8_t tag, size_t length,
                        uint64_t *answer, size_t answer_length);

/* Reads a job file. */
uint64_t bench_read(const uint8_t *bytes, size_t bytes_length,
                    int64_t *signed_slots, size_t signed_slots_length,
                    uint64_t *answer, size_t answer_length);

/* Works a job file out, as bench_analyse does its parts. */
uint64_t bench_solve(const uint8_t *bytes, size_t bytes_length,
                     uint64_t *words, size_t words_length,
                     int64_t *values, size_t values_length,
                     int64_t *deviations, size_t deviations_length,
                     uint64_t *answer, size_t answer_length,
                     double *real, size_t real_length);

/* Writes the file of a job to the front of `out`, 32 + 2pm + 4b bytes. Reading it gives the job back, and no other bytes do. */
uint64_t bench_write(size_t n, size_t flag, size_t p, size_t m, const uint8_t *blocks, size_t blocks_length,
                     uint64_t set, int64_t sum, const int32_t *readings, size_t readings_length,
                     uint8_t *out, size_t out_length,
                     uint64_t *answer, size_t answer_length);

/* Writes the text that the bench prints for a job file to the front of `out`: its listing, or the line of its refusal. The call
 * itself is refused by 10 alone; BENCH_TEXT bytes are always enough. */
uint64_t bench_listing(const uint8_t *bytes, size_t bytes_length,
                       uint8_t *out, size_t out_length,
                       uint64_t *answer, size_t answer_length);

/* Writes the certificate of a job file to the front of `out`: a text of fixed width with the design, for each weight its number, whether it is a standard,
 * its value and its standard uncertainty in counts, the sum over the standards beside M, and the spread; or the line of its refusal, as bench_listing does.
 * The call itself is refused by 10 alone; BENCH_CERTIFICATE bytes are always enough. */
enum { BENCH_CERTIFICATE = 8192 };
uint64_t bench_certificate(const uint8_t *bytes, size_t bytes_length,
                           uint8_t *out, size_t out_length,
                           uint64_t *answer, size_t answer_length);

/* Writes the card of a job file to the front of `out`: the text from which the same job is read, a line for each thing; or the line of its refusal, as
 * bench_listing does. The call itself is refused by 10 alone; BENCH_TEXT bytes are always enough. */
uint64_t bench_card(const uint8_t *bytes, size_t bytes_length,
                    uint8_t *out, size_t out_length,
                    uint64_t *answer, size_t answer_length);

/* ---- files of the second edition, at most 16,384 bytes: the field 10 00 01 02 (hexadecimal), the four fields, then optional fields with
 * rising tags from 80 hexadecimal on. Tag 80 holds the names, eight bytes for each object, filled with spaces, in object order; others are
 * kept and skipped. */

/* Reads a file: `signed_slots` and `answer` as of bench_read, places in this file, and in BENCH_NAMES_AT the byte at which the names start,
 * 0 where there are none. */
enum { BENCH_NAMES_AT = 7, BENCH_READ_SECOND_SLOTS = 8, BENCH_NAME = 8 };
uint64_t bench_read_second(const uint8_t *bytes, size_t bytes_length,
                           int64_t *signed_slots, size_t signed_slots_length,
                           uint64_t *answer, size_t answer_length);

/* Works a file out, as bench_solve does. */
uint64_t bench_solve_second(const uint8_t *bytes, size_t bytes_length,
                            uint64_t *words, size_t words_length,
                            int64_t *values, size_t values_length,
                            int64_t *deviations, size_t deviations_length,
                            uint64_t *answer, size_t answer_length,
                            double *real, size_t real_length);

/* Writes the file of a job to the front of `out`, 36 + 2pm + 4b bytes and, where there are names, 3 + 8v more. `names` is empty, or has eight
 * bytes for each object, else 3. */
uint64_t bench_write_second(size_t n, size_t flag, size_t p, size_t m, const uint8_t *blocks, size_t blocks_length,
                            uint64_t set, int64_t sum, const int32_t *readings, size_t readings_length,
                            const uint8_t *names, size_t names_length,
                            uint8_t *out, size_t out_length,
                            uint64_t *answer, size_t answer_length);

/* Moves a file of the first edition to the second: four bytes more. Moves one of the second to the first, 13 where it has an optional field.
 * There and back gives the same bytes. */
uint64_t bench_to_second(const uint8_t *bytes, size_t bytes_length,
                         uint8_t *out, size_t out_length,
                         uint64_t *answer, size_t answer_length);
uint64_t bench_to_first(const uint8_t *bytes, size_t bytes_length,
                        uint8_t *out, size_t out_length,
                        uint64_t *answer, size_t answer_length);

/* Writes the text for a file to the front of `out`, as bench_listing does: the listing of its job, without the names. */
uint64_t bench_listing_second(const uint8_t *bytes, size_t bytes_length,
                              uint8_t *out, size_t out_length,
                              uint64_t *answer, size_t answer_length);

/* Writes the certificate of a file to the front of `out`, as bench_certificate does, with the names: a byte other than ! to ~, and # and \, as \xNN, and
 * without the spaces that fill a name up. */
uint64_t bench_certificate_second(const uint8_t *bytes, size_t bytes_length,
                                  uint8_t *out, size_t out_length,
                                  uint64_t *answer, size_t answer_length);

/* Writes the card of a file to the front of `out`, as bench_card does, with the names as on certificates and each other optional field in base 16. */
uint64_t bench_card_second(const uint8_t *bytes, size_t bytes_length,
                           uint8_t *out, size_t out_length,
                           uint64_t *answer, size_t answer_length);

/* ---- sheets of another laboratory: for each object of a job the hundredths of a count that are claimed for it, and a claimed spread: where `has_spread`
 * is 0 the sheet claims that there is none, and the next two are not looked at; else the spread `spread` with `freedom` degrees of freedom.
 * The refusals are those of reading the job, then 15 where the claims are not v, then 10 for the slots. A difference is an answer and no refusal. */

/* Checks a sheet against the published hundredths and the spread of its job, given by its parts, as a file, and as a file of the second edition.
 * `answer`: in BENCH_AGREES 1 where every claim is right, else 0; in BENCH_DIFFERS_AT the first object whose claim differs, v where only the spread does,
 * 0 where the sheet agrees. A claimed spread is right where it equals the job's f64 as a number (no NaN does, -0.0 equals 0.0) with the same degrees of
 * freedom; none is right only where the job has 0 degrees of freedom. */
enum { BENCH_AGREES = 0, BENCH_DIFFERS_AT = 1, BENCH_CHECK_SLOTS = 2 };
uint64_t bench_check_parts(size_t n, size_t flag, size_t p, size_t m, const uint8_t *blocks, size_t blocks_length,
                           const int32_t *readings, size_t readings_length, uint64_t set, int64_t sum,
                           const int64_t *claims, size_t claims_length, uint64_t has_spread, double spread, uint64_t freedom,
                           uint64_t *answer, size_t answer_length);
uint64_t bench_check_file(const uint8_t *bytes, size_t bytes_length,
                          const int64_t *claims, size_t claims_length, uint64_t has_spread, double spread, uint64_t freedom,
                          uint64_t *answer, size_t answer_length);
uint64_t bench_check_second(const uint8_t *bytes, size_t bytes_length,
                            const int64_t *claims, size_t claims_length, uint64_t has_spread, double spread, uint64_t freedom,
                            uint64_t *answer, size_t answer_length);
/* ---- practice: readings from weights whose values are known. `truths` has the true value of each object, v of them, within +-3,000 counts;
 * `start` is any 32-bit number; `width` is from 0 to 8. Reading k is the left sum of the true values less the right sum, plus noise. A number
 * x, at first `start`, is turned into 1664525*x + 1013904223 modulo 2^32 once per block, before it is used; the noise is its top `width` bits
 * less half of their range, and 0 where `width` is 0. No reading is farther from 0 than 150,128. */

/* The b practice readings: 4, 3 (blocks, then true values), 5, 6, 16, and 10 where there is no room for b readings. */
uint64_t bench_practice(size_t n, size_t flag, size_t p, size_t m, const uint8_t *blocks, size_t blocks_length,
                        const int32_t *truths, size_t truths_length, uint32_t start, size_t width,
                        int32_t *readings, size_t readings_length);

/* Writes the file of a practice job to the front of `out`, as bench_write does: those readings, the restraint set, and for the accepted sum
 * the true sum over the set. 4, 3, 5, 6, 16, 7, 11, 10. With width 0 the exact values of the job are the true values. */
uint64_t bench_practice_file(size_t n, size_t flag, size_t p, size_t m, const uint8_t *blocks, size_t blocks_length,
                             const int32_t *truths, size_t truths_length, uint32_t start, size_t width, uint64_t set,
                             uint8_t *out, size_t out_length,
                             uint64_t *answer, size_t answer_length);
/* ---- several jobs */

/* The pooled spread of 1 to 64 files of the first edition, laid end to end in `bytes`; `lengths` has the length of each, and they add to
 * bytes_length. All have v and beta of job 0; p may differ. `answer` and `real` are laid out as those of bench_spread: the sum of Q in two words, v*beta
 * of job 0, the sum of f, the pooled hundredths by the rule of one job, whether there is a spread; the spread, 0.0 where the sum of f is 0. The
 * order of the jobs makes no difference, and one job gives what bench_spread gives of it.
 * Refused, in this order: 18, index 0, place 0, for no jobs, more than 64, or lengths that do not add to bytes_length; the first bad
 * job's own number, its index in BENCH_INDEX and its place from its own start (a length of 0 is 1 at 0); 17, place 0, with the index of the first job
 * whose v or beta differs from job 0's; 10, index 0, for too few slots. */
enum { BENCH_POOL = 64 };
uint64_t bench_pool(const uint8_t *bytes, size_t bytes_length, const size_t *lengths, size_t lengths_length,
                    uint64_t *answer, size_t answer_length,
                    double *real, size_t real_length);

#ifdef __cplusplus
}
#endif

#endif
