/* The bench by its header, asked in words: tests/count/host.rs has the protocol. A new call is a ROW of `made`, a new kind of argument one of LISTS or NUMBERS. */
#define _POSIX_C_SOURCE 200809L
#include <inttypes.h>
#include <pthread.h>
#include <stdio.h>
#include <stdlib.h>
#include <string.h>

#include "bench.h"

/* What requests take: lists with the type of an entry, and numbers, signed ones modulo 2^64. */
#define LISTS(X) X(blocks, uint8_t) X(groups, uint8_t) X(bytes, uint8_t) X(names, uint8_t) X(readings, int32_t) X(truths, int32_t) X(claims, int64_t) X(lengths, size_t)
#define NUMBERS(X) \
    X(n) X(flag) X(p) X(m) X(set) X(sum) X(number) X(place) X(tag) X(length) X(g) X(count) X(v) X(has_spread) X(spread) X(freedom) X(start) X(width)

struct asked {
#define X(name, type) type *name; size_t name##_length;
    LISTS(X)
#undef X
#define X(name) uint64_t name;
    NUMBERS(X)
#undef X
};

/* The rooms and slots, each enough for every job. */
struct rooms {
    uint64_t words[BENCH_WORDS], table[BENCH_TABLE], answer[BENCH_SOLVE_SLOTS];
    int64_t values[BENCH_VALUES], hundredths[BENCH_VALUES], deviations[BENCH_DEVIATIONS], signed_slots[BENCH_VALUE_SIGNED_SLOTS];
    int32_t readings[BENCH_DEVIATIONS];
    uint8_t out[BENCH_TEXT];
    double real[BENCH_VALUE_REAL_SLOTS];
};

static void no_room(void) {
    fprintf(stderr, "no memory, or a request that is none\n");
    exit(2);
}

/* A word of a request: NAME=NUMBER or NAME:ENTRY,ENTRY,.. */
static void take(struct asked *a, char *word) {
    char *at = word + strcspn(word, "=:");
    char kind = *at;
    *at++ = 0;
    size_t entries = 1;
    for (char *comma = at; *comma; comma++)
        entries += *comma == ',';
#define ENTRY strtoull(at, &at, 10)
#define X(key, type) \
    if (kind == ':' && !strcmp(word, #key)) { \
        a->key = malloc(entries * sizeof(type)); \
        if (!a->key) \
            no_room(); \
        for (; *at; at += *at == ',') \
            a->key[a->key##_length++] = (type)ENTRY; \
        return; \
    }
    LISTS(X)
#undef X
#define X(key) \
    if (kind == '=' && !strcmp(word, #key)) { \
        a->key = ENTRY; \
        return; \
    }
    NUMBERS(X)
#undef X
    no_room();
}

/* Entries that a call wrote. */
#define PUT(room, length) \
    do { \
        size_t put_length = (size_t)(length); \
        for (size_t i = 0; i < put_length; i++) \
            fprintf(out, "%s%" PRIu64, i ? "," : " ", (uint64_t)(room)[i]); \
        if (!put_length) \
            fprintf(out, " "); \
    } while (0)
static void put_reals(FILE *out, const double *reals, size_t length) {
    uint64_t bits[BENCH_VALUE_REAL_SLOTS];
    memcpy(bits, reals, length * sizeof *reals);
    PUT(bits, length);
}

/* Makes a call, and puts what it wrote. */
static uint64_t made(const char *call, const struct asked *a, struct rooms *r, FILE *out) {
    double spread;
    memcpy(&spread, &a->spread, sizeof spread);
    uint64_t b = a->m * a->n, v = a->n + a->flag % 2;
#define LIST(name) a->name, a->name##_length
#define ROOM(name) r->name, sizeof r->name / sizeof *r->name
#define HEAD a->n, a->flag, a->p, a->m
#define DESIGN HEAD, LIST(blocks)
#define WEIGHED DESIGN, LIST(readings)
#define RESTRAINT a->set, (int64_t)a->sum
#define JOB WEIGHED, RESTRAINT
#define FILED LIST(bytes)
#define SHEET LIST(claims), a->has_spread, spread, a->freedom
#define PRACTICE DESIGN, LIST(truths), (uint32_t)a->start, a->width
#define SLOTS(count) PUT(r->answer, count)
#define SIGNED(count) PUT(r->signed_slots, count)
#define WHOLE ROOM(words), ROOM(values), ROOM(deviations), ROOM(answer), ROOM(real)
#define WHOLE_PUT \
    PUT(r->words, 2 * r->answer[BENCH_B]); \
    PUT(r->values, r->answer[BENCH_V]); \
    PUT(r->deviations, r->answer[BENCH_B]); \
    SLOTS(BENCH_SOLVE_SLOTS); \
    put_reals(out, r->real, BENCH_SOLVE_REAL_SLOTS)
#define TEXT ROOM(out), ROOM(answer)
#define TEXT_PUT PUT(r->out, r->answer[BENCH_LENGTH]); SLOTS(BENCH_LENGTH_SLOTS)
#define SPREAD_PUT SLOTS(BENCH_SPREAD_SLOTS); put_reals(out, r->real, BENCH_SPREAD_REAL_SLOTS)
#define ROW(name, taken, put) \
    if (!strcmp(call, #name)) { \
        uint64_t returned = name taken; \
        if (!returned) { \
            put; \
        } \
        return returned; \
    }
    ROW(bench_pairs_refusal, (DESIGN), (void)0)
    ROW(bench_develop, (DESIGN, ROOM(words)), PUT(r->words, 2 * b))
    ROW(bench_develop_initial, (DESIGN, a->number, ROOM(words)), PUT(r->words + 2 * a->n * a->number, 2 * a->n))
    ROW(bench_company, (DESIGN, ROOM(table)), PUT(r->table, BENCH_TABLE))
    ROW(bench_opposition, (DESIGN, ROOM(table)), PUT(r->table, BENCH_TABLE))
    ROW(bench_judge, (DESIGN, ROOM(answer)), SLOTS(BENCH_JUDGE_SLOTS))
    ROW(bench_judge_by_differences, (DESIGN, ROOM(answer)), SLOTS(BENCH_JUDGE_SLOTS))
    ROW(bench_grouped, (a->count, a->v, a->p, LIST(blocks), LIST(groups), ROOM(answer)), SLOTS(BENCH_GROUPED_SLOTS))
    ROW(bench_group_base, (DESIGN, a->g, ROOM(words), ROOM(answer)), PUT(r->words, 2 * b); SLOTS(BENCH_GROUP_SLOTS))
    ROW(bench_total, (WEIGHED, a->number, ROOM(signed_slots)), SIGNED(BENCH_TOTAL_SIGNED_SLOTS))
    ROW(bench_sum_of_squares, (HEAD, LIST(readings), ROOM(answer)), SLOTS(BENCH_SUM_SLOTS))
    ROW(bench_sum_of_squared_totals, (WEIGHED, ROOM(answer)), SLOTS(BENCH_SUM_SLOTS))
    ROW(bench_refusal, (JOB), (void)0)
    ROW(bench_values, (JOB, ROOM(values)), PUT(r->values, v))
    ROW(bench_value_of, (JOB, a->number, ROOM(signed_slots), ROOM(answer), ROOM(real)),
        SIGNED(BENCH_VALUE_SIGNED_SLOTS); SLOTS(BENCH_VALUE_SLOTS); put_reals(out, r->real, BENCH_VALUE_REAL_SLOTS))
    ROW(bench_uncertainty_of, (JOB, a->number, ROOM(answer), ROOM(real)),
        SLOTS(BENCH_UNCERTAINTY_SLOTS); put_reals(out, r->real, BENCH_UNCERTAINTY_REAL_SLOTS))
    ROW(bench_published, (JOB, ROOM(hundredths)), PUT(r->hundredths, v))
    ROW(bench_deviations, (WEIGHED, ROOM(deviations)), PUT(r->deviations, b))
    ROW(bench_deviation_of, (WEIGHED, a->number, ROOM(signed_slots), ROOM(answer)), SIGNED(BENCH_DEVIATION_SIGNED_SLOTS); SLOTS(BENCH_DEVIATION_SLOTS))
    ROW(bench_q, (WEIGHED, ROOM(answer)), SLOTS(BENCH_SUM_SLOTS))
    ROW(bench_spread, (WEIGHED, ROOM(answer), ROOM(real)), SPREAD_PUT)
    ROW(bench_analyse, (JOB, WHOLE), WHOLE_PUT)
    ROW(bench_field_at, (FILED, a->place, (uint8_t)a->tag, a->length, ROOM(answer)), SLOTS(BENCH_FIELD_SLOTS))
    ROW(bench_read, (FILED, ROOM(signed_slots), ROOM(answer)), SIGNED(BENCH_READ_SIGNED_SLOTS); SLOTS(BENCH_READ_SLOTS))
    ROW(bench_solve, (FILED, WHOLE), WHOLE_PUT)
    ROW(bench_write, (DESIGN, RESTRAINT, LIST(readings), TEXT), TEXT_PUT)
    ROW(bench_listing, (FILED, TEXT), TEXT_PUT)
    ROW(bench_certificate, (FILED, TEXT), TEXT_PUT)
    ROW(bench_card, (FILED, TEXT), TEXT_PUT)
    ROW(bench_read_second, (FILED, ROOM(signed_slots), ROOM(answer)), SIGNED(BENCH_READ_SIGNED_SLOTS); SLOTS(BENCH_READ_SECOND_SLOTS))
    ROW(bench_solve_second, (FILED, WHOLE), WHOLE_PUT)
    ROW(bench_write_second, (DESIGN, RESTRAINT, LIST(readings), LIST(names), TEXT), TEXT_PUT)
    ROW(bench_to_second, (FILED, TEXT), TEXT_PUT)
    ROW(bench_to_first, (FILED, TEXT), TEXT_PUT)
    ROW(bench_listing_second, (FILED, TEXT), TEXT_PUT)
    ROW(bench_certificate_second, (FILED, TEXT), TEXT_PUT)
    ROW(bench_card_second, (FILED, TEXT), TEXT_PUT)
    ROW(bench_check_parts, (JOB, SHEET, ROOM(answer)), SLOTS(BENCH_CHECK_SLOTS))
    ROW(bench_check_file, (FILED, SHEET, ROOM(answer)), SLOTS(BENCH_CHECK_SLOTS))
    ROW(bench_check_second, (FILED, SHEET, ROOM(answer)), SLOTS(BENCH_CHECK_SLOTS))
    ROW(bench_practice, (PRACTICE, ROOM(readings)), PUT(r->readings, b))
    ROW(bench_practice_file, (PRACTICE, a->set, TEXT), TEXT_PUT)
    ROW(bench_pool, (FILED, LIST(lengths), ROOM(answer), ROOM(real)), SPREAD_PUT)
    fprintf(stderr, "there is no row for %s\n", call);
    exit(2);
}

/* The answer to a request. */
static char *answer(char *request) {
    struct asked a = {0};
    char *rest = NULL, *call = strtok_r(request, " \n", &rest), *text = NULL;
    for (char *word; (word = strtok_r(NULL, " \n", &rest));)
        take(&a, word);
    struct rooms *rooms = calloc(1, sizeof *rooms);
    size_t length;
    FILE *out = open_memstream(&text, &length);
    if (!call || !rooms || !out)
        no_room();
    fprintf(out, "accepted");
    uint64_t refused = made(call, &a, rooms, out);
    if (refused) {
        rewind(out);
        fprintf(out, "refused %d %d %" PRIu64, BENCH_NUMBER(refused), BENCH_INDEX(refused), BENCH_PLACE(refused));
    }
    fclose(out);
    free(rooms);
#define X(name, type) free(a.name);
    LISTS(X)
#undef X
    return text;
}

/* Every fourth request, from `first` on. */
enum { THREADS = 4 };
struct share {
    char **requests, **answers;
    size_t first, count;
};
static void *answered(void *taken) {
    struct share *share = taken;
    for (size_t i = share->first; i < share->count; i += THREADS)
        share->answers[i] = answer(share->requests[i]);
    return NULL;
}

int main(void) {
    char *line = NULL, **requests = NULL, **answers = NULL;
    size_t room = 0, count = 0;
    while (getline(&line, &room, stdin) > 0) {
        if (strcmp(line, "\n")) {
            requests = realloc(requests, (count + 1) * sizeof *requests);
            if (!requests || !(requests[count++] = strdup(line)))
                no_room();
            continue;
        }
        answers = realloc(answers, (count + 1) * sizeof *answers);
        pthread_t several[THREADS];
        struct share shares[THREADS];
        for (size_t i = 0; i < THREADS; i++) {
            shares[i] = (struct share){requests, answers, i, count};
            if (pthread_create(&several[i], NULL, answered, &shares[i]))
                no_room();
        }
        for (size_t i = 0; i < THREADS; i++)
            pthread_join(several[i], NULL);
        for (size_t i = 0; i < count; i++) {
            puts(answers[i]);
            free(answers[i]);
            free(requests[i]);
        }
        fflush(stdout);
        count = 0;
    }
    free(line);
    free(requests);
    free(answers);
    return 0;
}
