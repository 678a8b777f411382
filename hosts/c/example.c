/* Writes the job of example A, reads it, lists it, and checks two sheets of another laboratory against it. With a word, lists that job file instead.
 * The examples in Rust and Python print the same (hosts/rust/examples/example.rs, hosts/python/example.py).
 *
 *     cc example.c $(pkg-config --cflags --libs mass_bench) -o example */
#include <inttypes.h>
#include <stdio.h>

#include "bench.h"

/* Tells why a call is refused. */
static int told(uint64_t refused) {
    fprintf(stderr, "refused %d at %" PRIu64 "\n", BENCH_NUMBER(refused), BENCH_PLACE(refused));
    return 1;
}

/* Lists a job file. One that is refused is listed as that line; the call itself is refused only where `text` is too short. */
static int listed(const uint8_t *file, size_t length) {
    static uint8_t text[BENCH_TEXT];
    uint64_t answer[BENCH_LENGTH_SLOTS];
    uint64_t refused = bench_listing(file, length, text, sizeof text, answer, BENCH_LENGTH_SLOTS);
    if (refused)
        return told(refused);
    return fwrite(text, 1, (size_t)answer[BENCH_LENGTH], stdout) == answer[BENCH_LENGTH] ? 0 : 1;
}

/* Checks a sheet that claims these hundredths, and a spread of 2.23 counts with one degree of freedom. */
static int checked(const uint8_t *file, size_t length, const int64_t *claims, size_t objects) {
    uint64_t answer[BENCH_CHECK_SLOTS];
    uint64_t refused = bench_check_file(file, length, claims, objects, 1, 2.23, 1, answer, BENCH_CHECK_SLOTS);
    if (refused)
        return told(refused);
    if (answer[BENCH_AGREES])
        printf("the sheet agrees\n");
    else if (answer[BENCH_DIFFERS_AT] < objects)
        printf("the sheet differs at object %" PRIu64 "\n", answer[BENCH_DIFFERS_AT]);
    else
        printf("the sheet differs at its spread\n");
    return 0;
}

/* As the program does: the first 8,192 bytes. No valid job is longer. */
static int listed_file(const char *name) {
    static uint8_t bytes[8192];
    FILE *opened = fopen(name, "rb");
    size_t length = opened ? fread(bytes, 1, sizeof bytes, opened) : 0;
    /* A folder opens, but cannot be read: without this it would be listed as an empty job. */
    if (!opened || ferror(opened)) {
        perror(name);
        return 2;
    }
    fclose(opened);
    return listed(bytes, length);
}

int main(int argc, char **argv) {
    if (argc > 1)
        return listed_file(argv[1]);
    static const uint8_t blocks[] = {1, 4, 2, 3};
    static const int32_t readings[] = {11, -3, 4, 1, -8};
    uint8_t file[BENCH_FILE];
    uint64_t length[BENCH_LENGTH_SLOTS];
    /* n 5, flag 0, p 2, m 1; objects 0 and 1, bits 0 and 1, are restrained to 7 counts together. */
    uint64_t refused = bench_write(5, 0, 2, 1, blocks, sizeof blocks, 3, 7, readings, 5, file, sizeof file, length, BENCH_LENGTH_SLOTS);
    if (refused)
        return told(refused);
    printf("written: %" PRIu64 " bytes\n", length[BENCH_LENGTH]);

    int64_t sum[BENCH_READ_SIGNED_SLOTS];
    uint64_t read[BENCH_READ_SLOTS];
    refused = bench_read(file, (size_t)length[BENCH_LENGTH], sum, BENCH_READ_SIGNED_SLOTS, read, BENCH_READ_SLOTS);
    if (refused)
        return told(refused);
    printf("read: n %" PRIu64 ", readings from byte %" PRIu64 ", sum %" PRId64 "\n", read[BENCH_READ_N], read[BENCH_READ_READINGS_AT], sum[BENCH_READ_SUM]);

    static const int64_t right[] = {-30, 730, 190, 50, 510}, wrong[] = {-30, 730, 190, 51, 510};
    int status = listed(file, (size_t)length[BENCH_LENGTH]);
    if (!status)
        status = checked(file, (size_t)length[BENCH_LENGTH], right, 5);
    if (!status)
        status = checked(file, (size_t)length[BENCH_LENGTH], wrong, 5);
    return status;
}
