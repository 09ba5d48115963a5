/* Every call that gray.h declares, so that a wrong declaration is noticed. C passes a number that stands in another's place, or
 * that is cut to 32 bits, without a word; so the numbers of a call all differ (but for the length of a setting, which has to be
 * n), some are over 2^32, and what the calls answer and leave in the lent memory is compared with header.out, which is worked
 * out from documents 01 and 02. The numbers go through variables, so that -Wconversion tells of a parameter that is too narrow.
 * tests/header tells whether a call is left out. From the repository's root, once outside/build has made the library:
 *     cc -Wall -Wextra -Wconversion -Werror -I outside/include -o target/header outside/header.c target/staticlib/libcapi.a
 *     target/header | cmp - outside/header.out */
#include "gray.h"
#include <inttypes.h>
#include <stdio.h>

/* The value of a call, of this type and no other. */
#define VALUE(call) _Generic((call), int64_t: (call))

#define OVER ((uint64_t)1 << 32)

/* Surveys, of which a call takes the first n counts. */
static const uint8_t pond[49] = {5, 3, 4};
static const uint8_t small[49] = {2, 3};
static const uint8_t twos[49] = {2, 2, 2, 2, 2, 2, 2, 2};
static const uint8_t odds[49] = {3, 5, 7};
static const uint8_t wide[49] = {255, 254, 253, 252, 251};
static const uint8_t zero[49] = {2, 0, 3};
/* 31 of these counts make 2^62 settings. */
static const uint8_t many[49] = {4, 4, 4, 4, 4, 4, 4, 4, 4, 4, 4, 4, 4, 4, 4, 4, 4, 4, 4, 4, 4, 4, 4, 4, 4,
                                 4, 4, 4, 4, 4, 4, 2, 2, 2, 2, 2, 2, 2, 2, 2, 2, 2, 2, 2, 2, 2, 2, 2, 2};

/* Memory to lend: the places lent and those behind them all differ, and come as they are here before each call. No half of a
 * count is 0, so one of another width shows. */
enum { MEMORY = 64, GUARD = 3 };
static uint8_t out[MEMORY];
static uint32_t counts_out[MEMORY];
static uint64_t made;

static void fill(void) {
    for (size_t i = 0; i < MEMORY; i++) {
        out[i] = (uint8_t)(0xa0 + i);
        counts_out[i] = 0xa0b0c0d0 + 0x01010101 * (uint32_t)i;
    }
    made = 77;
}

static void print_counts(const char *name, const uint8_t *counts, size_t n) {
    printf("%s ", name);
    for (size_t i = 0; i < n; i++) {
        printf(i ? ".%d" : "%d", counts[i]);
    }
    printf(n ? "" : "none");
}

/* The bytes lent, and a few behind them. */
static void print_lent(size_t len) {
    printf(" |");
    for (size_t i = 0; i < len + GUARD; i++) {
        printf(i == len ? " | %02x" : " %02x", out[i]);
    }
    printf("\n");
}

static void print_run(int64_t value, size_t len) {
    printf(" = %" PRId64 ", made %" PRIu64, value, made);
    print_lent(len);
}

static void size(const uint8_t *radices, size_t n) {
    print_counts("size", radices, n);
    printf(" = %" PRId64 "\n", VALUE(gray_size(radices, n)));
}

static void rank(const uint8_t *radices, size_t n, const uint8_t *word, size_t len) {
    print_counts("rank", radices, n);
    print_counts(", word", word, len);
    printf(" = %" PRId64 "\n", VALUE(gray_rank(radices, n, word, len)));
}

static void word(const uint8_t *radices, size_t n, uint64_t rank, size_t len) {
    fill();
    print_counts("word", radices, n);
    printf(", rank %" PRIu64 " = %" PRId64, rank, VALUE(gray_word(radices, n, rank, out, len)));
    print_lent(len);
}

static void list(const uint8_t *radices, size_t n, uint64_t from, uint64_t count, size_t len) {
    fill();
    print_counts("list", radices, n);
    printf(", from %" PRIu64 ", count %" PRIu64, from, count);
    printf(" = %" PRId64, VALUE(gray_list(radices, n, from, count, out, len)));
    print_lent(len);
}

static void moves(const uint8_t *radices, size_t n, size_t capacity, uint64_t t, size_t len) {
    fill();
    print_counts("moves", radices, n);
    printf(", capacity %zu, t %" PRIu64, capacity, t);
    print_run(VALUE(gray_moves(radices, n, capacity, t, out, len, &made)), len);
}

static void resume_moves(const uint8_t *radices, size_t n, size_t capacity, const uint8_t *word, size_t len, uint64_t t,
                         size_t out_len) {
    fill();
    print_counts("resume_moves", radices, n);
    printf(", capacity %zu", capacity);
    print_counts(", word", word, len);
    printf(", t %" PRIu64, t);
    print_run(VALUE(gray_resume_moves(radices, n, capacity, word, len, t, out, out_len, &made)), out_len);
}

static void towers(const uint8_t *radices, size_t n, uint64_t t, size_t len) {
    fill();
    print_counts("towers", radices, n);
    printf(", t %" PRIu64, t);
    print_run(VALUE(gray_towers(radices, n, t, out, len, &made)), len);
}

static void log_write(const uint8_t *radices, size_t n, size_t capacity, uint64_t moves, size_t len) {
    fill();
    print_counts("log_write", radices, n);
    printf(", capacity %zu, moves %" PRIu64, capacity, moves);
    printf(" = %" PRId64, VALUE(gray_log_write(radices, n, capacity, moves, out, len)));
    print_lent(len);
}

static void log_read(const uint8_t *log, size_t len) {
    print_counts("log_read", log, len);
    printf(" = %" PRId64 "\n", VALUE(gray_log_read(log, len)));
}

/* Lines, with a / for each newline. */
static void print_file(const char *name, const uint8_t *file, size_t len) {
    printf("%s ", name);
    for (size_t i = 0; i < len; i++) {
        putchar(file[i] == '\n' ? '/' : file[i]);
    }
    printf(len ? "" : "none");
}

static void tide_counts(const uint8_t *file, size_t len, size_t room) {
    fill();
    print_file("tide_counts", file, len);
    printf(" = %" PRId64 " |", VALUE(gray_tide_counts(file, len, counts_out, room)));
    for (size_t i = 0; i < room + GUARD; i++) {
        printf(i == room ? " | %08" PRIx32 : " %08" PRIx32, counts_out[i]);
    }
    printf("\n");
}

static void tide_may_begin(const uint8_t *file, size_t len, uint64_t minute) {
    print_file("tide_may_begin", file, len);
    printf(", minute %" PRIu64 " = %" PRId64 "\n", minute, VALUE(gray_tide_may_begin(file, len, minute)));
}

int main(void) {
    size(pond, 3);
    size(pond, 2);
    size(many, 31);
    size(many, 0);
    size(many, 49);
    size(zero, 3);
    size(many, 32);

    const uint8_t setting[49] = {3, 2, 1}, far[49] = {201, 17, 0, 250, 3}, near_end[49] = {4, 2, 2},
                  later[49] = {0, 1, 1};
    rank(pond, 3, setting, 3);
    rank(wide, 5, far, 5);
    rank(pond, 0, setting, 3);
    rank(zero, 3, setting, 3);
    rank(many, 32, setting, 3);
    rank(pond, 3, setting, 0);
    rank(pond, 3, setting, 2);
    rank(pond, 3, pond, 3);

    word(pond, 3, 17, 5);
    word(pond, 3, 59, 4);
    word(wide, 5, OVER + 17, 7);
    word(many, 49, 17, 5);
    word(zero, 3, 17, 5);
    word(many, 32, 17, 5);
    word(pond, 3, 60, 5);
    word(pond, 3, OVER + 17, 5);
    word(pond, 3, 17, 2);

    list(pond, 3, 7, 2, 9);
    list(wide, 5, OVER + 17, 2, 11);
    list(pond, 3, 60, 0, 4);
    list(many, 49, 7, 2, 9);
    list(zero, 3, 7, 2, 9);
    list(many, 32, 7, 2, 9);
    list(pond, 3, 58, 4, 13);
    list(pond, 3, 7, OVER + 2, 9);
    list(pond, 3, 7, 4, 11);

    moves(pond, 3, 2, 5, 7);
    moves(small, 2, 1, 8, 9);
    moves(twos, 3, 1, 9, 11);
    moves(many, 49, 2, 5, 7);
    moves(zero, 3, 2, 5, 7);
    moves(many, 32, 2, 5, 7);
    moves(pond, 3, 0, 5, 7);
    moves(pond, 3, 33, 5, 7);
    moves(pond, 3, OVER + 2, 5, 7);
    moves(pond, 3, 2, 5, 4);
    moves(pond, 3, 2, OVER + 5, 7);

    resume_moves(pond, 3, 2, setting, 3, 4, 6);
    resume_moves(pond, 3, 2, near_end, 3, 5, 7);
    resume_moves(twos, 8, 1, later, 8, 14, 15);
    resume_moves(pond, 0, 2, setting, 3, 4, 6);
    resume_moves(zero, 3, 2, setting, 3, 4, 6);
    resume_moves(many, 32, 2, setting, 3, 4, 6);
    resume_moves(pond, 3, 33, setting, 3, 4, 6);
    resume_moves(pond, 3, OVER + 2, setting, 3, 4, 6);
    resume_moves(pond, 3, 2, setting, 0, 4, 6);
    resume_moves(pond, 3, 2, setting, 2, 4, 6);
    resume_moves(pond, 3, 2, pond, 3, 4, 6);
    resume_moves(pond, 3, 2, setting, 3, 6, 5);
    resume_moves(pond, 3, 2, setting, 3, OVER + 4, 6);

    towers(odds, 3, 8, 10);
    towers(twos, 2, 9, 11);
    towers(many, 49, 4, 6);
    towers(zero, 3, 4, 6);
    towers(many, 32, 4, 6);
    towers(pond, 3, 4, 6);
    towers(odds, 3, 6, 5);
    towers(odds, 3, OVER + 4, 6);

    log_write(pond, 3, 2, 5, 24);
    log_write(small, 2, 1, 5, 30);
    log_write(many, 49, 2, 5, 24);
    log_write(zero, 3, 2, 5, 24);
    log_write(many, 32, 2, 5, 24);
    log_write(pond, 3, 33, 5, 24);
    log_write(pond, 3, OVER + 2, 5, 24);
    log_write(pond, 3, 2, 60, 24);
    log_write(pond, 3, 2, OVER + 5, 24);
    log_write(pond, 3, 2, 5, 21);

    /* document 01's log of five moves of the survey 2 3, and logs of no move */
    const uint8_t five[] = {1, 2, 1, 2, 1, 3, 2, 2, 2, 3, 1, 3, 1, 3, 2, 3, 0x81, 3, 0x81, 4, 0, 0, 0, 0, 0, 0, 0, 5};
    const uint8_t no_sluice[] = {1, 0, 1}, no_notch[] = {1, 1, 1, 2, 1, 0}, no_place[] = {1, 1, 0, 2, 1, 3};
    const uint8_t too_many[] = {1,   8, 4, 2,   1, 255, 2,   2, 255, 2,   3, 255, 2,  4,
                                255, 2, 5, 255, 2, 6,   255, 2, 7,   255, 2, 8,   255};
    log_read(five, 28);
    log_read(five, 17);
    log_read(five, 9);
    log_read(five, 18);
    log_read(no_sluice, 3);
    log_read(no_notch, 6);
    log_read(too_many, 27);
    log_read(no_place, 6);
    log_read(five, 19);

    /* five lines of 19 bytes, with two windows: the second is of two years, so that its moves are over 2^16 */
    const uint8_t tides[] = "2031-04-07,05:12,H\n2031-04-07,11:20,L\n2031-04-07,17:31,H\n"
                            "2033-04-08,00:02,L\n2033-04-08,06:00,H\n";
    const uint8_t equal[] = "2031-04-07,05:12,H\n2031-04-07,05:12,L\n2031-04-07,11:20,H\n2031-02-29,11:21,L\n";
    const uint64_t first = 16443732, last = 16444036;
    tide_counts(tides, 95, 4);
    tide_counts(tides, 95, 2);
    tide_counts(tides, 38, 3);
    tide_counts(tides, 19, 2);
    tide_counts(tides, 0, 2);
    tide_counts(tides, 94, 4);
    tide_counts(equal, 76, 5);
    tide_counts(equal, 57, 5);
    tide_counts(equal, 38, 0);
    tide_counts(tides, 95, 1);
    tide_counts(tides, 95, 0);

    tide_may_begin(tides, 95, first - 1);
    tide_may_begin(tides, 95, first);
    tide_may_begin(tides, 38, last);
    tide_may_begin(tides, 38, last + 1);
    tide_may_begin(tides, 57, OVER + first);
    tide_may_begin(tides, 57, UINT64_MAX - 3);
    tide_may_begin(tides, 0, first);
    tide_may_begin(tides, 94, first);
    tide_may_begin(equal, 76, first);
    tide_may_begin(equal, 57, OVER + first);
    return 0;
}
