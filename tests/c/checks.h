/* What the programs in this folder share: a count of checks, and the text of case 1. */
#ifndef CHECKS_H
#define CHECKS_H

#include "noughtelm.h"
#include <inttypes.h>
#include <stdio.h>
#include <string.h>

static unsigned passed, failed;

static inline void holds(const char *what, bool so)
{
    if (so) {
        passed++;
    } else {
        failed++;
        printf("%s: does not hold\n", what);
    }
}

static inline void number_is(const char *what, uint64_t got, uint64_t expected)
{
    if (got == expected) {
        passed++;
    } else {
        failed++;
        printf("%s: %" PRIu64 ", expected %" PRIu64 "\n", what, got, expected);
    }
}

/* So many cells of two lists are the same. */
static inline void cells_are(const char *what, const uint64_t *got, const uint64_t *expected,
                             size_t count)
{
    for (size_t i = 0; i < count; i++) {
        number_is(what, got[i], expected[i]);
    }
}

static inline void bytes_are(const char *what, const void *got, const void *expected, size_t count)
{
    holds(what, memcmp(got, expected, count) == 0);
}

/* Every byte of two boards is the same; there is nothing between the fields. */
static inline void board_is(const char *what, const noughtelm_board *got,
                            const noughtelm_board *expected)
{
    bytes_are(what, got, expected, sizeof *got);
}

static inline void told_is(const char *what, noughtelm_told got, uint64_t number, uint64_t place,
                           uint64_t value)
{
    number_is(what, got.number, number);
    number_is(what, got.place, place);
    number_is(what, got.value, value);
}

static inline noughtelm_told told_of(const noughtelm_answer *answer)
{
    noughtelm_told told = {answer->number, answer->place, answer->value};
    return told;
}

static inline void totals_are(const char *what, noughtelm_totals got, uint64_t number,
                              uint64_t place, uint64_t weight, uint64_t total)
{
    number_is(what, got.number, number);
    number_is(what, got.place, place);
    number_is(what, got.weight, weight);
    number_is(what, got.total, total);
}

static inline void comparison_is(const char *what, noughtelm_comparison got, uint64_t number,
                                 uint64_t place, int64_t difference, uint64_t order)
{
    number_is(what, got.number, number);
    number_is(what, got.place, place);
    holds(what, got.difference == difference);
    number_is(what, got.order, order);
}

/* The last line, and the program's status: 0 where something was checked and nothing failed. */
static inline int all_checks(void)
{
    printf("%u passed, %u failed\n", passed, failed);
    return failed > 0 || passed == 0;
}

/* Document 01's text, and what is printed of it by the bid of document 02, R-7. */
#define CASE_1 "K\t2\t1\t10\nA\t1\t100\t2\t60\nA\t1\t90\n"
#define PRINTED_1 "P\t1\t2\t0\nP\t2\t1\t0\nY\t1\t990\nY\t2\t660\nT\t150\t1650\t3\nE\t150\n"

/* The bytes of a string, without the 0 at its end: a list and its number of cells. */
#define TEXT(string) (const uint8_t *)(string), sizeof(string) - 1

/* An opening of items with one place each. */
static inline noughtelm_answer open_ones(uint64_t items, uint64_t p, uint64_t q)
{
    uint64_t counts[NOUGHTELM_MAX_ITEMS];
    const size_t cells = items < NOUGHTELM_MAX_ITEMS ? (size_t)items : NOUGHTELM_MAX_ITEMS;
    for (size_t i = 0; i < cells; i++) {
        counts[i] = 1;
    }
    return noughtelm_open(items, p, q, counts, cells);
}

/* The board of case 1, by calls. */
static inline noughtelm_board case_1(void)
{
    const noughtelm_edge first[] = {{1, 100}, {2, 60}};
    const noughtelm_edge second[] = {{1, 90}};
    noughtelm_board board = open_ones(2, 1, 10).board;
    board = noughtelm_arrive(board, first, 2).board;
    return noughtelm_arrive(board, second, 1).board;
}

/* A board with one item less. */
static inline noughtelm_board without(noughtelm_board board, uint64_t item)
{
    return noughtelm_withdraw(board, &item, 1).board;
}

#endif
