/* Each refusal of noughtelm.h's table, with its place; board and lists are kept. */
#include "checks.h"

static void opening(void)
{
    const uint64_t items[] = {0, 65, UINT64_MAX};
    const uint64_t slacks[][2] = {{0, 10}, {5, 5}, {1, 1001}, {UINT64_MAX, UINT64_MAX}};
    const noughtelm_board zeros = {{0, {0}}, {0, {0, 0}, 0, {0}}, {{0}, {0}, {0}}, {0}};
    for (int i = 0; i < 3; i++) {
        const noughtelm_answer answer = noughtelm_open(items[i], 5, 5, NULL, 0);
        told_is("1", told_of(&answer), 1, 0, 0);
        board_is("1, the board", &answer.board, &zeros);
    }
    for (int i = 0; i < 4; i++) {
        const noughtelm_answer answer = noughtelm_open(1, slacks[i][0], slacks[i][1], NULL, 0);
        told_is("2", told_of(&answer), 2, 0, 0);
        board_is("2, the board", &answer.board, &zeros);
    }
    const noughtelm_answer answer = noughtelm_arrive(zeros, NULL, 0);
    told_is("13, zeros", told_of(&answer), 13, 0, 0);
    board_is("13, zeros, the board", &answer.board, &zeros);
    holds("13, zeros", !noughtelm_is_sound(zeros));
}

/* An arrival with these edges on the board of case 1 with item 2 withdrawn. */
static void arrival(const char *what, const noughtelm_edge *edges, size_t count, uint64_t number,
                    uint64_t place)
{
    const noughtelm_board board = without(case_1(), 2);
    const noughtelm_answer answer = noughtelm_arrive(board, edges, count);
    told_is(what, told_of(&answer), number, place, 0);
    board_is(what, &answer.board, &board);
}

static void arrivals(void)
{
    const noughtelm_edge unknown[] = {{1, 5}, {3, 0}}, nothing[] = {{0, 5}};
    const noughtelm_edge gone[] = {{1, 5}, {2, 0}}, worth[] = {{1, 1000001}}, free_of_charge[] = {{1, 0}};
    const noughtelm_edge order[] = {{1, 1000000}, {1, 5}};
    arrival("4", unknown, 2, 4, 2);
    arrival("4 at 1", nothing, 1, 4, 1);
    arrival("5", gone, 2, 5, 2);
    arrival("6", worth, 1, 6, 1);
    arrival("6 of 0", free_of_charge, 1, 6, 1);
    arrival("7", order, 2, 7, 2);
}

/* A withdrawal of up to four items from a board of five, item 2 withdrawn. */
static void withdrawal(const char *what, const uint64_t *items, size_t count, uint64_t number,
                       uint64_t place)
{
    const noughtelm_board board = without(open_ones(5, 1, 10).board, 2);
    uint64_t lent[4];
    memcpy(lent, items, count * sizeof *items);
    const noughtelm_answer answer = noughtelm_withdraw(board, lent, count);
    told_is(what, told_of(&answer), number, place, 0);
    board_is(what, &answer.board, &board);
    cells_are(what, lent, items, count);
}

static void withdrawals(void)
{
    const uint64_t unknown[] = {0, 6, UINT64_MAX, 2}, late[] = {1, 3, 6, 2};
    const uint64_t gone[] = {1, 3, 2, 0}, gone_twice[] = {2, 2};
    const uint64_t twice[] = {1, 3, 3, 6}, falling[] = {4, 3}, low[] = {4, 0};
    for (int i = 0; i < 3; i++) {
        withdrawal("4 of one", unknown + i, 1, 4, 1);
    }
    withdrawal("5 of one", unknown + 3, 1, 5, 1);
    withdrawal("4", late, 4, 4, 3);
    withdrawal("4 before 7", low, 2, 4, 2);
    withdrawal("5 before 7", gone, 4, 5, 3);
    withdrawal("5 before 7, twice", gone_twice, 2, 5, 1);
    withdrawal("7, twice", twice, 4, 7, 3);
    withdrawal("7, twice, at 2", twice + 1, 2, 7, 2);
    withdrawal("7, falling", falling, 2, 7, 2);
}

/* 128 bidders arrive; the next is 3, whatever its edges. */
static void full(void)
{
    const noughtelm_edge unknown[] = {{9, 5}};
    noughtelm_answer answer = open_ones(1, 1, 2);
    for (int i = 0; i < NOUGHTELM_MAX_BIDDERS; i++) {
        answer = noughtelm_arrive(answer.board, NULL, 0);
        told_is("an empty arrival", told_of(&answer), 0, 0, 0);
    }
    const noughtelm_answer more = noughtelm_arrive(answer.board, unknown, 1);
    told_is("3", told_of(&more), 3, 0, 0);
    board_is("3, the board", &more.board, &answer.board);
}

/* A check of case 1 at 0/1 with one list changed. */
static void claim(const char *what, const uint64_t *lists, uint64_t number, uint64_t place)
{
    totals_are(what, noughtelm_check(case_1(), lists, 2, lists + 2, 2, lists + 4, 2, 0, 1), number,
               place, 0, 0);
}

static void checks(void)
{
    const noughtelm_board board = case_1();
    const noughtelm_board gone = without(board, 1);
    const uint64_t right[] = {2, 1, 40, 0, 60, 50};
    const uint64_t unknown[] = {3, 1, 40, 0, 60, 50}, twice[] = {1, 1, 40, 0, 60, 50};
    const uint64_t edgeless[] = {0, 2, 40, 0, 60, 50};
    const uint64_t high[] = {2, 1, 40, 2000000001, 60, 50}, gain[] = {2, 1, 40, 0, 60, 2000000001};
    const uint64_t bare[] = {2, 1, 40, 0, 60, 49}, left[] = {2, 0, 1, 0, 60, 0};
    claim("10", unknown, 10, 1);
    claim("10, named before", twice, 10, 2);
    claim("10, no edge", edgeless, 10, 2);
    claim("11", high, 11, 2);
    claim("11, a gain", gain, 11, 4);
    claim("12", bare, 12, 2);
    totals_are("2", noughtelm_check(board, right, 2, right + 2, 2, right + 4, 2, 1, 1), 2, 0, 0, 0);
    totals_are("9", noughtelm_check(board, right, 1, right + 2, 2, right + 4, 2, 0, 1), 9, 0, 0, 0);
    totals_are("9, longer", noughtelm_check(board, right, 2, right + 2, 3, right + 4, 2, 0, 1), 9, 0, 0, 0);
    totals_are("10, gone", noughtelm_check(gone, right, 2, right + 2, 2, right + 4, 2, 0, 1), 10, 2, 0, 0);
    totals_are("11, gone", noughtelm_check(gone, left, 2, left + 2, 2, left + 4, 2, 0, 1), 11, 1, 0, 0);
}

/* A price and a gain of case 1's check are 11 above 2,000,000,000, and served up to that. */
static void limit(void)
{
    const noughtelm_board board = case_1();
    for (int cell = 2; cell < 6; cell++) {
        uint64_t lists[] = {2, 1, 100, 60, 100, 90};
        const uint64_t rest = 350 - lists[cell];
        lists[cell] = 1000000001;
        totals_are("11's limit until R-7 and 1", noughtelm_check(board, lists, 2, lists + 2, 2, lists + 4, 2, 0, 1),
                   0, 0, 150, rest + 1000000001);
        lists[cell] = NOUGHTELM_MAX_PRICE;
        totals_are("11's limit", noughtelm_check(board, lists, 2, lists + 2, 2, lists + 4, 2, 0, 1), 0, 0,
                   150, rest + 2000000000);
        lists[cell] = (uint64_t)NOUGHTELM_MAX_PRICE + 1;
        claim("11's limit and 1", lists, 11, (uint64_t)cell - 1);
    }
}

/* The slow count of 6 items and 6 bidders is served, that of 7 of either is 17; the board is kept. */
static void large(void)
{
    noughtelm_board board = open_ones(6, 1, 10).board;
    const noughtelm_board seven = open_ones(7, 1, 10).board;
    noughtelm_board lent = seven;
    told_is("17, items", noughtelm_count(lent), 17, 0, 0);
    board_is("17, items, the board", &lent, &seven);
    for (int i = 0; i < NOUGHTELM_MAX_COUNTED; i++) {
        board = noughtelm_arrive(board, NULL, 0).board;
        told_is("up to 6 bidders", noughtelm_count(board), 0, 0, 0);
    }
    board = noughtelm_arrive(board, NULL, 0).board;
    lent = board;
    told_is("17, bidders", noughtelm_count(lent), 17, 0, 0);
    board_is("17, bidders, the board", &lent, &board);
    told_is("17, a withdrawn item", noughtelm_count(without(seven, 1)), 17, 0, 0);
    lent.market.slack.p = 0;
    told_is("13 before 17", noughtelm_count(lent), 13, 0, 0);
}

/* A text that is refused, by all three calls. */
static void text(const char *what, const uint8_t *bytes, size_t count, uint64_t number, uint64_t line)
{
    uint8_t out[40], expected[40];
    const noughtelm_answer answer = noughtelm_replay(bytes, count);
    number_is(what, answer.number, number);
    number_is(what, answer.place, line);
    memset(out, 7, sizeof out);
    memset(expected, 7, sizeof expected);
    told_is(what, noughtelm_plan_text(bytes, count, out, sizeof out), number, line, 0);
    bytes_are(what, out, expected, sizeof out);
    const int length = snprintf((char *)expected, sizeof expected, "R\t%d\t%d\n", (int)number, (int)line);
    expected[length] = 7;
    told_is(what, noughtelm_sheet_text(bytes, count, out, sizeof out), 0, 0, (uint64_t)length);
    bytes_are(what, out, expected, sizeof out);
}

static void texts(void)
{
    static uint8_t lines[NOUGHTELM_MAX_TEXT + 1];
    memset(lines, '\n', sizeof lines);
    text("1", TEXT("K\t65\t1\t10\n"), 1, 1);
    text("2", TEXT("K\t2\t5\t5\n"), 2, 1);
    text("4", TEXT(CASE_1 "W\t3\n"), 4, 4);
    text("4, a list", TEXT(CASE_1 "W\t1\t3\n"), 4, 4);
    text("5", TEXT(CASE_1 "W\t1\nA\t1\t5\n"), 5, 5);
    text("5, a list", TEXT(CASE_1 "W\t1\nW\t2\t1\n"), 5, 5);
    text("6", TEXT("K\t2\t1\t10\nA\t1\t0\n"), 6, 2);
    text("7", TEXT("K\t2\t1\t10\nA\t2\t5\t1\t5\n"), 7, 2);
    text("7, a list", TEXT(CASE_1 "W\t1\t1\n"), 7, 4);
    text("4, places", TEXT("K\t2\t1\t10\nP\t3\t9\n"), 4, 2);
    text("7, places", TEXT("K\t2\t1\t10\nP\t2\t2\nP\t2\t9\n"), 7, 3);
    text("16", TEXT("K\t2\t1\t10\nP\t1\t9\n"), 16, 2);
    text("16 of 0", TEXT("K\t2\t1\t10\nP\t1\t8\nP\t2\t0\n"), 16, 3);
    text("16, over 64 in all", TEXT("K\t58\t1\t10\nP\t58\t8\nA\t1\n"), 16, 1);
    text("14", TEXT("K\t2\t1\t10\nA\t1\n"), 14, 2);
    text("14, places without their number", TEXT("K\t2\t1\t10\nP\t1\n"), 14, 2);
    text("14, places after an arrival", TEXT(CASE_1 "P\t1\t2\n"), 14, 4);
    text("14, no byte 10", TEXT("K\t2\t1\t10\nA"), 14, 2);
    text("14, an empty list", TEXT(CASE_1 "W\n"), 14, 4);
    text("14, empty", NULL, 0, 14, 1);
    text("14, as long as can be", lines, NOUGHTELM_MAX_TEXT, 14, 1);
    text("15", lines, sizeof lines, 15, 0);
}

int main(void)
{
    opening();
    arrivals();
    withdrawals();
    full();
    checks();
    limit();
    large();
    texts();
    return all_checks();
}
