/* Items of several places (document 02, R-6), by the calls of noughtelm.h. */
#include "checks.h"

/* An opening at 1/2 that is refused: the board is all zeros, and the counts are kept. */
static void refused(const char *what, uint64_t items, const uint64_t *counts, size_t count,
                    uint64_t number, uint64_t place)
{
    const noughtelm_board zeros = {{0, {0}}, {0, {0, 0}, 0, {0}}, {{0}, {0}, {0}}, {0}};
    uint64_t lent[70];
    memcpy(lent, counts, count * sizeof *counts);
    const noughtelm_answer answer = noughtelm_open(items, 1, 2, lent, count);
    told_is(what, told_of(&answer), number, place, 0);
    board_is(what, &answer.board, &zeros);
    cells_are(what, lent, counts, count);
}

/* 1, 2, then "9 for counts of another length", then "a count outside 1 to 8 at that kettle". */
static void openings_refused(void)
{
    const uint64_t good[] = {1, 8, 2, 1}, low[] = {1, 8, 0, 9}, high[] = {9, 0, 1, 1};
    const uint64_t far[] = {1, 257, 1}, last[] = {8, 8, UINT64_MAX};
    uint64_t eights[NOUGHTELM_MAX_ITEMS];
    for (int i = 0; i < NOUGHTELM_MAX_ITEMS; i++) {
        eights[i] = 8;
    }
    refused("1 before 9", 0, high, 4, 1, 0);
    refused("1 before 16", 65, eights, 64, 1, 0);
    const noughtelm_answer slack = noughtelm_open(4, 2, 2, high, 3);
    told_is("2 before 9 and 16", told_of(&slack), 2, 0, 0);
    refused("9, too few", 4, good, 3, 9, 0);
    refused("9, too many", 3, good, 4, 9, 0);
    refused("9, none", 1, good, 0, 9, 0);
    refused("9 before 16", 3, high, 4, 9, 0);
    refused("16 of 0", 4, low, 4, 16, 3);
    refused("16 of 9", 4, high, 4, 16, 1);
    refused("16 of 257", 3, far, 3, 16, 2);
    refused("16 before the total", 3, last, 3, 16, 3);
    refused("16 over 64 in all", 9, eights, 9, 16, 0);
    refused("16 over 64, of 64", 64, eights, 64, 16, 0);
    const noughtelm_answer none = noughtelm_open(1, 1, 2, NULL, 0);
    told_is("9, no list", told_of(&none), 9, 0, 0);
}

/* 64 places in all: eight items of eight, and 56 of one beside one of eight; then 65. */
static void openings_served(void)
{
    uint64_t eights[] = {8, 8, 8, 8, 8, 8, 8, 8}, ones[58];
    const noughtelm_answer full = noughtelm_open(8, 1, 2, eights, 8);
    told_is("eight of eight", told_of(&full), 0, 0, 0);
    number_is("eight of eight, items", full.board.items.count, 8);
    number_is("eight of eight, places", full.board.market.items, 64);
    holds("eight of eight, sound", noughtelm_is_sound(full.board));
    for (int i = 0; i < 58; i++) {
        ones[i] = i == 56 ? 8 : 1;
    }
    const noughtelm_answer one = noughtelm_open(57, 1, 2, ones, 57);
    told_is("56 of one", told_of(&one), 0, 0, 0);
    number_is("56 of one, places", one.board.market.items, 64);
    number_is("56 of one, the last", one.board.items.places[56], 8);
    number_is("56 of one, past the last", one.board.items.places[57], 0);
    refused("65 in all", 58, ones, 58, 16, 0);
}

/*
 * One item of two places at 1/2, and bidders with weights of 100, 120 and 150. The first takes the
 * first place, without lead. The second finds 240 at the other, and 140 at the first. The third finds
 * 200 at the first, above 150, and 80 at the other, which is not open; it displaces the first, which
 * finds nothing open.
 */
static noughtelm_board double_item(void)
{
    const uint64_t counts[] = {2}, weights[] = {100, 120, 150};
    noughtelm_board board = noughtelm_open(1, 1, 2, counts, 1).board;
    for (int i = 0; i < 3; i++) {
        const noughtelm_edge edges[] = {{1, weights[i]}};
        const noughtelm_answer answer = noughtelm_arrive(board, edges, 1);
        told_is("an arrival", told_of(&answer), 0, 0, 1);
        board = answer.board;
    }
    return board;
}

/* The record has places side by side, and an edge at each. */
static void cells_of_the_board(void)
{
    const noughtelm_board board = double_item();
    number_is("items", board.items.count, 1);
    number_is("places of the item", board.items.places[0], 2);
    number_is("places in all", board.market.items, 2);
    number_is("price of place 1", board.state.price[0], 450);
    number_is("price of place 2", board.state.price[1], 220);
    number_is("holder of place 1", board.state.holder[0], 3);
    number_is("holder of place 2", board.state.holder[1], 2);
    for (int i = 0; i < 3; i++) {
        const uint32_t weights[] = {100, 120, 150};
        number_is("edge at place 1", board.weights[64 * i], weights[i]);
        number_is("edge at place 2", board.weights[64 * i + 1], weights[i]);
        number_is("no edge", board.weights[64 * i + 2], 0);
    }
}

/* "Read-out gives a kettle's least price"; the check counts it "once per place". */
static void lists(void)
{
    const noughtelm_board board = double_item();
    const uint64_t plan[] = {0, 1, 1, 9}, gains[] = {0, 140, 0, 9}, price[] = {220, 9};
    const uint64_t thrice[] = {1, 1, 1}, dearer[] = {221}, bare[] = {149};
    uint64_t m[] = {9, 9, 9, 9}, y[] = {9, 9}, g[] = {9, 9, 9, 9};
    told_is("8, no price", noughtelm_read_out(board, m, 4, y, 0, g, 4), 8, 0, 0);
    told_is("read out", noughtelm_read_out(board, m, 4, y, 2, g, 4), 0, 0, 0);
    cells_are("plan", m, plan, 4);
    cells_are("price", y, price, 2);
    cells_are("gains", g, gains, 4);
    /* 2 * 220 + 140 is less than 3 * 270, the sum of every place's price and the gains. */
    totals_are("check", noughtelm_check(board, m, 3, y, 1, g, 3, 1, 2), 0, 0, 270, 580);
    totals_are("a penny more", noughtelm_check(board, m, 3, dearer, 1, g, 3, 1, 2), 0, 0, 270, 582);
    totals_are("9, a price per place", noughtelm_check(board, m, 3, y, 2, g, 3, 1, 2), 9, 0, 0, 0);
    totals_are("10, thrice", noughtelm_check(board, thrice, 3, y, 1, g, 3, 1, 2), 10, 3, 0, 0);
    totals_are("12", noughtelm_check(board, m, 3, bare, 1, g, 3, 1, 2), 12, 3, 0, 0);
    told_is("exact", noughtelm_exact(board, m, 3, y, 1, g, 3), 0, 0, 270);
    cells_are("exact, plan", m, plan, 3);
    totals_are("exact, checked", noughtelm_check(board, m, 3, y, 1, g, 3, 0, 1), 0, 0, 270, 270);
    told_is("counted", noughtelm_count(board), 0, 0, 270);
}

/* "A plan may name a kettle once per place". */
static void plans(void)
{
    const noughtelm_board board = double_item();
    const uint64_t best[] = {0, 1, 1}, first[] = {1, 1, 0}, thrice[] = {1, 1, 1};
    comparison_is("fifty pence less", noughtelm_compare(board, first, 3, best, 3), 0, 0, -50,
                  NOUGHTELM_LATER);
    comparison_is("the same", noughtelm_compare(board, best, 3, best, 3), 0, 0, 0, NOUGHTELM_SAME);
    comparison_is("10", noughtelm_compare(board, thrice, 3, best, 3), 10, 3, 0, 0);
    comparison_is("10, the second", noughtelm_compare(board, best, 3, thrice, 3), 10, 3, 0, 0);
}

/*
 * An item of two places and one of one. Bidder 3 has the first place of item 1 and bidder 2 the
 * second; when item 1 leaves, bidder 2 is at item 2 first, and raises it to 60.
 */
static void withdrawal(void)
{
    const uint64_t counts[] = {2, 1}, item = 1, plan[] = {0, 2, 0}, prices[] = {0, 60};
    const noughtelm_edge edges[][2] = {{{1, 20}, {2, 1}}, {{1, 60}, {2, 20}}, {{1, 100}, {2, 20}}};
    uint64_t m[3], y[2], g[3];
    noughtelm_board board = noughtelm_open(2, 1, 2, counts, 2).board;
    for (size_t i = 0; i < 3; i++) {
        board = noughtelm_arrive(board, edges[i], i == 0 ? 1 : 2).board;
    }
    number_is("the first place", board.state.holder[0], 3);
    number_is("the second place", board.state.holder[1], 2);
    const noughtelm_answer gone = noughtelm_withdraw(board, &item, 1);
    told_is("withdrawn", told_of(&gone), 0, 0, 1);
    number_is("the first place is withdrawn", gone.board.market.withdrawn[0], 1);
    number_is("the second place is withdrawn", gone.board.market.withdrawn[1], 1);
    number_is("item 2 is not", gone.board.market.withdrawn[2], 0);
    told_is("read out", noughtelm_read_out(gone.board, m, 3, y, 2, g, 3), 0, 0, 0);
    cells_are("plan", m, plan, 3);
    cells_are("prices", y, prices, 2);
    const noughtelm_answer again = noughtelm_withdraw(gone.board, &item, 1);
    told_is("5", told_of(&again), 5, 1, 0);
}

/* `P` lines: the board of the call, and what is printed of it. */
static void texts(void)
{
#define DOUBLE "K\t1\t1\t2\nP\t1\t2\nA\t1\t100\nA\t1\t120\nA\t1\t150\n"
#define PRINTED "P\t1\t0\t0\nP\t2\t1\t140\nP\t3\t1\t0\nY\t1\t220\nT\t270\t810\t3\nE\t270\n"
    uint8_t out[200];
    const noughtelm_board board = double_item();
    const noughtelm_answer replayed = noughtelm_replay(TEXT(DOUBLE));
    told_is("a text", told_of(&replayed), 0, 0, 3);
    board_is("a text, the board", &replayed.board, &board);
    told_is("a text, printed", noughtelm_sheet_text(TEXT(DOUBLE), out, sizeof out), 0, 0,
            sizeof(PRINTED) - 1);
    bytes_are("a text, printed", out, PRINTED, sizeof(PRINTED) - 1);
}

/* A board that is sound but for its places is 13. */
static void spoilt(const char *what, noughtelm_board board)
{
    uint64_t m[3], y[1], g[3];
    holds(what, !noughtelm_is_sound(board));
    const noughtelm_answer answers[] = {noughtelm_arrive(board, NULL, 0),
                                        noughtelm_withdraw(board, NULL, 0)};
    for (int i = 0; i < 2; i++) {
        told_is(what, told_of(&answers[i]), 13, 0, 0);
        board_is(what, &answers[i].board, &board);
    }
    told_is(what, noughtelm_read_out(board, m, 3, y, 1, g, 3), 13, 0, 0);
    told_is(what, noughtelm_exact(board, m, 3, y, 1, g, 3), 13, 0, 0);
    told_is(what, noughtelm_count(board), 13, 0, 0);
}

static void boards_that_are_not_sound(void)
{
    noughtelm_board board = double_item();
    holds("as it was", noughtelm_is_sound(board));
    board.items.places[0] = 1;
    spoilt("a count less", board);
    board.items.places[0] = 3;
    spoilt("a count more", board);
    board.items.places[0] = 0;
    spoilt("no place", board);
    board = double_item();
    board.items.places[63] = 1;
    spoilt("an unused count", board);
    board = double_item();
    board.items.count = 2;
    spoilt("an item more, of no place", board);
    board = double_item();
    board.market.items = 3;
    spoilt("a place more", board);
    board = double_item();
    board.weights[64 + 1] = 119;
    spoilt("another weight at one place", board);
    board.weights[64 + 1] = 0;
    spoilt("no edge at one place", board);
    board = double_item();
    board.market.withdrawn[1] = 1;
    spoilt("withdrawn at one place", board);
}

int main(void)
{
    openings_refused();
    openings_served();
    cells_of_the_board();
    lists();
    plans();
    withdrawal();
    texts();
    boards_that_are_not_sound();
    return all_checks();
}
