/* A list of items is withdrawn (document 02, R-3), by the calls of noughtelm.h. */
#include "checks.h"

/*
 * Five items at 1/4. Bidders 1, 2 and 3 hold items 2, 1 and 3; all of them want items 3 and 4, and
 * bidder 3 item 5.
 */
static noughtelm_board board(void)
{
    const noughtelm_edge first[] = {{2, 50}, {3, 50}, {4, 10}};
    const noughtelm_edge second[] = {{1, 100}, {3, 100}, {4, 20}};
    const noughtelm_edge third[] = {{3, 15}, {4, 5}, {5, 5}};
    noughtelm_board board = open_ones(5, 1, 4).board;
    board = noughtelm_arrive(board, first, 3).board;
    board = noughtelm_arrive(board, second, 3).board;
    return noughtelm_arrive(board, third, 3).board;
}

/*
 * "All go first; then the displaced batches bid in number order, each chain run to its end": bidder 1
 * and whom it displaces, 3; then bidder 2, which finds 190 at item 3 and 75 at item 4, and 1 and 3.
 */
static void several(void)
{
    const uint64_t expected[] = {1, 2}, plan[] = {4, 3, 5};
    const uint64_t prices[] = {0, 0, 425, 50, 25}, gains[] = {0, 75, 0};
    uint64_t items[] = {1, 2}, m[3], y[5], g[3];
    const noughtelm_answer after = noughtelm_withdraw(board(), items, 2);
    told_is("several", told_of(&after), 0, 0, 5);
    cells_are("several, the list", items, expected, 2);
    holds("several, sound", noughtelm_is_sound(after.board));
    told_is("several, read out", noughtelm_read_out(after.board, m, 3, y, 5, g, 3), 0, 0, 0);
    cells_are("several, plan", m, plan, 3);
    cells_are("several, prices", y, prices, 5);
    cells_are("several, gains", g, gains, 3);
    for (int i = 0; i < 5; i++) {
        number_is("several, withdrawn", after.board.market.withdrawn[i], i < 2);
    }
}

/* "an empty list changes nothing in a call", whatever its pointer; of a board not sound it is 13. */
static void empty(void)
{
    const uint64_t item = 1;
    const noughtelm_board before = board();
    const noughtelm_answer none = noughtelm_withdraw(before, NULL, 0);
    told_is("empty", told_of(&none), 0, 0, 0);
    board_is("empty, the board", &none.board, &before);
    const noughtelm_answer other = noughtelm_withdraw(before, &item, 0);
    told_is("empty, a pointer", told_of(&other), 0, 0, 0);
    board_is("empty, a pointer, the board", &other.board, &before);
    noughtelm_board spoilt = before;
    spoilt.state.gain[0]++;
    const noughtelm_answer refused = noughtelm_withdraw(spoilt, NULL, 0);
    told_is("empty, 13", told_of(&refused), 13, 0, 0);
    board_is("empty, 13, the board", &refused.board, &spoilt);
}

/* All 64 items of a board at once; one more is not there. */
static void all(void)
{
    const noughtelm_edge edges[] = {{1, 5}, {64, 9}};
    uint64_t items[NOUGHTELM_MAX_ITEMS + 1], expected[NOUGHTELM_MAX_ITEMS + 1];
    const noughtelm_board full = noughtelm_arrive(open_ones(64, 1, 10).board, edges, 2).board;
    for (uint64_t i = 0; i <= NOUGHTELM_MAX_ITEMS; i++) {
        items[i] = expected[i] = i + 1;
    }
    const noughtelm_answer more = noughtelm_withdraw(full, items, NOUGHTELM_MAX_ITEMS + 1);
    told_is("65 items", told_of(&more), 4, 65, 0);
    board_is("65 items, the board", &more.board, &full);
    const noughtelm_answer gone = noughtelm_withdraw(full, items, NOUGHTELM_MAX_ITEMS);
    told_is("all items", told_of(&gone), 0, 0, 0);
    number_is("all items, a holder", gone.board.state.holder[63], 0);
    number_is("all items, a price", gone.board.state.price[63], 0);
    number_is("all items, a gain", gone.board.state.gain[0], 0);
    holds("all items, sound", noughtelm_is_sound(gone.board));
    cells_are("all items, the list", items, expected, NOUGHTELM_MAX_ITEMS + 1);
    const noughtelm_answer again = noughtelm_withdraw(gone.board, items + 63, 2);
    told_is("item 64 is gone", told_of(&again), 5, 1, 0);
}

/* A list as a line: the same board and bids, and what is printed of it. */
static void line(void)
{
#define FIVE                                                                                       \
    "K\t5\t1\t4\nA\t2\t50\t3\t50\t4\t10\nA\t1\t100\t3\t100\t4\t20\nA\t3\t15\t4\t5\t5\t5\n"
#define PRINTED                                                                                    \
    "P\t1\t4\t0\nP\t2\t3\t75\nP\t3\t5\t0\nY\t3\t425\nY\t4\t50\nY\t5\t25\nT\t115\t575\t8\nE\t115\n"
    const uint64_t items[] = {1, 2};
    uint8_t out[200];
    const noughtelm_answer called = noughtelm_withdraw(board(), items, 2);
    const noughtelm_answer told = noughtelm_replay(TEXT(FIVE "W\t1\t2\n"));
    told_is("a line", told_of(&told), 0, 0, 8);
    board_is("a line, the board", &told.board, &called.board);
    const uint64_t length = sizeof(PRINTED) - 1;
    told_is("a line, printed", noughtelm_sheet_text(TEXT(FIVE "W\t1\t2\n"), out, sizeof out), 0, 0, length);
    bytes_are("a line, printed", out, PRINTED, length);
}

int main(void)
{
    several();
    empty();
    all();
    line();
    return all_checks();
}
