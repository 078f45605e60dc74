/* Case 1 of document 01, and cases 2, 7, 8 and 14 after it, by the calls of noughtelm.h. */
#include "checks.h"

/*
 * Opening and two arrivals. The first finds 1,000 and 600: the price rises by the lead of 400 and by
 * 100. The second finds 400 and nothing else; then the first finds 10, which is not open, and 600.
 * Bids in all: 3.
 */
static noughtelm_board by_calls(void)
{
    const noughtelm_edge first[] = {{1, 100}, {2, 60}};
    const noughtelm_edge second[] = {{1, 90}};
    const uint64_t counts[] = {1, 1};
    const noughtelm_answer opened = noughtelm_open(2, 1, 10, counts, 2);
    told_is("open", told_of(&opened), 0, 0, 0);
    number_is("open, items", opened.board.items.count, 2);
    number_is("open, places of item 1", opened.board.items.places[0], 1);
    number_is("open, places of item 2", opened.board.items.places[1], 1);
    number_is("open, places of no item", opened.board.items.places[2], 0);
    number_is("open, places", opened.board.market.items, 2);
    number_is("open, p", opened.board.market.slack.p, 1);
    number_is("open, q", opened.board.market.slack.q, 10);
    number_is("open, bidders", opened.board.market.arrived, 0);
    holds("open, sound", noughtelm_is_sound(opened.board));
    const noughtelm_answer one = noughtelm_arrive(opened.board, first, 2);
    told_is("first arrival", told_of(&one), 0, 0, 1);
    number_is("first arrival, price 1", one.board.state.price[0], 500);
    number_is("first arrival, gain 1", one.board.state.gain[0], 600);
    const noughtelm_answer two = noughtelm_arrive(one.board, second, 1);
    told_is("second arrival", told_of(&two), 0, 0, 2);
    number_is("bids in all", one.value + two.value, 3);
    number_is("bidders", two.board.market.arrived, 2);
    holds("sound", noughtelm_is_sound(two.board));
    return two.board;
}

/* The same with the edges in a buffer. */
static void by_buffers(const noughtelm_board *expected)
{
    noughtelm_edge_buffer buffer = {{1, 2}, {100, 60}, 2};
    noughtelm_answer answer = noughtelm_arrive_buffer(open_ones(2, 1, 10).board, buffer);
    told_is("first buffer", told_of(&answer), 0, 0, 1);
    buffer.weights[0] = 90;
    buffer.count = 1;
    answer = noughtelm_arrive_buffer(answer.board, buffer);
    told_is("second buffer", told_of(&answer), 0, 0, 2);
    board_is("the board by buffers", &answer.board, expected);
}

/* The record's own cells. */
static void cells_of_the_board(const noughtelm_board *board)
{
    number_is("price 1", board->state.price[0], 990);
    number_is("price 2", board->state.price[1], 660);
    number_is("holder 1", board->state.holder[0], 2);
    number_is("holder 2", board->state.holder[1], 1);
    number_is("gain 1", board->state.gain[0], 0);
    number_is("gain 2", board->state.gain[1], 0);
    number_is("edge 1, 1", board->weights[0], 100);
    number_is("edge 1, 2", board->weights[1], 60);
    number_is("edge 2, 1", board->weights[64], 90);
    number_is("edge 2, 2", board->weights[65], 0);
}

/* Three lists of three cells, one more than there are bidders and items, and what is in them. */
static void lists_are(const char *what, const uint64_t *lists, const uint64_t *expected)
{
    cells_are(what, lists, expected, 9);
}

static void read_out(const noughtelm_board *board)
{
    uint64_t lists[] = {9, 9, 9, 9, 9, 9, 9, 9, 9};
    const uint64_t kept[] = {9, 9, 9, 9, 9, 9, 9, 9, 9};
    const uint64_t printed[] = {2, 1, 9, 990, 660, 9, 0, 0, 9};
    told_is("read out, no room", noughtelm_read_out(*board, lists, 3, lists + 3, 1, lists + 6, 3),
            8, 0, 0);
    lists_are("read out, no room", lists, kept);
    told_is("read out", noughtelm_read_out(*board, lists, 3, lists + 3, 3, lists + 6, 3), 0, 0, 0);
    lists_are("read out", lists, printed);
    /* Line `T`: weight 150, and 1650 for prices and gains. */
    totals_are("check at 1/10",
               noughtelm_check(*board, lists, 2, lists + 3, 2, lists + 6, 2, 1, 10), 0, 0, 150, 1650);
}

/* Line `E`: 150. The lists that come out pass the check with equal totals. */
static void exact(const noughtelm_board *board)
{
    uint64_t lists[] = {9, 9, 9, 9, 9, 9, 9, 9, 9};
    const uint64_t kept[] = {9, 9, 9, 9, 9, 9, 9, 9, 9};
    told_is("exact, no room", noughtelm_exact(*board, NULL, 0, lists + 3, 3, lists + 6, 3), 8, 0, 0);
    lists_are("exact, no room", lists, kept);
    told_is("exact", noughtelm_exact(*board, lists, 3, lists + 3, 3, lists + 6, 3), 0, 0, 150);
    for (int cell = 2; cell < 9; cell += 3) {
        number_is("exact, a further cell", lists[cell], 9);
    }
    totals_are("exact, checked",
               noughtelm_check(*board, lists, 2, lists + 3, 2, lists + 6, 2, 0, 1), 0, 0, 150, 150);
    told_is("counted", noughtelm_count(*board), 0, 0, 150);
}

/* Cases 7 and 8. */
static void check(const noughtelm_board *board)
{
    const uint64_t plan[] = {2, 1}, prices[] = {40, 0}, low[] = {39, 0}, gains[] = {60, 50};
    totals_are("case 7", noughtelm_check(*board, plan, 2, prices, 2, gains, 2, 0, 1), 0, 0, 150, 150);
    totals_are("case 8", noughtelm_check(*board, plan, 2, low, 2, gains, 2, 0, 1), 12, 1, 0, 0);
}

/* Case 2: "batch 2 unplaced, worth 60, sum 660, no bid". Then case 14. */
static void withdraw(const noughtelm_board *board)
{
    uint64_t lists[] = {9, 9, 9, 9, 9, 9, 9, 9, 9};
    const uint64_t left[] = {2, 0, 9, 0, 660, 9, 0, 0, 9};
    const uint64_t first[] = {1};
    const noughtelm_answer gone = noughtelm_withdraw(*board, first, 1);
    told_is("case 2", told_of(&gone), 0, 0, 0);
    number_is("case 2, withdrawn 1", gone.board.market.withdrawn[0], 1);
    number_is("case 2, withdrawn 2", gone.board.market.withdrawn[1], 0);
    noughtelm_read_out(gone.board, lists, 3, lists + 3, 3, lists + 6, 3);
    lists_are("case 2, read out", lists, left);
    totals_are("case 2, totals",
               noughtelm_check(gone.board, lists, 2, lists + 3, 2, lists + 6, 2, 1, 10), 0, 0, 60, 660);
    const noughtelm_answer again = noughtelm_withdraw(gone.board, first, 1);
    told_is("case 14", told_of(&again), 5, 1, 0);
    board_is("case 14, the board", &again.board, &gone.board);
}

/* What a call on bytes leaves: so many written, and the others 7 as before. */
static void list_is(const char *what, const uint8_t *out, size_t room, const char *written)
{
    const size_t length = strlen(written);
    bytes_are(what, out, written, length);
    for (size_t i = length; i < room; i++) {
        if (out[i] != 7) {
            holds(what, false);
            return;
        }
    }
    holds(what, true);
}

#define LENGTH_1 (sizeof(PRINTED_1) - 1)

static void texts(const noughtelm_board *board)
{
    uint8_t out[200];
    const noughtelm_answer replayed = noughtelm_replay(TEXT(CASE_1));
    told_is("replay", told_of(&replayed), 0, 0, 3);
    board_is("replay, the board", &replayed.board, board);
    memset(out, 7, sizeof out);
    told_is("plan, short", noughtelm_plan_text(TEXT(CASE_1), out, LENGTH_1 - 1), 8, 0, 0);
    list_is("plan, short", out, sizeof out, "");
    told_is("plan", noughtelm_plan_text(TEXT(CASE_1), out, LENGTH_1), 0, 0, LENGTH_1);
    list_is("plan", out, sizeof out, PRINTED_1);
    memset(out, 7, sizeof out);
    told_is("sheet, short", noughtelm_sheet_text(TEXT(CASE_1), out, LENGTH_1 - 1), 8, 0, 0);
    told_is("sheet, no list", noughtelm_sheet_text(TEXT(CASE_1), NULL, 0), 8, 0, 0);
    list_is("sheet, short", out, sizeof out, "");
    told_is("sheet", noughtelm_sheet_text(TEXT(CASE_1), out, LENGTH_1), 0, 0, LENGTH_1);
    list_is("sheet", out, sizeof out, PRINTED_1);
    memset(out, 7, sizeof out);
    told_is("sheet, room", noughtelm_sheet_text(TEXT(CASE_1), out, sizeof out), 0, 0, LENGTH_1);
    list_is("sheet, room", out, sizeof out, PRINTED_1);
}

#define REFUSED CASE_1 "W\t1\nW\t1\n"
#define PRINTED_REFUSAL "R\t5\t5\n"

/* Case 14 as a text: item 1 is withdrawn in line 4, and again in line 5. */
static void refused_texts(const noughtelm_board *board)
{
    uint8_t out[200];
    const noughtelm_board gone = without(*board, 1);
    const noughtelm_answer replayed = noughtelm_replay(TEXT(REFUSED));
    told_is("refused replay", told_of(&replayed), 5, 5, 3);
    board_is("refused replay, the board", &replayed.board, &gone);
    memset(out, 7, sizeof out);
    told_is("refused plan", noughtelm_plan_text(TEXT(REFUSED), out, sizeof out), 5, 5, 0);
    told_is("refused sheet, short", noughtelm_sheet_text(TEXT(REFUSED), out, 5), 8, 0, 0);
    told_is("line, short", noughtelm_refusal_line(5, 5, out, 5), 8, 0, 0);
    list_is("refused, nothing written", out, sizeof out, "");
    told_is("refused sheet", noughtelm_sheet_text(TEXT(REFUSED), out, 6), 0, 0, 6);
    list_is("refused sheet", out, sizeof out, PRINTED_REFUSAL);
    memset(out, 7, sizeof out);
    told_is("line", noughtelm_refusal_line(5, 5, out, sizeof out), 0, 0, 6);
    list_is("line", out, sizeof out, PRINTED_REFUSAL);
}

int main(void)
{
    const noughtelm_board board = by_calls();
    const noughtelm_board before = board;
    by_buffers(&board);
    cells_of_the_board(&board);
    read_out(&board);
    exact(&board);
    check(&board);
    withdraw(&board);
    texts(&board);
    refused_texts(&board);
    board_is("the board is by value", &board, &before);
    return all_checks();
}
