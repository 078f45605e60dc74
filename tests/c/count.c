/* The slow count (document 02, R-9), by the calls of noughtelm.h. */
#include "checks.h"

/* The count of a board, which is kept; where it is served it is the exact level's weight. */
static void count_is(const char *what, noughtelm_board board, uint64_t number, uint64_t value)
{
    const noughtelm_board before = board;
    uint64_t plan[NOUGHTELM_MAX_BIDDERS], prices[NOUGHTELM_MAX_ITEMS], gains[NOUGHTELM_MAX_BIDDERS];
    told_is(what, noughtelm_count(board), number, 0, value);
    board_is(what, &board, &before);
    if (number == 0) {
        told_is(what,
                noughtelm_exact(board, plan, NOUGHTELM_MAX_BIDDERS, prices, NOUGHTELM_MAX_ITEMS, gains,
                                NOUGHTELM_MAX_BIDDERS),
                0, 0, value);
    }
}

/* A bidder with an edge of this weight at each item up to this one. */
static noughtelm_board with_bidder(noughtelm_board board, uint64_t items, uint64_t weight)
{
    noughtelm_edge edges[NOUGHTELM_MAX_ITEMS];
    for (uint64_t i = 0; i < items; i++) {
        edges[i].item = i + 1;
        edges[i].weight = weight;
    }
    return noughtelm_arrive(board, edges, (size_t)items).board;
}

/*
 * Item 1 has two places, item 2 one. Bidder 1 has 100 and 90 there, bidder 2 80 at item 1, bidder 3
 * 70 and 30, bidder 4 25 at item 2.
 *
 * With bidder 1 at item 1 a place is left there: bidder 2 takes it, and bidder 3 item 2, which is
 * 210. With bidder 1 at item 2 bidders 2 and 3 fill item 1, and bidder 4 goes without: 240. With
 * bidder 1 without any, 80, 70 and 25 are 175. So it is 240, without the greatest edge.
 */
static void by_hand(void)
{
    const uint64_t counts[] = {2, 1};
    const noughtelm_edge first[] = {{1, 100}, {2, 90}}, second[] = {{1, 80}};
    const noughtelm_edge third[] = {{1, 70}, {2, 30}}, fourth[] = {{2, 25}};
    noughtelm_board board = noughtelm_open(2, 1, 10, counts, 2).board;
    count_is("nobody", board, 0, 0);
    board = noughtelm_arrive(board, first, 2).board;
    count_is("bidder 1", board, 0, 100);
    board = noughtelm_arrive(board, second, 1).board;
    count_is("bidders 1 and 2", board, 0, 180);
    board = noughtelm_arrive(board, third, 2).board;
    count_is("bidders 1 to 3", board, 0, 240);
    board = noughtelm_arrive(board, fourth, 1).board;
    count_is("bidders 1 to 4", board, 0, 240);
    count_is("without item 2", without(board, 2), 0, 180);
    count_is("without item 1", without(board, 1), 0, 90);
    count_is("without either", without(without(board, 1), 2), 0, 0);
}

/* Document 01's cases 1, 2 and 15; the quick plan of the last is worth 61. */
static void cases(void)
{
    const noughtelm_edge first[] = {{1, 60}}, second[] = {{1, 61}, {2, 30}}, third[] = {{1, 121}};
    noughtelm_board board = open_ones(2, 1, 2).board;
    count_is("case 1", case_1(), 0, 150);
    count_is("case 2", without(case_1(), 1), 0, 60);
    board = noughtelm_arrive(board, first, 1).board;
    board = noughtelm_arrive(board, second, 2).board;
    board = noughtelm_arrive(board, third, 1).board;
    count_is("case 15", board, 0, 151);
}

/* Six bidders with every edge, of the greatest weight; the seventh, even without an edge, is 17. */
static void bidders(void)
{
    noughtelm_board board = open_ones(6, 1, 2).board, idle = board;
    for (uint64_t i = 1; i <= NOUGHTELM_MAX_COUNTED; i++) {
        board = with_bidder(board, 6, NOUGHTELM_MAX_WEIGHT);
        count_is("bidders with edges", board, 0, i * NOUGHTELM_MAX_WEIGHT);
        idle = with_bidder(idle, 0, 0);
        count_is("bidders without", idle, 0, 0);
    }
    count_is("7 bidders", with_bidder(board, 0, 0), 17, 0);
    count_is("7 bidders without edges", with_bidder(idle, 0, 0), 17, 0);
    while (board.market.arrived < NOUGHTELM_MAX_BIDDERS) {
        board = with_bidder(board, 6, 1);
    }
    count_is("128 bidders", board, 17, 0);
}

/* Six places and seven, on items in several ways; those of withdrawn items count. */
static void places(void)
{
    const uint64_t lists[][7] = {{6},       {7},       {1, 5},             {5, 2},
                                 {2, 2, 2}, {2, 3, 2}, {1, 1, 1, 1, 1, 1}, {1, 1, 1, 1, 1, 1, 1}};
    const uint64_t all[] = {1, 2, 3, 4, 5, 6, 7};
    for (size_t i = 0; i < sizeof lists / sizeof *lists; i++) {
        size_t items = 0;
        uint64_t total = 0;
        while (items < 7 && lists[i][items] != 0) {
            total += lists[i][items];
            items++;
        }
        const uint64_t number = total > NOUGHTELM_MAX_COUNTED ? 17 : 0;
        noughtelm_board board = noughtelm_open(items, 1, 2, lists[i], items).board;
        count_is("no bidder", board, number, 0);
        board = with_bidder(with_bidder(board, items, 5), items, 5);
        count_is("two bidders", board, number, number == 0 ? 10 : 0);
        count_is("all items withdrawn", noughtelm_withdraw(board, all, items).board, number, 0);
    }
    count_is("64 places", open_ones(64, 1, 2).board, 17, 0);
}

/* "after 13": a board that is large and not sound, and one that is only not sound. */
static void spoilt(void)
{
    const noughtelm_board zeros = {{0, {0}}, {0, {0, 0}, 0, {0}}, {{0}, {0}, {0}}, {0}};
    noughtelm_board small = case_1(), large = with_bidder(open_ones(7, 1, 2).board, 7, 5);
    noughtelm_board many = small;
    count_is("large", large, 17, 0);
    large.state.gain[0]++;
    count_is("13 before 17", large, 13, 0);
    small.state.price[0]++;
    count_is("13", small, 13, 0);
    many.market.arrived = UINT64_MAX;
    count_is("13, bidders", many, 13, 0);
    many = case_1();
    many.market.items = 7;
    count_is("13, places", many, 13, 0);
    count_is("13, zeros", zeros, 13, 0);
}

int main(void)
{
    by_hand();
    cases();
    bidders();
    places();
    spoilt();
    return all_checks();
}
