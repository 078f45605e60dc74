/* Two plans side by side (document 02, R-4), by the calls of noughtelm.h. */
#include "checks.h"

/* A plan of two bidders, and its weight. */
typedef struct plan {
    uint64_t cells[2];
    int64_t weight;
} plan;

/* These plans stand in order: every one of them beside every other. */
static void in_order(const char *what, noughtelm_board board, const plan *plans, size_t count)
{
    for (size_t i = 0; i < count; i++) {
        for (size_t j = 0; j < count; j++) {
            const uint64_t order = i < j ? NOUGHTELM_EARLIER : i > j ? NOUGHTELM_LATER : NOUGHTELM_SAME;
            comparison_is(what, noughtelm_compare(board, plans[i].cells, 2, plans[j].cells, 2), 0, 0,
                          plans[i].weight - plans[j].weight, order);
        }
    }
}

/* "the greater worth first": no two plans of case 1's board weigh the same. */
static void by_weight(void)
{
    const plan plans[] = {{{2, 1}, 150}, {{1, 0}, 100}, {{0, 1}, 90}, {{2, 0}, 60}, {{0, 0}, 0}};
    in_order("by weight", case_1(), plans, 5);
}

/* "then by the plan's cells, the first smaller cell making the earlier plan". */
static void by_cells(void)
{
    const noughtelm_edge edges[] = {{1, 50}, {2, 50}};
    const plan plans[] = {{{1, 2}, 100}, {{2, 1}, 100}, {{0, 1}, 50}, {{0, 2}, 50},
                          {{1, 0}, 50},  {{2, 0}, 50},  {{0, 0}, 0}};
    const uint64_t shared[] = {0, 1, 2};
    noughtelm_board board = noughtelm_arrive(open_ones(2, 1, 10).board, edges, 2).board;
    board = noughtelm_arrive(board, edges, 2).board;
    in_order("by cells", board, plans, 7);
    /* Plans are only read: two may share their cells. */
    comparison_is("one list twice", noughtelm_compare(board, shared, 2, shared, 2), 0, 0, 0,
                  NOUGHTELM_SAME);
    comparison_is("lists that overlap", noughtelm_compare(board, shared, 2, shared + 1, 2), 0, 0, -50,
                  NOUGHTELM_LATER);
}

/* 64 items, each at its own bidder, of the greatest weight; and one bidder more at the last item. */
static void ends(void)
{
    const noughtelm_edge last[] = {{64, NOUGHTELM_MAX_WEIGHT - 1}};
    uint64_t all[65] = {0}, less[65] = {0}, none[65] = {0}, kept[65] = {0};
    noughtelm_board board = open_ones(64, 1, 2).board;
    for (uint64_t i = 0; i < 64; i++) {
        const noughtelm_edge edges[] = {{i + 1, NOUGHTELM_MAX_WEIGHT}};
        board = noughtelm_arrive(board, edges, 1).board;
        kept[i] = all[i] = i + 1;
        less[i] = i < 63 ? i + 1 : 0;
    }
    less[64] = 64;
    board = noughtelm_arrive(board, last, 1).board;
    comparison_is("64,000,000", noughtelm_compare(board, all, 65, none, 65), 0, 0, 64000000, 1);
    comparison_is("-64,000,000", noughtelm_compare(board, none, 65, all, 65), 0, 0, -64000000, 3);
    comparison_is("0", noughtelm_compare(board, all, 65, all, 65), 0, 0, 0, 2);
    comparison_is("1", noughtelm_compare(board, all, 65, less, 65), 0, 0, 1, 1);
    comparison_is("-1", noughtelm_compare(board, less, 65, all, 65), 0, 0, -1, 3);
    cells_are("the plan is kept", all, kept, 65);
}

/* A list of some cells that is lent as a plan, and what it is refused with, if at all. */
typedef struct lent {
    uint64_t cells[4];
    size_t count;
    uint64_t number, place;
} lent;

/* Three bidders; bidders 1 and 3 want item 2, bidder 2 item 3, and item 1 is gone. */
static noughtelm_board refusing(void)
{
    const noughtelm_edge edges[][2] = {{{1, 9}, {2, 5}}, {{1, 9}, {3, 5}}, {{1, 9}, {2, 5}}};
    noughtelm_board board = open_ones(3, 1, 10).board;
    for (int i = 0; i < 3; i++) {
        board = noughtelm_arrive(board, edges[i], 2).board;
    }
    return without(board, 1);
}

/* "13, then 9 and 10 for the first plan, then 9 and 10 for the second". */
static void refused(void)
{
    const lent lists[] = {
        {{2, 3, 0}, 3, 0, 0},
        {{0}, 0, 9, 0},
        {{2, 3}, 2, 9, 0},
        {{4, 4}, 2, 9, 0},
        {{2, 3, 0, 0}, 4, 9, 0},
        {{1, 3, 0}, 3, 10, 1},
        {{4, 3, 0}, 3, 10, 1},
        {{UINT64_MAX}, 3, 10, 1},
        {{0, 2, 0}, 3, 10, 2},
        {{2, 4, 2}, 3, 10, 2},
        {{2, 3, 2}, 3, 10, 3},
        {{0, 0, UINT64_MAX}, 3, 10, 3},
    };
    const size_t count = sizeof lists / sizeof *lists;
    const noughtelm_board board = refusing();
    noughtelm_board spoilt = board;
    spoilt.state.gain[0]++;
    for (size_t i = 0; i < count; i++) {
        for (size_t j = 0; j < count; j++) {
            lent one = lists[i], two = lists[j];
            const lent *met = &lists[one.number != 0 ? i : j];
            comparison_is("refused", noughtelm_compare(board, one.cells, one.count, two.cells, two.count),
                          met->number, met->place, 0, met->number == 0 ? NOUGHTELM_SAME : 0);
            comparison_is("13", noughtelm_compare(spoilt, one.cells, one.count, two.cells, two.count),
                          13, 0, 0, 0);
            bytes_are("the first list is kept", one.cells, lists[i].cells, sizeof one.cells);
            bytes_are("the second list is kept", two.cells, lists[j].cells, sizeof two.cells);
        }
    }
}

/* A list of 0 cells may have any pointer. */
static void no_cells(void)
{
    const uint64_t cells[] = {0, 0, 0};
    const noughtelm_board empty = open_ones(1, 1, 2).board, board = refusing();
    comparison_is("no pointer", noughtelm_compare(empty, NULL, 0, NULL, 0), 0, 0, 0, NOUGHTELM_SAME);
    comparison_is("any pointer", noughtelm_compare(empty, cells, 0, NULL, 0), 0, 0, 0, NOUGHTELM_SAME);
    comparison_is("a cell, no bidder", noughtelm_compare(empty, cells, 1, NULL, 0), 9, 0, 0, 0);
    comparison_is("no cell, bidders", noughtelm_compare(board, NULL, 0, cells, 3), 9, 0, 0, 0);
    comparison_is("no cell, bidders", noughtelm_compare(board, cells, 3, NULL, 0), 9, 0, 0, 0);
}

int main(void)
{
    by_weight();
    by_cells();
    ends();
    refused();
    no_cells();
    return all_checks();
}
