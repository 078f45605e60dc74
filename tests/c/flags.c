/* A flag of a withdrawn item is 1 or 0. With any other byte there the board is not sound: 13. */
#include "checks.h"

/* Every call that takes a board answers 13 to this one, and keeps it and the lists. */
static void spoilt(const char *what, noughtelm_board board)
{
    const noughtelm_board before = board;
    const noughtelm_edge edges[] = {{1, 5}};
    const noughtelm_edge_buffer buffer = {{1}, {5}, 1};
    const uint64_t items[] = {1, 2, 64};
    uint64_t lists[] = {2, 1, 40, 0, 60, 50};
    const uint64_t kept[] = {2, 1, 40, 0, 60, 50};
    holds(what, !noughtelm_is_sound(board));
    const noughtelm_answer answers[] = {
        noughtelm_arrive(board, edges, 1),
        noughtelm_arrive(board, NULL, 0),
        noughtelm_arrive_buffer(board, buffer),
        noughtelm_withdraw(board, NULL, 0),
        noughtelm_withdraw(board, items, 1),
        noughtelm_withdraw(board, items + 1, 1),
        noughtelm_withdraw(board, items + 2, 1),
        noughtelm_withdraw(board, items, 3),
    };
    for (size_t i = 0; i < sizeof answers / sizeof *answers; i++) {
        told_is(what, told_of(&answers[i]), 13, 0, 0);
        board_is(what, &answers[i].board, &before);
    }
    told_is(what, noughtelm_read_out(board, lists, 2, lists + 2, 2, lists + 4, 2), 13, 0, 0);
    told_is(what, noughtelm_exact(board, lists, 2, lists + 2, 2, lists + 4, 2), 13, 0, 0);
    told_is(what, noughtelm_read_out(board, NULL, 0, NULL, 0, NULL, 0), 13, 0, 0);
    told_is(what, noughtelm_exact(board, NULL, 0, NULL, 0, NULL, 0), 13, 0, 0);
    told_is(what, noughtelm_count(board), 13, 0, 0);
    totals_are(what, noughtelm_check(board, lists, 2, lists + 2, 2, lists + 4, 2, 0, 1), 13, 0, 0, 0);
    comparison_is(what, noughtelm_compare(board, lists, 2, lists, 2), 13, 0, 0, 0);
    comparison_is(what, noughtelm_compare(board, NULL, 0, NULL, 0), 13, 0, 0, 0);
    cells_are(what, lists, kept, 6);
    board_is(what, &board, &before);
}

int main(void)
{
    const uint8_t bytes[] = {2, 3, 4, 127, 128, 254, 255};
    const noughtelm_board board = case_1();
    noughtelm_board other = without(board, 1);
    for (size_t i = 0; i < sizeof bytes; i++) {
        noughtelm_board unused = board, used = board, gone = other;
        unused.market.withdrawn[63] = bytes[i];
        spoilt("withdrawn[63]", unused);
        used.market.withdrawn[1] = bytes[i];
        spoilt("withdrawn[1]", used);
        gone.market.withdrawn[0] = bytes[i];
        spoilt("withdrawn[0], of an item that is withdrawn", gone);
    }
    /* A 1 is 13 at an item that there is not, and at one that a bidder holds. */
    other = board;
    other.market.withdrawn[63] = 1;
    spoilt("withdrawn[63] = 1", other);
    other = board;
    other.market.withdrawn[1] = 1;
    spoilt("withdrawn[1] = 1", other);
    return all_checks();
}
