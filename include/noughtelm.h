/*
 * The proved calls, for C11 and C++11: the functions of the crate `exports`, which stand in
 * crates/exports/out/libexports.a once `rt lib` in crates/exports has made it (x86-64).
 *
 * Names are the field's: document 01's kettle is an item here, its batch a bidder, its entry an
 * edge, its worth a weight, its plan a matching. What is between quotation marks below is
 * document 01's, or of document 02 where that is said. Weights are whole pence; prices and gains
 * are q-ths of a penny, where nothing else is said. Items and bidders are numbered from 1.
 *
 * An item has 1 to 8 places (document 02, R-6), each with its own price and at most one holder.
 * Places are numbered through from 1 in item order, those of an item side by side. Lists that are
 * lent have a cell for each item, not for each place: an item's price is its least, and a
 * matching may name it once per place.
 *
 * What a call answers. Number 0 says that the call served; its place is 0, and its value is said
 * at each call. Any other number is a refusal's:
 *
 *   number  word       place                              met when
 *    1      "count"    0                                  "kettles to open not 1 to 64"
 *    2      "slack"    0                                  "p or q outside its range"
 *    3      "full"     0                                  "128 batches have arrived"
 *    4      "unknown"  "entry", or item of a withdrawal   "kettle not 1 to k"
 *    5      "gone"     "entry", or item of a withdrawal   "kettle withdrawn"
 *    6      "worth"    "entry"                            "not 1 to 1,000,000"
 *    7      "order"    "entry", or item of a withdrawal   "kettle not above the entry before", or the
 *                                                          item before, of a `P` line that of the one
 *                                                          before
 *    8      "short"    0                                  "a list to be written has too few cells"
 *    9      "uneven"   0                                  "a list to be checked has another length", or
 *                                                          the counts of an opening
 *   10      "clash"    "batch"                            "cell neither 0 nor a kettle's number, or its
 *                                                          kettle gone, without entry for this batch, or
 *                                                          named by an earlier batch": by as many as
 *                                                          it has places
 *   11      "price"    "kettle, or k + batch for a gain"  "above 2,000,000,000, or a withdrawn kettle's
 *                                                          not 0": the limit is document 02's, R-7
 *   12      "bare"     "batch"                            "a live entry not covered"
 *   13      "spoilt"   0                                  "the board handed in is not sound"
 *   14      "line"     "line"                             "text not of the form below"
 *   15      "long"     0                                  "text above 65,536 bytes"
 *   16      "places"   item of an opening, or 0           "a count outside 1 to 8 at that kettle, else
 *                                                          over 64 in all at place 0" (document 02)
 *   17      "large"    0                                  "over 6 of either, withdrawn kettles' places
 *                                                          counted" (document 02, R-9): bidders, places
 *
 * Edges count from 1 in their list, and so do the items of a withdrawal. Of a text every refusal
 * but 8 and 15 has its line as place; it is line 1 where `P` lines come to over 64 places. A
 * refused call hands the board back as it was, and leaves every lent list as it was. Where several
 * are met, the first in the order given at the call is answered.
 *
 * How a list crosses: as a pointer to its first cell and the number of its cells, two arguments
 * side by side. No call takes a pointer without a number. Boards and answers cross by value.
 *
 * What a caller owes: that each pointer is to so many cells, which hold something and live
 * through the call (a list of 0 cells may have any pointer, NULL too); that a list to be written
 * overlaps no other list of the call; and a board that was set, by a call or with zeros. Nothing
 * else: whatever numbers, texts, lists and boards may hold, the answer is the one given here. A
 * board that is not sound, such as one of zeros, is 13.
 */
#ifndef NOUGHTELM_H
#define NOUGHTELM_H

#include <stdbool.h>
#include <stddef.h>
#include <stdint.h>

#define NOUGHTELM_MAX_ITEMS 64
/* The most places of one item, and of all. */
#define NOUGHTELM_MAX_COUNT 8
#define NOUGHTELM_MAX_PLACES 64
#define NOUGHTELM_MAX_BIDDERS 128
/* One more edge than there are items: so many decide every refusal of an arrival. */
#define NOUGHTELM_MAX_EDGES 65
#define NOUGHTELM_MAX_WEIGHT 1000000
#define NOUGHTELM_MAX_Q 1000
/* The most that a price or a gain may be that is handed to the check. */
#define NOUGHTELM_MAX_PRICE 2000000000
/* The most bytes of a text, and of what is printed of one: a list of so many is never short. */
#define NOUGHTELM_MAX_TEXT 65536
#define NOUGHTELM_MAX_OUTPUT 12610
/* The most bidders that the slow count takes, and the most places in all. */
#define NOUGHTELM_MAX_COUNTED 6
/* The most that a gain may be on a page, and the most bytes of a page. */
#define NOUGHTELM_MAX_GAIN 2000000000
#define NOUGHTELM_MAX_PAGE 3435

#ifdef __cplusplus
#define NOUGHTELM_HOLDS(fact) static_assert(fact, #fact)
extern "C" {
#else
#define NOUGHTELM_HOLDS(fact) _Static_assert(fact, #fact)
#endif

/* ---- The board */

/* The items, and how many places each has; 0 past the last. */
typedef struct noughtelm_items {
    uint64_t count;
    uint8_t places[NOUGHTELM_MAX_ITEMS];
} noughtelm_items;

/* The slack p/q. */
typedef struct noughtelm_slack {
    uint64_t p;
    uint64_t q;
} noughtelm_slack;

/* What the bids are made in, which are for places: its items are the places of all items. */
typedef struct noughtelm_market {
    uint64_t items;
    noughtelm_slack slack;
    uint64_t arrived;                        /* bidders */
    uint8_t withdrawn[NOUGHTELM_MAX_PLACES]; /* 1 where the place's item is withdrawn, else 0 */
} noughtelm_market;

/* What bids change. */
typedef struct noughtelm_state {
    uint64_t price[NOUGHTELM_MAX_PLACES];
    uint8_t holder[NOUGHTELM_MAX_PLACES]; /* the number of the bidder that holds the place, or 0 */
    uint64_t gain[NOUGHTELM_MAX_BIDDERS];
} noughtelm_state;

typedef struct noughtelm_board {
    noughtelm_items items;
    noughtelm_market market;
    noughtelm_state state;
    /*
     * Bidder i + 1's edge at place k + 1 is cell 64 * i + k: its weight, 0 where there is none. An
     * edge stands at every place of its item.
     */
    uint32_t weights[NOUGHTELM_MAX_BIDDERS * NOUGHTELM_MAX_PLACES];
} noughtelm_board;

/* An item's number and a weight. */
typedef struct noughtelm_edge {
    uint64_t item;
    uint64_t weight;
} noughtelm_edge;

/* Edges as two lists side by side. The first `count` are meant, and 65 at most. */
typedef struct noughtelm_edge_buffer {
    uint64_t items[NOUGHTELM_MAX_EDGES];
    uint64_t weights[NOUGHTELM_MAX_EDGES];
    uint64_t count;
} noughtelm_edge_buffer;

/* ---- Answers */

typedef struct noughtelm_told {
    uint64_t number;
    uint64_t place;
    uint64_t value; /* 0 of a refused call */
} noughtelm_told;

/* The same beside a board. */
typedef struct noughtelm_answer {
    noughtelm_board board;
    uint64_t number;
    uint64_t place;
    uint64_t value; /* 0 of a refused call, other than a replay */
} noughtelm_answer;

/* The answer of the check. */
typedef struct noughtelm_totals {
    uint64_t number;
    uint64_t place;
    uint64_t weight; /* of the matching; 0 of a refused call */
    uint64_t total;  /* of the prices and gains; 0 of a refused call */
} noughtelm_totals;

/* Where the first of two plans stands beside the second. 0 is that of a refused call. */
#define NOUGHTELM_EARLIER 1
#define NOUGHTELM_SAME 2
#define NOUGHTELM_LATER 3

/* The answer of a comparison. */
typedef struct noughtelm_comparison {
    uint64_t number;
    uint64_t place;
    int64_t difference; /* in pence: the first's weight less the second's; 0 of a refused call */
    uint64_t order;     /* of the first plan: earlier, same or later; 0 of a refused call */
} noughtelm_comparison;

/* ---- Calls that make a board, change it and read it */

/*
 * A board of so many items with slack p/q, 1 <= p < q <= 1000, and with so many places each: "The
 * opening call is lent the counts, a cell per kettle" (document 02, R-6), 1 to 8, and 64 at most
 * in all. The list is only read. Refusals: 1, 2, 9, 16; the board is then all zeros. The value is
 * 0.
 */
noughtelm_answer noughtelm_open(uint64_t items, uint64_t p, uint64_t q, const uint64_t *counts,
                                size_t counts_len);

/*
 * A new bidder arrives with a list of edges, of strictly rising items; the list may be empty.
 * Refusals: 13, 3, then edge by edge 4, 5, 6, 7. The value is the number of bids.
 */
noughtelm_answer noughtelm_arrive(noughtelm_board board, const noughtelm_edge *edges,
                                  size_t edges_len);

/* The same with the edges of a buffer. */
noughtelm_answer noughtelm_arrive_buffer(noughtelm_board board, noughtelm_edge_buffer buffer);

/*
 * A list of items is withdrawn, in strictly rising order (document 02, R-3): "All go first; then
 * the displaced batches bid in number order, each chain run to its end". Each item goes with all
 * its places. The list may be empty, which changes nothing, and is only read. Refusals: 13,
 * then item by item 4, 5, 7, with the item's place in the list; nothing is withdrawn then. Whether
 * an item is gone is read off the board handed in: one that is not, named twice, is 7. The value
 * is the number of bids.
 */
noughtelm_answer noughtelm_withdraw(noughtelm_board board, const uint64_t *items,
                                    size_t items_len);

/* Whether a board is sound. */
bool noughtelm_is_sound(noughtelm_board board);

/*
 * Writes the matching (an item's number, 0 for none), the prices and the gains: a cell for each
 * bidder that has arrived, each item, each bidder. An item's price is the least of its places'
 * (document 02, R-6). Further cells are kept. Refusals: 13, 8. The value is 0.
 */
noughtelm_told noughtelm_read_out(noughtelm_board board, uint64_t *plan, size_t plan_len,
                                  uint64_t *prices, size_t prices_len, uint64_t *gains,
                                  size_t gains_len);

/* ---- The exact level, the slow count, the check, and two plans side by side */

/*
 * Writes a matching of greatest weight, and prices and gains in whole pence that cover the live
 * edges and have that weight as their sum, in which a price counts once for each place of its
 * item, withdrawn items at 0; cells as for a read-out. Refusals: 13, 8. The value is the greatest
 * weight.
 */
noughtelm_told noughtelm_exact(noughtelm_board board, uint64_t *plan, size_t plan_len,
                               uint64_t *prices, size_t prices_len, uint64_t *gains,
                               size_t gains_len);

/*
 * The slow count (document 02, R-9), for boards of up to 6 bidders and 6 places: it "tries every
 * free kettle and none for the first batch, then does likewise for the rest". Refusals: 13, 17,
 * where the places of withdrawn items count. The value is the greatest weight, the exact level's.
 */
noughtelm_told noughtelm_count(noughtelm_board board);

/*
 * Checks a matching, prices and gains, of exactly so many cells, against the board's live edges
 * at a slack p/q, 0 <= p < q <= 1000: 0/1 for prices and gains in whole pence. A price counts
 * once for each place of its item. The lists are only read. Refusals: 13, 2, 9, 10, 11, 12, lowest
 * place first.
 */
noughtelm_totals noughtelm_check(noughtelm_board board, const uint64_t *plan, size_t plan_len,
                                 const uint64_t *prices, size_t prices_len, const uint64_t *gains,
                                 size_t gains_len, uint64_t p, uint64_t q);

/*
 * Compares two plans, each of exactly a cell for each bidder, on the board's live edges (document
 * 02, R-4): "the difference in pence, negative where the first is worth less", and the order, "the
 * greater worth first, then by the plan's cells, the first smaller cell making the earlier plan".
 * The plans are only read. Refusals: "13, then 9 and 10 for the first plan, then 9 and 10 for the
 * second"; which of the two was refused is not told.
 */
noughtelm_comparison noughtelm_compare(noughtelm_board board, const uint64_t *first,
                                       size_t first_len, const uint64_t *second, size_t second_len);

/* ---- Calls on a history text */

/*
 * Replays a text. The board is the one after its last line, or before its refused line (all
 * zeros, where no board was opened). Refusals: 15, then line by line 14 and those of the line's
 * call, with the line as place; of a `P` line 4, 7, 16, and 16 at line 1 where there are then over
 * 64 places, with the board before that `P` line. The value is the number of bids in all, of a
 * refused text those before that line.
 */
noughtelm_answer noughtelm_replay(const uint8_t *text, size_t text_len);

/*
 * Replays a text and writes its plan, the lines `P`, `Y`, `T` and `E`. Further cells are kept.
 * Refusals: those of the replay, then 8. The value is the number of bytes written.
 */
noughtelm_told noughtelm_plan_text(const uint8_t *text, size_t text_len, uint8_t *out,
                                   size_t out_len);

/*
 * Writes the line that a refused text prints: `R`, number, line. Any numbers will do. Further
 * cells are kept. Refusal: 8. The value is the number of bytes written.
 */
noughtelm_told noughtelm_refusal_line(uint64_t number, uint64_t line, uint8_t *out,
                                      size_t out_len);

/*
 * Replays a text and writes what the program prints of it: its plan, or the line of its refusal.
 * Further cells are kept. Refusal: 8. The value is the number of bytes written.
 */
noughtelm_told noughtelm_sheet_text(const uint8_t *text, size_t text_len, uint8_t *out,
                                    size_t out_len);

/* ---- The page for the kitchen wall (document 02, R-2) */

/*
 * Writes the page of a board: "batch (3 columns), kettle (2, or `--`), worth (7, 0 if unplaced)
 * and gain (10, 0 if unplaced)", a line for each bidder that has arrived, with a heading before
 * each 40. Further cells are kept. Refusals: 13, 8. The value is the number of bytes written.
 */
noughtelm_told noughtelm_write_page(noughtelm_board board, uint8_t *page, size_t page_len);

/*
 * Reads a page: writes the matching (an item's number, 0 for none), the weights and the gains, a
 * cell of each list for each bidder on it. Further cells are kept. A page may name an item more
 * than once. Refusals: 15, 14 with the first bad line as place, 8. The value is the number of
 * bidders.
 */
noughtelm_told noughtelm_read_page(const uint8_t *text, size_t text_len, uint64_t *plan,
                                   size_t plan_len, uint64_t *weights, size_t weights_len,
                                   uint64_t *gains, size_t gains_len);

/*
 * Replays a history text and writes the page of the board that it reaches, or the line of its
 * refusal: what `./plan --page` prints. Further cells are kept. Refusal: 8. The value is the number
 * of bytes written.
 */
noughtelm_told noughtelm_page_text(const uint8_t *text, size_t text_len, uint8_t *out,
                                   size_t out_len);

/* ---- The layout that the library has */

NOUGHTELM_HOLDS(sizeof(size_t) == 8);
NOUGHTELM_HOLDS(sizeof(bool) == 1);

NOUGHTELM_HOLDS(sizeof(noughtelm_items) == 72);
NOUGHTELM_HOLDS(offsetof(noughtelm_items, count) == 0);
NOUGHTELM_HOLDS(offsetof(noughtelm_items, places) == 8);

NOUGHTELM_HOLDS(sizeof(noughtelm_slack) == 16);
NOUGHTELM_HOLDS(offsetof(noughtelm_slack, q) == 8);

NOUGHTELM_HOLDS(sizeof(noughtelm_market) == 96);
NOUGHTELM_HOLDS(offsetof(noughtelm_market, items) == 0);
NOUGHTELM_HOLDS(offsetof(noughtelm_market, slack) == 8);
NOUGHTELM_HOLDS(offsetof(noughtelm_market, arrived) == 24);
NOUGHTELM_HOLDS(offsetof(noughtelm_market, withdrawn) == 32);

NOUGHTELM_HOLDS(sizeof(noughtelm_state) == 1600);
NOUGHTELM_HOLDS(offsetof(noughtelm_state, price) == 0);
NOUGHTELM_HOLDS(offsetof(noughtelm_state, holder) == 512);
NOUGHTELM_HOLDS(offsetof(noughtelm_state, gain) == 576);

NOUGHTELM_HOLDS(sizeof(noughtelm_board) == 34536);
NOUGHTELM_HOLDS(offsetof(noughtelm_board, items) == 0);
NOUGHTELM_HOLDS(offsetof(noughtelm_board, market) == 72);
NOUGHTELM_HOLDS(offsetof(noughtelm_board, state) == 168);
NOUGHTELM_HOLDS(offsetof(noughtelm_board, weights) == 1768);

NOUGHTELM_HOLDS(sizeof(noughtelm_edge) == 16);
NOUGHTELM_HOLDS(offsetof(noughtelm_edge, weight) == 8);

NOUGHTELM_HOLDS(sizeof(noughtelm_edge_buffer) == 1048);
NOUGHTELM_HOLDS(offsetof(noughtelm_edge_buffer, weights) == 520);
NOUGHTELM_HOLDS(offsetof(noughtelm_edge_buffer, count) == 1040);

NOUGHTELM_HOLDS(sizeof(noughtelm_told) == 24);
NOUGHTELM_HOLDS(offsetof(noughtelm_told, place) == 8);
NOUGHTELM_HOLDS(offsetof(noughtelm_told, value) == 16);

NOUGHTELM_HOLDS(sizeof(noughtelm_answer) == 34560);
NOUGHTELM_HOLDS(offsetof(noughtelm_answer, board) == 0);
NOUGHTELM_HOLDS(offsetof(noughtelm_answer, number) == 34536);
NOUGHTELM_HOLDS(offsetof(noughtelm_answer, place) == 34544);
NOUGHTELM_HOLDS(offsetof(noughtelm_answer, value) == 34552);

NOUGHTELM_HOLDS(sizeof(noughtelm_totals) == 32);
NOUGHTELM_HOLDS(offsetof(noughtelm_totals, place) == 8);
NOUGHTELM_HOLDS(offsetof(noughtelm_totals, weight) == 16);
NOUGHTELM_HOLDS(offsetof(noughtelm_totals, total) == 24);

NOUGHTELM_HOLDS(sizeof(noughtelm_comparison) == 32);
NOUGHTELM_HOLDS(offsetof(noughtelm_comparison, place) == 8);
NOUGHTELM_HOLDS(offsetof(noughtelm_comparison, difference) == 16);
NOUGHTELM_HOLDS(offsetof(noughtelm_comparison, order) == 24);

#ifdef __cplusplus
}
#endif
#undef NOUGHTELM_HOLDS

#endif
