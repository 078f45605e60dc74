/*
 * The page for the kitchen wall (document 02, R-2), by the calls of noughtelm.h. Bidder 1 finds 1,000
 * and 600, bidder 2 900 and 500, each the greater at an item of its own; bidder 3 is unplaced.
 */
#include "checks.h"

#define HEADING "BAT KT   WORTH       GAIN\n"
#define EVENING "K\t3\t1\t10\nA\t1\t100\t2\t60\nA\t2\t90\t3\t50\nA\n"
#define PAGE HEADING "  1  1     100        600\n  2  2      90        500\n  3 --       0          0\n"
#define BYTES (sizeof(PAGE) - 1)
#define PAGE_1 HEADING "  1  2      60          0\n  2  1      90          0\n"
#define BYTES_1 (sizeof(PAGE_1) - 1)

static noughtelm_board board(void)
{
    return noughtelm_replay(TEXT(EVENING)).board;
}

static void writing(void)
{
    uint8_t page[NOUGHTELM_MAX_PAGE], kept[NOUGHTELM_MAX_PAGE];
    memset(page, 7, sizeof page);
    memset(kept, 7, sizeof kept);
    told_is("8, no cell", noughtelm_write_page(board(), NULL, 0), 8, 0, 0);
    told_is("8, a cell too few", noughtelm_write_page(board(), page, BYTES - 1), 8, 0, 0);
    noughtelm_board spoilt = board();
    spoilt.state.gain[2] = 1;
    told_is("13 before 8", noughtelm_write_page(spoilt, page, 0), 13, 0, 0);
    told_is("13", noughtelm_write_page(spoilt, page, sizeof page), 13, 0, 0);
    bytes_are("kept by 8 and 13", page, kept, sizeof page);
    told_is("written", noughtelm_write_page(board(), page, sizeof page), 0, 0, BYTES);
    bytes_are("the page", page, PAGE, BYTES);
    bytes_are("further cells", page + BYTES, kept, sizeof page - BYTES);
    told_is("no bidder", noughtelm_write_page(open_ones(1, 1, 2).board, page, 26), 0, 0, 26);
    bytes_are("the heading alone", page, HEADING, 26);
}

static void reading(void)
{
    const uint64_t items[] = {1, 2, 0, 7}, worths[] = {100, 90, 0, 7}, most[] = {600, 500, 0, 7};
    uint64_t plan[] = {7, 7, 7, 7}, weights[] = {7, 7, 7, 7}, gains[] = {7, 7, 7, 7};
    const uint64_t kept[] = {7, 7, 7, 7};
    told_is("14, empty", noughtelm_read_page(NULL, 0, NULL, 0, NULL, 0, NULL, 0), 14, 1, 0);
    told_is("14, open end", noughtelm_read_page((const uint8_t *)PAGE, BYTES - 1, plan, 0, weights, 0, gains, 0), 14, 4, 0);
    told_is("14, leading zero", noughtelm_read_page(TEXT(HEADING "  1 02      60        600\n"), plan, 4, weights, 4, gains, 4), 14, 2, 0);
    told_is("14, unplaced with a gain", noughtelm_read_page(TEXT(HEADING "  1 --       0          1\n"), plan, 4, weights, 4, gains, 4), 14, 2, 0);
    told_is("8, plan", noughtelm_read_page(TEXT(PAGE), plan, 2, weights, 4, gains, 4), 8, 0, 0);
    told_is("8, weights", noughtelm_read_page(TEXT(PAGE), plan, 4, weights, 2, gains, 4), 8, 0, 0);
    told_is("8, gains", noughtelm_read_page(TEXT(PAGE), plan, 4, weights, 4, gains, 2), 8, 0, 0);
    cells_are("kept, plan", plan, kept, 4);
    cells_are("kept, weights", weights, kept, 4);
    cells_are("kept, gains", gains, kept, 4);
    told_is("read", noughtelm_read_page(TEXT(PAGE), plan, 4, weights, 4, gains, 4), 0, 0, 3);
    cells_are("plan", plan, items, 4);
    cells_are("weights", weights, worths, 4);
    cells_are("gains", gains, most, 4);
}

static void too_long(void)
{
    static uint8_t text[NOUGHTELM_MAX_TEXT + 1];
    told_is("15", noughtelm_read_page(text, sizeof text, NULL, 0, NULL, 0, NULL, 0), 15, 0, 0);
    told_is("14 at the limit", noughtelm_read_page(text, sizeof text - 1, NULL, 0, NULL, 0, NULL, 0), 14, 1, 0);
}

static void of_a_text(void)
{
    uint8_t out[NOUGHTELM_MAX_PAGE];
    told_is("a text's page", noughtelm_page_text(TEXT(EVENING), out, sizeof out), 0, 0, BYTES);
    bytes_are("a text's page", out, PAGE, BYTES);
    told_is("case 1's page", noughtelm_page_text(TEXT(CASE_1), out, sizeof out), 0, 0, BYTES_1);
    bytes_are("case 1's page", out, PAGE_1, BYTES_1);
    told_is("a refused text", noughtelm_page_text(TEXT("K\t0\t1\t2\n"), out, sizeof out), 0, 0, 6);
    bytes_are("a refused text", out, "R\t1\t1\n", 6);
    told_is("8 of a text", noughtelm_page_text(TEXT("K\t1\t1\t2\n"), out, 25), 8, 0, 0);
}

int main(void)
{
    writing();
    reading();
    too_long();
    of_a_text();
    return all_checks();
}
