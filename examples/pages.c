/* A field printed: its total, the page for the binder, the board of the highest concentrations, and both again for the public, who are not
 * shown the middle cell. */
#include <inttypes.h>
#include <stdio.h>

#include "lagoon.h"

enum { CELLS = 3 };

static const uint64_t volumes[CELLS] = {100, 100, 100}, masses[CELLS] = {100099, 81188, 18713}, marks[CELLS] = {0, 1, 0};

static void print_page(const char *who, uint64_t answer, const uint8_t *page, uint64_t length)
{
    printf("%s:\n", who);
    if (answer == 0)
        fwrite(page, 1, (size_t)length, stdout);
    else
        printf("cause %" PRIu32 " (%s), place %" PRIu32 "\n", LAGOON_CAUSE(answer), lagoon_cause_text(LAGOON_CAUSE(answer)), LAGOON_PLACE(answer));
}

static void print_board(const uint64_t *board)
{
    for (uint64_t line = 0; line < board[0]; line++)
        printf("B %" PRIu64 " %" PRIu64 " %" PRIu64 "\n", board[1 + 3 * line], board[2 + 3 * line], board[3 + 3 * line]);
}

int main(void)
{
    uint8_t page[LAGOON_MOST_PAGE_BYTES];
    uint64_t length = 0, total = 0, board[LAGOON_BOARD_NUMBERS] = {0}, answer;

    if (lagoon_table_total(CELLS, volumes, CELLS, masses, CELLS, &total, 1) == 0)
        printf("total %" PRIu64 "\n", total);
    answer = lagoon_table_page(CELLS, volumes, CELLS, masses, CELLS, 0, page, sizeof page, &length, 1);
    print_page("for the binder", answer, page, length);
    if (lagoon_table_board(CELLS, volumes, CELLS, masses, CELLS, board, LAGOON_BOARD_NUMBERS) == 0)
        print_board(board);
    answer = lagoon_table_public_page(CELLS, volumes, CELLS, masses, CELLS, 0, page, sizeof page, marks, CELLS, &length, 1);
    print_page("for the public", answer, page, length);
    if (lagoon_table_public_board(CELLS, volumes, CELLS, masses, CELLS, marks, CELLS, board, LAGOON_BOARD_NUMBERS) == 0)
        print_board(board);
    /* pages are asked for until there is none */
    answer = lagoon_table_page(CELLS, volumes, CELLS, masses, CELLS, 1, page, sizeof page, &length, 1);
    print_page("the next page", answer, page, length);
    return 0;
}
