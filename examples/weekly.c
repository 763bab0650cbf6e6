/* A week with a collection of strains: two are added, one is dropped, and the table is kept beside the tree.

       weekly SHEET

   The collection starts as the tree of a sheet, or as a guess where no tree has the sheet's table. quartree_graft and
   quartree_prune take a tree only with its own table, so the table kept is counted from the tree once, at the start;
   from then on each change writes the new table beside the new tree. */

#include "quartree.h"
#include "sheet_file.h"
#include "tree_record.h"
#include <stdio.h>
#include <string.h>

enum { CELLS = QUARTREE_TABLE_CELLS(QUARTREE_MOST_LEAVES) };

struct collection {
    struct tree_record tree;
    uint32_t table[CELLS];
};

static uint8_t sheet[SHEET_ROOM];
static int64_t gaps[CELLS];
static struct collection now, next;
static uint32_t earlier[CELLS];

/* Is the reply an accepted one? A refusal is printed. */
static int accepted(uint64_t reply)
{
    unsigned number = QUARTREE_NUMBER(reply);
    if (number != QUARTREE_ACCEPTED)
        printf("refused %u: %s\n", number, quartree_refusal_text(number));
    return number == QUARTREE_ACCEPTED;
}

/* The tree of a sheet, with its own table. */
static int start(const char *path)
{
    size_t sheet_len = read_sheet(path, sheet);
    uint64_t reply = quartree_sheet_table(sheet, sheet_len, now.table, CELLS);
    if (!accepted(reply))
        return 0;
    size_t n = (size_t)QUARTREE_FIGURE(reply);
    reply = quartree_guess(n, QUARTREE_COUNTS, now.table, QUARTREE_TABLE_CELLS(n), now.tree.listing, RECORD_NUMBERS);
    if (!accepted(reply))
        return 0;
    now.tree.n = n;
    now.tree.origin = QUARTREE_GUESS_ORIGIN(reply);
    printf("at first: ");
    print_record(&now.tree);
    printf("\n");
    return accepted(quartree_table(n, now.tree.listing, QUARTREE_LISTING_NUMBERS(n), now.table, CELLS));
}

/* What was written is the collection now, unless the call was refused: then nothing was, and all stays. */
static int take(uint64_t reply, size_t n)
{
    if (!accepted(reply))
        return 0;
    next.tree.n = n;
    next.tree.origin = (uint32_t)QUARTREE_FIGURE(reply);
    now = next;
    print_record(&now.tree);
    printf("\n");
    return 1;
}

static int add(size_t edge, const uint32_t *table)
{
    size_t n = now.tree.n;
    printf("strain %u on edge %u: ", (unsigned)n, (unsigned)edge);
    return take(quartree_graft(n, now.tree.listing, QUARTREE_LISTING_NUMBERS(n), table, QUARTREE_TABLE_CELLS(n), edge,
                               next.tree.listing, RECORD_NUMBERS, next.table, CELLS),
                n + 1);
}

static int drop(size_t leaf)
{
    size_t n = now.tree.n;
    printf("without strain %u: ", (unsigned)leaf);
    return take(quartree_prune(n, now.tree.listing, QUARTREE_LISTING_NUMBERS(n), now.table, QUARTREE_TABLE_CELLS(n),
                               leaf, next.tree.listing, RECORD_NUMBERS, next.table, CELLS),
                n - 1);
}

/* Is the table kept the tree's own? Then no gap is left. */
static int own(void)
{
    size_t n = now.tree.n, cells = QUARTREE_TABLE_CELLS(n), place = 0;
    if (!accepted(quartree_gap(n, QUARTREE_COUNTS, now.table, cells, now.tree.listing, QUARTREE_LISTING_NUMBERS(n),
                               gaps, CELLS)))
        return 0;
    while (place < cells && gaps[place] == 0)
        place++;
    return place == cells;
}

int main(int argc, char **argv)
{
    if (argc != 2) {
        fprintf(stderr, "usage: weekly SHEET\n");
        return 3;
    }
    if (!start(argv[1]))
        return 2;

    /* The new strain goes beside strain 1, and the next one beside strain 0, which is dropped then. */
    if (!add(1, now.table))
        return 2;
    memcpy(earlier, now.table, sizeof earlier);
    if (!add(QUARTREE_EDGES(now.tree.n), now.table) || !drop(0))
        return 2;

    /* A table of before, though of as many strains, is not this tree's. */
    if (add(1, earlier))
        return 2;

    int kept = own();
    printf("the table kept is %s\n", kept ? "the tree's own" : "another's");
    return kept ? 0 : 2;
}
