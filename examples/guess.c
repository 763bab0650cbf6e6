/* Proposes a tree for a strain sheet whose table may be rough, and says how far to trust it.

       guess SHEET

   Where a tree has the table, that tree is rebuilt. Where none has, the tree is a guess: its total gap says how far off
   it is in all, and the pairs of strains that are furthest off are the first to look at. The tree is filed with its
   origin, so that nobody takes a guess for a rebuilt tree later.

   A thread that calls quartree_guess needs QUARTREE_GUESS_STACK_BYTES of stack, which main's has. */

#include "quartree.h"
#include "replies.h"
#include "sheet_file.h"
#include "tree_record.h"
#include <stdio.h>
#include <stdlib.h>

enum { CELLS = QUARTREE_TABLE_CELLS(QUARTREE_MOST_LEAVES) };

static uint8_t sheet[SHEET_ROOM], text[QUARTREE_TEXT_BYTES(QUARTREE_MOST_LEAVES)];
static size_t sheet_len;
static uint32_t table[CELLS];
static int64_t gaps[CELLS];
static struct tree_record tree;

/* Prints the pairs of strains that are furthest off, and by how much the table is above or below the tree there. */
static void print_furthest(size_t n)
{
    long long most = 0;
    accepted(quartree_gap(n, QUARTREE_COUNTS, table, QUARTREE_TABLE_CELLS(n), tree.listing, QUARTREE_LISTING_NUMBERS(n),
                          gaps, CELLS));
    for (size_t cell = 0; cell < QUARTREE_TABLE_CELLS(n); cell++)
        most = llabs(gaps[cell]) > most ? llabs(gaps[cell]) : most;
    for (size_t i = 0; i < n; i++)
        for (size_t j = i + 1; j < n; j++)
            if (llabs(gaps[n * i + j]) == most) {
                print_strain(sheet, sheet_len, i);
                printf(" and ");
                print_strain(sheet, sheet_len, j);
                printf(" are off by %+lld\n", (long long)gaps[n * i + j]);
            }
}

int main(int argc, char **argv)
{
    if (argc != 2) {
        fprintf(stderr, "usage: guess SHEET\n");
        return 3;
    }
    sheet_len = read_sheet(argv[1], sheet);
    size_t n = (size_t)QUARTREE_FIGURE(accepted(quartree_sheet_table(sheet, sheet_len, table, CELLS)));
    size_t numbers = QUARTREE_LISTING_NUMBERS(n);

    /* The figure has both, the total gap and the origin. */
    uint64_t reply = quartree_guess(n, QUARTREE_COUNTS, table, QUARTREE_TABLE_CELLS(n), tree.listing, numbers);
    accepted(reply);
    unsigned long long total = QUARTREE_GUESS_TOTAL(reply);
    tree.n = n;
    tree.origin = QUARTREE_GUESS_ORIGIN(reply);

    reply = accepted(quartree_export(sheet, sheet_len, tree.listing, numbers, text, sizeof text));
    printf("%.*s\n", (int)QUARTREE_FIGURE(reply), (const char *)text);
    if (tree.origin == QUARTREE_GUESSED) {
        printf("a guess, with a total gap of %llu\n", total);
        print_furthest(n);
    } else
        printf("rebuilt: the tree has the table\n");
    printf("filed: ");
    print_record(&tree);
    printf("\n");
    return 0;
}
