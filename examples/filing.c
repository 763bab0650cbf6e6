/* Files trees with where they came from, and shows which of them a lab may rely on to have the table of a sheet.

       filing SHEET TEXT CHILD ...

   Three trees are filed: the one that is rebuilt from the sheet's table, the one that the text draws with the sheet's
   names, and that of a listing of the lab's own. A tree that the part marked rebuilt has the table. Of the others this
   has to be measured; the mark stays what it is. */

#include "quartree.h"
#include "listing_words.h"
#include "sheet_file.h"
#include "tree_record.h"
#include <stdio.h>
#include <string.h>

enum { CELLS = QUARTREE_TABLE_CELLS(QUARTREE_MOST_LEAVES), TREES = 3 };

static uint8_t sheet[SHEET_ROOM];
static uint32_t table[CELLS];
static int64_t gaps[CELLS];
static struct tree_record trees[TREES], again;
static size_t count;

/* Is the reply an accepted one? A refusal is printed. */
static int accepted(uint64_t reply)
{
    unsigned number = QUARTREE_NUMBER(reply);
    if (number != QUARTREE_ACCEPTED)
        printf("not filed, refused %u: %s\n", number, quartree_refusal_text(number));
    return number == QUARTREE_ACCEPTED;
}

/* Files the tree whose listing stands in the next place, unless its call was refused: then there is no tree, and the
   figure is no origin. */
static void file_next(uint64_t reply, size_t n, uint32_t origin)
{
    if (accepted(reply)) {
        trees[count].n = n;
        trees[count].origin = origin;
        count++;
    }
}

/* Has the tree the sheet's table? What is rebuilt was rebuilt from it. Else the gap tells; a refusal is not to be
   expected, since the table and the listing were accepted before. */
static void print_reliance(const struct tree_record *tree)
{
    if (tree->origin == QUARTREE_REBUILT) {
        printf(": has the sheet's table\n");
        return;
    }
    size_t cells = QUARTREE_TABLE_CELLS(tree->n), place = 0;
    if (!accepted(quartree_gap(tree->n, QUARTREE_COUNTS, table, cells, tree->listing, QUARTREE_LISTING_NUMBERS(tree->n),
                               gaps, CELLS)))
        return;
    while (place < cells && gaps[place] == 0)
        place++;
    printf(": promises no table; measured, it has %s\n", place == cells ? "the sheet's" : "another");
}

int main(int argc, char **argv)
{
    if (argc < 3) {
        fprintf(stderr, "usage: filing SHEET TEXT CHILD ...\n");
        return 3;
    }
    size_t sheet_len = read_sheet(argv[1], sheet);
    uint64_t reply = quartree_sheet_table(sheet, sheet_len, table, CELLS);
    if (!accepted(reply))
        return 2;
    size_t n = (size_t)QUARTREE_FIGURE(reply);

    /* The calls that make a tree tell its origin. */
    reply = quartree_rebuild(n, QUARTREE_COUNTS, table, QUARTREE_TABLE_CELLS(n), trees[count].listing, RECORD_NUMBERS);
    file_next(reply, n, (uint32_t)QUARTREE_FIGURE(reply));
    reply = quartree_import(sheet, sheet_len, (const uint8_t *)argv[2], strlen(argv[2]), trees[count].listing,
                            RECORD_NUMBERS);
    file_next(reply, n, (uint32_t)QUARTREE_FIGURE(reply));

    /* A listing of one's own is listed, once it is checked. */
    size_t len = read_listing(argv + 3, (size_t)argc - 3, trees[count].listing, RECORD_NUMBERS);
    file_next(quartree_check(n, trees[count].listing, len), n, QUARTREE_LISTED);

    for (size_t k = 0; k < count; k++) {
        print_record(&trees[k]);
        print_reliance(&trees[k]);
    }

    /* The last one again, in the form in which trees are compared. It is the same tree and has the same origin. */
    if (count > 0) {
        const struct tree_record *last = &trees[count - 1];
        again.n = n;
        reply = quartree_restandardise(n, last->origin, last->listing, QUARTREE_LISTING_NUMBERS(n), again.listing,
                                       RECORD_NUMBERS);
        again.origin = (uint32_t)QUARTREE_FIGURE(reply);
        printf("restandardised: ");
        print_record(&again);
        printf("\n");
    }
    return count == TREES ? 0 : 2;
}
