/* A curator's screen: shows how well a new strain fits on each edge of a tree, and puts it where it fits best.

       look SHEET NEW

   SHEET has a tree, which is kept with its table. NEW has the same strains in the same order, and the new one last; its
   table may be rough. What is shown of an edge is the total gap that the tree would have from the new table with the
   new strain there, 0 where it would have the table; a star marks the least. Looking changes neither the tree nor a
   table. */

#include "quartree.h"
#include "replies.h"
#include "sheet_file.h"
#include "tree_record.h"
#include <stdio.h>
#include <string.h>

enum { CELLS = QUARTREE_TABLE_CELLS(QUARTREE_MOST_LEAVES), EDGES = QUARTREE_EDGES(QUARTREE_MOST_LEAVES) };

struct sheet {
    uint8_t bytes[SHEET_ROOM];
    size_t len, n;
    uint32_t table[CELLS];
};

static struct sheet kept, fresh;
static struct tree_record tree, grafted;
static uint32_t grafted_table[CELLS];
static uint64_t totals[EDGES];
static uint8_t text[QUARTREE_TEXT_BYTES(QUARTREE_MOST_LEAVES)];

static void read_table(const char *path, struct sheet *sheet)
{
    sheet->len = read_sheet(path, sheet->bytes);
    sheet->n = (size_t)QUARTREE_FIGURE(accepted(quartree_sheet_table(sheet->bytes, sheet->len, sheet->table, CELLS)));
}

/* Does the new sheet start with the names of the other? They end with that of the last strain. */
static int same_strains(void)
{
    uint64_t last = accepted(quartree_sheet_name(kept.bytes, kept.len, kept.n - 1));
    return memcmp(kept.bytes, fresh.bytes, QUARTREE_NAME_OFFSET(last) + QUARTREE_NAME_LENGTH(last)) == 0;
}

/* The total gap with the new strain on every edge: that of edge 1 comes first. */
static void look_at_all(void)
{
    accepted(quartree_look_all(kept.n, QUARTREE_COUNTS, tree.listing, QUARTREE_LISTING_NUMBERS(kept.n), kept.table,
                               QUARTREE_TABLE_CELLS(kept.n), fresh.table, QUARTREE_TABLE_CELLS(fresh.n), totals,
                               EDGES));
}

/* The same for one edge, as when the curator points at it. */
static uint64_t look_at(size_t edge)
{
    return QUARTREE_FIGURE(accepted(quartree_look(
        kept.n, QUARTREE_COUNTS, tree.listing, QUARTREE_LISTING_NUMBERS(kept.n), kept.table,
        QUARTREE_TABLE_CELLS(kept.n), edge, fresh.table, QUARTREE_TABLE_CELLS(fresh.n))));
}

/* Prints the strains below an edge. Its number is that of the leaf or of the node below it. */
static void print_below(size_t number)
{
    if (number < tree.n) {
        printf(" ");
        print_strain(kept.bytes, kept.len, number);
    } else {
        const uint16_t *children = tree.listing + 2 * (number - tree.n);
        print_below(children[0]);
        print_below(children[1]);
    }
}

/* Puts the new strain on an edge. The table to be kept from then on is written beside the tree. */
static void graft(size_t edge)
{
    uint64_t reply = accepted(quartree_graft(kept.n, tree.listing, QUARTREE_LISTING_NUMBERS(kept.n), kept.table,
                                             QUARTREE_TABLE_CELLS(kept.n), edge, grafted.listing, RECORD_NUMBERS,
                                             grafted_table, CELLS));
    grafted.n = kept.n + 1;
    grafted.origin = (uint32_t)QUARTREE_FIGURE(reply);
}

int main(int argc, char **argv)
{
    if (argc != 3) {
        fprintf(stderr, "usage: look SHEET NEW\n");
        return 3;
    }
    read_table(argv[1], &kept);
    read_table(argv[2], &fresh);
    if (!same_strains()) {
        printf("the new sheet has other strains\n");
        return 2;
    }

    /* A rebuilt tree has the table of the sheet, so that is the table to keep. */
    uint64_t reply = accepted(quartree_rebuild(kept.n, QUARTREE_COUNTS, kept.table, QUARTREE_TABLE_CELLS(kept.n),
                                               tree.listing, RECORD_NUMBERS));
    tree.n = kept.n;
    tree.origin = (uint32_t)QUARTREE_FIGURE(reply);

    look_at_all();
    size_t best = 1;
    for (size_t edge = 2; edge <= QUARTREE_EDGES(tree.n); edge++)
        if (totals[edge - 1] < totals[best - 1])
            best = edge;
    for (size_t edge = 1; edge <= QUARTREE_EDGES(tree.n); edge++) {
        printf("%c edge %zu, total gap %llu, above", edge == best ? '*' : ' ', edge,
               (unsigned long long)totals[edge - 1]);
        print_below(edge);
        printf("\n");
    }
    if (look_at(best) != totals[best - 1])
        return 2;

    graft(best);
    print_strain(fresh.bytes, fresh.len, tree.n);
    reply = accepted(quartree_export(fresh.bytes, fresh.len, grafted.listing, QUARTREE_LISTING_NUMBERS(grafted.n), text,
                                     sizeof text));
    printf(" on edge %zu: %.*s\nfiled: ", best, (int)QUARTREE_FIGURE(reply), (const char *)text);
    print_record(&grafted);
    printf("\n");
    return 0;
}
