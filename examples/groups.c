/* Compares the groupings of a sheet's tree with those of a tree from elsewhere, a text with the sheet's names.

       groups SHEET TEXT

   A grouping is a split: the strains under an inner node, where the tree hangs from the sheet's first strain. Two
   groupings fit into one tree where one is in the other, so that their join is one of them, or where no strain is in
   both, so that their intersection is empty. */

#include "quartree.h"
#include "replies.h"
#include "sheet_file.h"
#include <stdio.h>
#include <string.h>

enum {
    MOST = QUARTREE_MOST_LEAVES,
    NUMBERS = QUARTREE_LISTING_NUMBERS(MOST),
    CELLS = QUARTREE_TABLE_CELLS(MOST),
    SET = QUARTREE_SET_BYTES
};

struct tree {
    const char *name;
    uint16_t listing[NUMBERS];
    uint8_t splits[QUARTREE_SPLIT_BYTES(MOST)];
};

static uint8_t sheet[SHEET_ROOM];
static size_t sheet_len, n;
static uint32_t table[CELLS];
static struct tree of_sheet = {.name = "sheet"}, of_text = {.name = "text"};

static void list_splits(struct tree *tree)
{
    accepted(quartree_splits(n, tree->listing, QUARTREE_LISTING_NUMBERS(n), tree->splits, sizeof tree->splits));
}

/* The splits stand one after the other. */
static const uint8_t *split(const struct tree *tree, size_t k) { return tree->splits + SET * k; }

static int equal(const uint8_t *a, const uint8_t *b)
{
    return QUARTREE_FIGURE(accepted(quartree_set_equal(a, SET, b, SET))) == 1;
}

/* The results go to sets of their own: an output overlaps no input. */
static int fit(const uint8_t *a, const uint8_t *b)
{
    static const uint8_t empty[SET];
    uint8_t joined[SET], common[SET];
    accepted(quartree_set_join(a, SET, b, SET, joined, SET));
    accepted(quartree_set_intersect(a, SET, b, SET, common, SET));
    return equal(joined, a) || equal(joined, b) || equal(common, empty);
}

static int has(const struct tree *tree, const uint8_t *set)
{
    for (size_t k = 0; k < n - 3; k++)
        if (equal(split(tree, k), set))
            return 1;
    return 0;
}

/* Prints the names of a set's strains: leaf k is bit k mod 8 of byte k div 8. */
static void print_set(const char *what, const uint8_t *set)
{
    printf("%s:", what);
    for (size_t leaf = 0; leaf < n; leaf++)
        if (set[leaf / 8] >> leaf % 8 & 1) {
            printf(" ");
            print_strain(sheet, sheet_len, leaf);
        }
    printf("\n");
}

/* Prints the groupings that only the first tree has, and after each those of the other that it does not fit with. */
static void print_alone(const struct tree *tree, const struct tree *other)
{
    for (size_t k = 0; k < n - 3; k++) {
        if (has(other, split(tree, k)))
            continue;
        print_set(tree->name, split(tree, k));
        for (size_t e = 0; e < n - 3; e++)
            if (!fit(split(tree, k), split(other, e)))
                print_set("    not in one tree with", split(other, e));
    }
}

int main(int argc, char **argv)
{
    if (argc != 3) {
        fprintf(stderr, "usage: groups SHEET TEXT\n");
        return 3;
    }
    sheet_len = read_sheet(argv[1], sheet);
    n = (size_t)QUARTREE_FIGURE(accepted(quartree_sheet_table(sheet, sheet_len, table, CELLS)));
    accepted(quartree_rebuild(n, QUARTREE_COUNTS, table, QUARTREE_TABLE_CELLS(n), of_sheet.listing, NUMBERS));
    accepted(quartree_import(sheet, sheet_len, (const uint8_t *)argv[2], strlen(argv[2]), of_text.listing, NUMBERS));
    list_splits(&of_sheet);
    list_splits(&of_text);

    for (size_t k = 0; k < n - 3; k++)
        if (has(&of_text, split(&of_sheet, k)))
            print_set("both", split(&of_sheet, k));
    print_alone(&of_sheet, &of_text);
    print_alone(&of_text, &of_sheet);
    return 0;
}
