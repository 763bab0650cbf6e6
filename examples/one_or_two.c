/* Answers the curator's question for two sheets of the same strains, plate and vial: is that one tree or two?

       one_or_two PLATE VIAL

   Each sheet's table is rebuilt by itself. Whatever the order of merges was, the standard listing is the tree's only
   one, so two trees are the same exactly when their standard listings are equal. */

#include "quartree.h"
#include "sheet_file.h"
#include <stdio.h>
#include <string.h>

enum { NUMBERS = QUARTREE_LISTING_NUMBERS(QUARTREE_MOST_LEAVES), CELLS = QUARTREE_TABLE_CELLS(QUARTREE_MOST_LEAVES) };

struct typing {
    uint8_t sheet[SHEET_ROOM];
    size_t len;
    size_t n;
    uint32_t table[CELLS];
    uint16_t listing[NUMBERS];
};

/* Reads a sheet and rebuilds its tree. A refusal ends the program. */
static void rebuild(const char *path, struct typing *typing)
{
    typing->len = read_sheet(path, typing->sheet);
    uint64_t reply = quartree_sheet_table(typing->sheet, typing->len, typing->table, CELLS);
    if (QUARTREE_NUMBER(reply) == QUARTREE_ACCEPTED) {
        typing->n = (size_t)QUARTREE_FIGURE(reply);
        reply = quartree_rebuild(typing->n, QUARTREE_COUNTS, typing->table, QUARTREE_TABLE_CELLS(typing->n),
                                 typing->listing, NUMBERS);
    }
    if (QUARTREE_NUMBER(reply) != QUARTREE_ACCEPTED) {
        printf("%s: refused %u: %s\n", path, QUARTREE_NUMBER(reply), quartree_refusal_text(QUARTREE_NUMBER(reply)));
        exit(2);
    }
}

/* Is the same strain at this leaf of both sheets? */
static int same_strain(const struct typing *first, const struct typing *second, size_t leaf)
{
    uint64_t one = quartree_sheet_name(first->sheet, first->len, leaf);
    uint64_t other = quartree_sheet_name(second->sheet, second->len, leaf);
    return QUARTREE_NUMBER(one) == QUARTREE_ACCEPTED && QUARTREE_NUMBER(other) == QUARTREE_ACCEPTED
        && QUARTREE_FIGURE_Y(one) == QUARTREE_FIGURE_Y(other)
        && memcmp(first->sheet + QUARTREE_FIGURE_X(one), second->sheet + QUARTREE_FIGURE_X(other),
                  QUARTREE_FIGURE_Y(one)) == 0;
}

int main(int argc, char **argv)
{
    if (argc != 3) {
        fprintf(stderr, "usage: one_or_two PLATE VIAL\n");
        return 3;
    }
    static struct typing plate, vial;
    rebuild(argv[1], &plate);
    rebuild(argv[2], &vial);
    for (size_t leaf = 0; leaf < plate.n || leaf < vial.n; leaf++)
        if (!same_strain(&plate, &vial, leaf)) {
            printf("not the same strains: leaf %zu\n", leaf);
            return 2;
        }
    size_t bytes = QUARTREE_LISTING_NUMBERS(plate.n) * sizeof plate.listing[0];
    printf("%s\n", memcmp(plate.listing, vial.listing, bytes) == 0 ? "one tree" : "two trees");
    return 0;
}
