/* Rebuilds the tree of a strain sheet and prints its standard listing, one line a row: node, first child, second child.

       five SHEET */

#include "quartree.h"
#include "sheet_file.h"
#include <stdio.h>

/* The number at a place of a listing that is lent as bytes, low byte first. */
static unsigned number_at(const uint8_t *listing, size_t place)
{
    return listing[2 * place] + 256u * listing[2 * place + 1];
}

int main(int argc, char **argv)
{
    if (argc != 2) {
        fprintf(stderr, "usage: five SHEET\n");
        return 3;
    }

    uint8_t sheet[SHEET_ROOM];
    size_t len = read_sheet(argv[1], sheet);

    /* A good sheet says its leaf count, and so the room that its listing takes; a bad one is refused by both calls. */
    uint64_t reply = quartree_check_sheet(sheet, len);
    size_t n = (size_t)QUARTREE_FIGURE(reply);
    unsigned number = QUARTREE_NUMBER(reply);
    uint8_t listing[QUARTREE_LISTING_BYTES(QUARTREE_MOST_LEAVES)];
    if (number == QUARTREE_ACCEPTED)
        number = quartree_rebuild_sheet(sheet, len, listing, QUARTREE_LISTING_BYTES(n));
    if (number != QUARTREE_ACCEPTED) {
        printf("refused %u\n", number);
        return 2;
    }

    printf("leaves %zu\n", n);
    for (size_t row = 0; row < n - 2; row++)
        printf("%zu %u %u\n", n + row, number_at(listing, 2 * row), number_at(listing, 2 * row + 1));
    printf("end\n");
    return 0;
}
