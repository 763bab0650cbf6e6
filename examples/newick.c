/* Writes the tree of a strain sheet as Newick text, and reads such a text with the names of the sheet.

       newick SHEET          prints the text of the sheet's tree, and reads it again
       newick SHEET TEXT     says whether the text draws the sheet's tree */

#include "quartree.h"
#include "sheet_file.h"
#include <stdio.h>
#include <string.h>

enum { NUMBERS = QUARTREE_LISTING_NUMBERS(QUARTREE_MOST_LEAVES), CELLS = QUARTREE_TABLE_CELLS(QUARTREE_MOST_LEAVES) };

static uint8_t sheet[SHEET_ROOM], text[QUARTREE_TEXT_BYTES(QUARTREE_MOST_LEAVES)];
static uint32_t table[CELLS];
static uint16_t listing[NUMBERS], drawn[NUMBERS];

/* A refusal ends the program. 17 says where in the text it is. */
static uint64_t accepted(uint64_t reply)
{
    unsigned number = QUARTREE_NUMBER(reply);
    if (number == QUARTREE_ACCEPTED)
        return QUARTREE_FIGURE(reply);
    printf("refused %u: %s\n", number, quartree_refusal_text(number));
    if (number == QUARTREE_REFUSED_GRAMMAR)
        printf("at byte %llu\n", (unsigned long long)QUARTREE_FIGURE(reply));
    exit(2);
}

/* Does the text draw the tree of the listing? */
static int draws(size_t sheet_len, const uint8_t *from, size_t len, size_t numbers)
{
    accepted(quartree_import(sheet, sheet_len, from, len, drawn, numbers));
    return memcmp(drawn, listing, numbers * sizeof *listing) == 0;
}

int main(int argc, char **argv)
{
    if (argc != 2 && argc != 3) {
        fprintf(stderr, "usage: newick SHEET [TEXT]\n");
        return 3;
    }
    size_t sheet_len = read_sheet(argv[1], sheet);
    size_t n = (size_t)accepted(quartree_sheet_table(sheet, sheet_len, table, CELLS));
    size_t numbers = QUARTREE_LISTING_NUMBERS(n);
    accepted(quartree_rebuild(n, QUARTREE_COUNTS, table, QUARTREE_TABLE_CELLS(n), listing, numbers));

    if (argc == 3) {
        int same = draws(sheet_len, (const uint8_t *)argv[2], strlen(argv[2]), numbers);
        printf("%s\n", same ? "the sheet's tree" : "another tree");
        return 0;
    }
    /* No 0 byte ends the text: the reply has its length. */
    size_t len = (size_t)accepted(quartree_export(sheet, sheet_len, listing, numbers, text, sizeof text));
    printf("%.*s\n", (int)len, (const char *)text);
    printf("read again: %s\n", draws(sheet_len, text, len, numbers) ? "the same tree" : "another tree");
    return 0;
}
