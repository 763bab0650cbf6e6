/* Adds up a curator's poll, checks its total, rebuilds its tree, and shows the gap between the poll and a filed tree.

       poll CODES                one digit a quartet: the poll's pairing codes, in the order of its records
       poll CODES CHILD ...      the same, and the listing of the filed tree

   A curator who cannot decide leaves a tie: 3 for any pairing, or 4, 5 or 6 for any but one. A poll's table counts
   sixths, so each call that takes it is told QUARTREE_POLL. */

#include "quartree.h"
#include "listing_words.h"
#include <stdio.h>
#include <stdlib.h>
#include <string.h>

/* One number more than the longest listing, so that a longer one is refused and not cut. */
enum {
    MOST = QUARTREE_POLL_MOST_LEAVES, CELLS = QUARTREE_TABLE_CELLS(MOST), NUMBERS = QUARTREE_LISTING_NUMBERS(MOST) + 1
};

static struct quartree_record records[QUARTREE_POLL_RECORDS(MOST)];
static uint32_t table[CELLS];
static int64_t gaps[CELLS];
static uint16_t listing[NUMBERS];

/* A refusal ends the program. 11 says which record has the code. */
static void accepted(uint64_t reply)
{
    unsigned number = QUARTREE_NUMBER(reply);
    if (number == QUARTREE_ACCEPTED)
        return;
    printf("refused %u: %s\n", number, quartree_refusal_text(number));
    if (number == QUARTREE_REFUSED_PAIRING_CODE)
        printf("at record %u\n", (unsigned)QUARTREE_FIGURE(reply));
    exit(2);
}

/* How many strains a poll of so many records has, or 0. */
static size_t strains_of(size_t count)
{
    for (size_t n = QUARTREE_POLL_LEAST_LEAVES; n <= MOST; n++)
        if (QUARTREE_POLL_RECORDS(n) == count)
            return n;
    return 0;
}

/* A record for every four strains, in lexicographic order. */
static void fill_records(size_t n, const char *codes)
{
    struct quartree_record *record = records;
    for (size_t a = 0; a < n; a++)
        for (size_t b = a + 1; b < n; b++)
            for (size_t c = b + 1; c < n; c++)
                for (size_t d = c + 1; d < n; d++, record++) {
                    record->a = (uint8_t)a;
                    record->b = (uint8_t)b;
                    record->c = (uint8_t)c;
                    record->d = (uint8_t)d;
                    record->code = (uint8_t)(*codes++ - '0');
                }
}

/* Prints the table, and its total: twelve sixths a record, whatever the codes are. */
static void print_table(size_t n, size_t count)
{
    unsigned long total = 0;
    for (size_t i = 0; i < n; i++)
        for (size_t j = 0; j < n; j++) {
            total += i < j ? table[n * i + j] : 0;
            printf("%4lu%s", (unsigned long)table[n * i + j], j + 1 < n ? "" : "\n");
        }
    printf("total %lu, %s\n", total, total == 12 * count ? "12 a record" : "which no poll has");
}

/* Rebuilds the poll's tree. Where the curator is undecided, or decides against herself, no tree has the table. */
static void print_tree(size_t n)
{
    uint64_t reply = quartree_rebuild(n, QUARTREE_POLL, table, QUARTREE_TABLE_CELLS(n), listing,
                                      QUARTREE_LISTING_NUMBERS(n));
    if (QUARTREE_NUMBER(reply) == QUARTREE_REFUSED_NO_TREE) {
        printf("no tree has it\n");
        return;
    }
    accepted(reply);
    printf("the tree");
    for (size_t place = 0; place < QUARTREE_LISTING_NUMBERS(n); place++)
        printf(" %d", listing[place]);
    printf("\n");
}

/* Prints, in sixths, by how much the table is above or below the filed tree wherever it differs. */
static void print_gaps(size_t n, char **children, size_t len)
{
    int differs = 0;
    len = read_listing(children, len, listing, NUMBERS);
    accepted(quartree_gap(n, QUARTREE_POLL, table, QUARTREE_TABLE_CELLS(n), listing, len, gaps, CELLS));
    for (size_t i = 0; i < n; i++)
        for (size_t j = i + 1; j < n; j++)
            if (gaps[n * i + j] != 0) {
                printf("%s%zu,%zu %+ld", differs ? "; " : "gap at ", i, j, (long)gaps[n * i + j]);
                differs = 1;
            }
    printf("%s\n", differs ? "" : "the filed tree has it");
}

int main(int argc, char **argv)
{
    size_t count = argc < 2 ? 0 : strlen(argv[1]), n = strains_of(count);
    if (n == 0) {
        fprintf(stderr, "usage: poll CODES [CHILD ...], with a digit for each of the 1, 5, 15, 35 .. quartets\n");
        return 3;
    }
    fill_records(n, argv[1]);
    accepted(quartree_poll(n, records, count, table, CELLS));
    print_table(n, count);
    print_tree(n);
    if (argc > 2)
        print_gaps(n, argv + 2, (size_t)argc - 2);
    return 0;
}
