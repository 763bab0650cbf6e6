/* Rebuilds one table by three lists of proposed merges: a list, the same merges in another order, and a list that is
   refused at a step.

   The table is that of the five-strain sheet. Its tree has leaves 0 and 1 on one inner node, 3 and 4 on another, and 2
   between them. */

#include "quartree.h"
#include <stdio.h>
#include <string.h>

enum { N = 5, NUMBERS = QUARTREE_LISTING_NUMBERS(N), FILL = 999 };

static const uint32_t table[QUARTREE_TABLE_CELLS(N)] = {
    0, 3, 1, 0, 0,
    3, 0, 1, 0, 0,
    1, 1, 0, 1, 1,
    0, 0, 1, 0, 3,
    0, 0, 1, 3, 0,
};

/* Proposes a list of merges and prints what becomes of it. */
static void propose(const uint16_t merges[QUARTREE_MERGE_NUMBERS(N)])
{
    uint16_t listing[NUMBERS], before[NUMBERS];
    for (size_t place = 0; place < NUMBERS; place++)
        listing[place] = before[place] = FILL;

    for (size_t step = 0; step < QUARTREE_MERGES(N); step++)
        printf("%s%d %d", step == 0 ? "" : ", ", merges[2 * step], merges[2 * step + 1]);
    printf("\n");

    uint64_t reply = quartree_rebuild_guided(N, QUARTREE_COUNTS, table, QUARTREE_TABLE_CELLS(N), merges,
                                             QUARTREE_MERGE_NUMBERS(N), listing, NUMBERS);
    unsigned number = QUARTREE_NUMBER(reply);
    if (number == QUARTREE_ACCEPTED) {
        printf("  accepted, listing");
        for (size_t place = 0; place < NUMBERS; place++)
            printf(" %d", listing[place]);
        printf("\n");
        return;
    }
    printf("  refused %u: %s\n", number, quartree_refusal_text(number));
    if (number == QUARTREE_REFUSED_PROPOSAL) {
        size_t step = (size_t)QUARTREE_FIGURE(reply);
        printf("  at step %zu, which names %d and %d\n", step, merges[2 * step], merges[2 * step + 1]);
    }
    printf("  the buffer is %s\n", memcmp(listing, before, sizeof listing) == 0 ? "as it was" : "changed");
}

int main(void)
{
    const uint16_t list[] = {3, 4, 0, 1, 2, 3, 0, 2};
    const uint16_t another_order[] = {0, 1, 3, 4, 0, 2, 2, 3};
    const uint16_t refused[] = {3, 4, 0, 3, 0, 1, 0, 2};
    propose(list);
    propose(another_order);
    propose(refused);
    return 0;
}
