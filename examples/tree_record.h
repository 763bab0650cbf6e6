/* A tree record, as a lab files it, for the examples. */
#ifndef TREE_RECORD_H
#define TREE_RECORD_H

#include "quartree.h"
#include <stdio.h>

/* One number more than the longest listing, so that a longer one is refused and not cut. */
enum { RECORD_NUMBERS = QUARTREE_LISTING_NUMBERS(QUARTREE_MOST_LEAVES) + 1 };

struct tree_record {
    size_t n;
    uint32_t origin;
    uint16_t listing[RECORD_NUMBERS];
};

/* Prints the origin and the listing, and no newline. */
static inline void print_record(const struct tree_record *tree)
{
    printf("%s", quartree_origin_text(tree->origin));
    for (size_t place = 0; place < QUARTREE_LISTING_NUMBERS(tree->n); place++)
        printf(" %d", tree->listing[place]);
}

#endif
