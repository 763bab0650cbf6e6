/* What the examples do with a reply: a refusal ends the program, and a name is printed. */
#ifndef REPLIES_H
#define REPLIES_H

#include "quartree.h"
#include <stdio.h>
#include <stdlib.h>

/* The reply of an accepted call. A refusal is printed, and ends the program. */
static inline uint64_t accepted(uint64_t reply)
{
    unsigned number = QUARTREE_NUMBER(reply);
    if (number != QUARTREE_ACCEPTED) {
        printf("refused %u: %s\n", number, quartree_refusal_text(number));
        exit(2);
    }
    return reply;
}

/* Prints the name that a sheet has for a leaf, and no newline. */
static inline void print_strain(const uint8_t *sheet, size_t sheet_len, size_t leaf)
{
    uint64_t name = accepted(quartree_sheet_name(sheet, sheet_len, leaf));
    printf("%.*s", (int)QUARTREE_NAME_LENGTH(name), (const char *)sheet + QUARTREE_NAME_OFFSET(name));
}

#endif
