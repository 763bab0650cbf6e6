/* lent.h: the buffers of a call, lent to the reference and to the archive.

   The archive is asked twice, so a buffer stands three times, with the same content. The archive's buffers have guard
   bytes at one end, and at the other a page that may not be touched: before the buffer in the first call, after it in
   the second. So reading beyond a buffer is found out, too. After the calls the three have to be equal. */

#ifndef LENT_H
#define LENT_H

#include <stdbool.h>
#include <stddef.h>
#include <stdint.h>

/* Whom a buffer is lent to: the reference, or the archive with the page before or after it. */
enum taker { REFERENCE, PAGE_BEFORE, PAGE_AFTER, TAKERS };

enum {
    MOST_LENT = 4,             /* buffers of a call */
    MEMORY_BYTES = 256 * 1024, /* a buffer and its guard bytes at most */
    GUARD_BYTES = 1024
};

struct lent {
    const char *name;
    size_t cell_bytes, cells;
    void *first[TAKERS];    /* where the buffer begins */
    uint8_t *guard[TAKERS]; /* where its guard bytes begin */
};

/* Lends a buffer in the place of this number, below MOST_LENT. */
void lend(struct lent *lent, size_t place, const char *name, const void *content, size_t cell_bytes, size_t cells);

/* Does the buffer hold the same with this taker as with the reference, and are its guard bytes as they were? */
bool lent_alike(const struct lent *lent, enum taker taker);

/* Prints the buffer as the reference has it. */
void print_lent(const struct lent *lent);

/* Prints the first cell or guard byte that is not alike, if there is one. */
void print_lent_difference(const struct lent *lent, enum taker taker);

#endif
