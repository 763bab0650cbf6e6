/* A tree's leaves in the order of their places, for plain C that goes through a table row by row: see plain_graft.c. */
#ifndef PLACES_H
#define PLACES_H
#include <stddef.h>
#include <stdint.h>

enum { MOST = 128, NUMBERS = 2 * MOST, NOT_OWN = 20 };

/* What the cells of a tree's table are made of. */
typedef struct {
    uint32_t d_at[MOST]; /* d of the leaf at a place */
    uint32_t meet[MOST]; /* of the node between a place and the one before it */
} summands;

typedef struct {
    uint32_t d[NUMBERS];
    summands of;
    uint8_t between[MOST + 1];                          /* the level of the node there; 0 where there is none */
    uint8_t size[NUMBERS], place[NUMBERS], order[MOST]; /* a node's place is its first leaf's; order: the leaf there */
} places;

static inline uint32_t pairs(size_t k) { return (uint32_t)(k * (k - 1) / 2); }

void plain_places(size_t n, const uint16_t *listing, places *w);

/* Makes the row of the leaf at place p, less its d, from that of the place before; and that of another table, whose
   nodes lie at the same places, if there is one. */
static inline void next_rows(const places *w, size_t p, uint32_t *restrict row, const summands *other,
                             uint32_t *restrict other_row)
{
    const size_t here = w->between[p];
    uint32_t above = w->of.meet[p], other_above = other != NULL ? other->meet[p] : 0;
    for (size_t t = p - 1; t > 0; t--) {
        row[w->order[t]] = above + w->of.d_at[t];
        if (other != NULL)
            other_row[w->order[t]] = other_above + other->d_at[t];
        if (w->between[t] <= here)
            break;
    }
    size_t least = MOST;
    for (size_t t = p + 1; w->between[t] > here; t++) {
        if (w->between[t] < least) {
            least = w->between[t];
            above = w->of.meet[t];
            other_above = other != NULL ? other->meet[t] : 0;
        }
        row[w->order[t]] = above + w->of.d_at[t];
        if (other != NULL)
            other_row[w->order[t]] = other_above + other->d_at[t];
    }
    row[w->order[p]] = 0 - w->of.d_at[p]; /* the diagonal is 0 */
}

/* Whether some cell of a row differs from what it has to be. */
int plain_row_differs(size_t n, const uint32_t *restrict cells, const uint32_t *restrict row, uint32_t more);

/* 0, or 4, 5 or 20 of the table that is lent with a tree; whether the edge or the leaf is there is said. */
int plain_judge(size_t n, const places *w, const uint32_t *table, int there);
#endif
