/* Plain C of graft and prune: see plain.h.

   Cell (i,j) of a tree's table is d(i) + d(j) + meet(v), v being the node where i and j meet. Going up from a leaf, m
   grows by P of the size of each brother passed; d is all that it grows by from a node up to the last one, and so m of
   leaf i in front of the merge at v is d(i) less d of the child of v that is passed. What is left is meet(v): P of the
   number of leaves outside v, less d of both children of v.

   The leaves have places: leaf 0 is first, and then they come as the tree has them. Between two neighbours lies the
   node where they meet, at some level, that of the last node being 1; other leaves meet in the node of the least level
   between them. The rows are taken place by place, and what d(i) is added to is kept from row to row: only the leaves
   under the node between the last leaf and this one are gone through, to the left and to the right. So a row is one
   loop over the leaves in their own order, and all else takes as many steps as the inner nodes have leaves together. A
   table that is lent is compared with the tree's own as that is counted; only one that differs is judged by 4 and 5. */
#include "places.h"
#include "plain.h"

enum { GRAFTED = 4, LANES = 4 };

int plain_row_differs(size_t n, const uint32_t *restrict cells, const uint32_t *restrict row, uint32_t more)
{
    const size_t fours = n / LANES * LANES; /* so that the loop is made of vector instructions */
    uint32_t off = 0;
    for (size_t j = 0; j < fours; j++)
        off |= cells[j] ^ (row[j] + more);
    for (size_t j = fours; j < n; j++)
        off |= cells[j] ^ (row[j] + more);
    return off != 0;
}

static void write_row(size_t n, uint32_t *restrict cells, const uint32_t *restrict row, uint32_t more)
{
    size_t j = 0;
    for (; j + 2 * LANES <= n; j += 2 * LANES)
        for (size_t lane = 0; lane < 2 * LANES; lane++)
            cells[j + lane] = row[j + lane] + more;
    for (; j < n; j++)
        cells[j] = row[j] + more;
}

void plain_places(size_t n, const uint16_t *listing, places *w)
{
    const size_t last = 2 * n - 3;
    uint8_t level[NUMBERS];
    for (size_t i = 0; i < n; i++)
        w->size[i] = 1;
    for (size_t k = 0; k < n - 2; k++)
        w->size[n + k] = (uint8_t)(w->size[listing[2 * k]] + w->size[listing[2 * k + 1]]);
    w->d[0] = w->d[last] = w->of.meet[1] = 0;
    w->place[0] = w->between[1] = w->between[n] = 0;
    w->place[last] = level[last] = 1;
    for (size_t k = n - 2; k-- > 0;) {
        const size_t v = n + k, a = listing[2 * k], b = listing[2 * k + 1];
        w->d[a] = w->d[v] + pairs(w->size[b]);
        w->d[b] = w->d[v] + pairs(w->size[a]);
        w->place[a] = w->place[v];
        w->place[b] = (uint8_t)(w->place[v] + w->size[a]);
        level[a] = level[b] = (uint8_t)(level[v] + 1);
        w->between[w->place[b]] = level[v];
        w->of.meet[w->place[b]] = pairs(n - w->size[v]) - w->d[a] - w->d[b];
    }
    for (size_t i = 0; i < n; i++) {
        w->order[w->place[i]] = (uint8_t)i;
        w->of.d_at[w->place[i]] = w->d[i];
    }
}

/* The tree's table: written, or, where `out` is null, compared with the one lent. Whether that differs. */
static int count(size_t n, const places *w, const uint32_t *table, uint32_t *out)
{
    uint32_t row[MOST];
    if (out != NULL)
        write_row(n, out, w->d, 0);
    else if (plain_row_differs(n, table, w->d, 0))
        return 1;
    row[0] = 0;
    for (size_t p = 1; p < n; p++) {
        const size_t i = w->order[p];
        next_rows(w, p, row, NULL, NULL);
        if (out != NULL)
            write_row(n, out + i * n, row, w->d[i]);
        else if (plain_row_differs(n, table + i * n, row, w->d[i]))
            return 1;
    }
    return 0;
}

static void write_table(size_t n, const uint16_t *listing, uint32_t *out)
{
    places w;
    plain_places(n, listing, &w);
    count(n, &w, NULL, out);
}

int plain_judge(size_t n, const places *w, const uint32_t *table, int there)
{
    if (!count(n, w, table, NULL))
        return there ? 0 : NOT_OWN;
    const int wrong = plain_wrong_table(n, table);
    return wrong ? wrong : NOT_OWN;
}

static int judge(size_t n, const uint16_t *listing, const uint32_t *table, int there)
{
    places w;
    plain_places(n, listing, &w);
    return plain_judge(n, &w, table, there);
}

/* The row, in post-order, that follows those of the subtree under an edge; the edge is the child at this place. */
static size_t row_behind(size_t n, const uint16_t *standard, size_t edge, size_t place)
{
    size_t behind = place / 2;
    if (edge >= n)
        return edge - n + 1;
    if (place % 2 == 0) /* the first row of the other child, if that has one */
        for (size_t v = standard[place + 1]; v >= n;) {
            behind = v - n;
            v = standard[2 * behind] >= n ? standard[2 * behind] : standard[2 * behind + 1];
        }
    return behind;
}

/* Leaf n is the greatest, so no child changes places: one row is put in, and the numbers behind it go up. */
uint64_t plain_graft(size_t n, const uint16_t *listing, const uint32_t *table, size_t edge, uint16_t *out,
                     uint32_t *out_table)
{
    const size_t numbers = 2 * (n - 2);
    uint16_t standard[2 * MOST];
    size_t place = 0;
    const int wrong = judge(n, listing, table, edge >= 1 && edge <= 2 * n - 3);
    if (wrong)
        return (uint64_t)wrong;
    plain_standardise(n, listing, standard);
    while (place < numbers && standard[place] != edge)
        place++;
    const size_t behind = row_behind(n, standard, edge, place);
    for (size_t p = 0; p < numbers; p++) {
        const size_t c = standard[p], to = p < 2 * behind ? p : p + 2;
        out[to] = (uint16_t)(c < n ? c : c + 1 + (c >= n + behind));
    }
    if (place < numbers) /* the row above, which is behind the new one */
        out[place + 2] = (uint16_t)(n + 1 + behind);
    out[2 * behind] = (uint16_t)(edge < n ? edge : edge + 1);
    out[2 * behind + 1] = (uint16_t)n;
    write_table(n + 1, out, out_table);
    return 256 * GRAFTED;
}

/* The row of the leaf falls away. For leaf 0 the rows above leaf 1 do, and then their other children are joined one by
   one, from the last row down, by rows that hang from leaf 1. */
uint64_t plain_prune(size_t n, const uint16_t *listing, const uint32_t *table, size_t leaf, uint16_t *out,
                     uint32_t *out_table)
{
    uint16_t rows[2 * MOST], name[NUMBERS], hung[MOST];
    size_t put = 0, many = 0, passed = leaf == 0 ? 1 : leaf;
    const int wrong = judge(n, listing, table, leaf < n);
    if (wrong)
        return (uint64_t)wrong;
    for (size_t i = 0; i < n; i++)
        name[i] = (uint16_t)(i - (i > leaf));
    for (size_t k = 0; k < n - 2; k++) {
        const size_t a = listing[2 * k], b = listing[2 * k + 1];
        if (a == passed || b == passed) {
            name[n + k] = hung[many++] = name[a == passed ? b : a];
            passed = leaf == 0 ? n + k : passed;
        } else {
            rows[2 * put] = name[a];
            rows[2 * put + 1] = name[b];
            name[n + k] = (uint16_t)(n - 1 + put++);
        }
    }
    for (uint16_t under = hung[--many]; many > 0; under = (uint16_t)(n - 1 + put++)) {
        rows[2 * put] = hung[--many];
        rows[2 * put + 1] = under;
    }
    plain_standardise(n - 1, rows, out);
    write_table(n - 1, out, out_table);
    return 256 * GRAFTED;
}
