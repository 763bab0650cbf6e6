/* Plain C of the look before a graft: see plain.h. The new leaf is called x here; it would hang on the edge above v.

   One edge. The table that the grafted tree has is gone through row by row beside the old one's (plain_graft.c), by a d
   and a meet that count x wherever it is under a node. In the row of x an old leaf i has t(0,i) - d(v) + P(n - size of
   v) where it is under v, and else t(i,j) - t(0,j) + d(v) + P(size of v), j being any leaf under v.

   All edges. Let a node have the children A and B, of a and b leaves, and U be the u other leaves. When x goes down
   from the edge above the node to that above A, the cells of U x B grow by a and those of A x B fall by u; in the row
   of x the leaves of A gain u * b and those of U lose a * b. Nothing else changes, so each total comes from the one
   above by sums over these blocks of the gaps to the old tree. The gaps are laid out by place, where a subtree's leaves
   are a span. They take 16 bits: a cell above CEILING, which no tree's cell reaches, is taken for CEILING, and what is
   cut off counts in every total alike. The size of g - c is twice the greater of g and c less both, and of all edges
   the gaps and what is taken from them have the same sums; so only the greater ones are added up, four rows before they
   are widened. For c = 0 what leads out of a subtree is added up from what leads out of its children, and so for each a
   whose blocks have many cells, as those of a comb's leaves have. */
#include "places.h"
#include "plain.h"
#include <string.h>

enum { CEILING = 8191, WIDE = 1 << 24, LANES = 8, SIXTHS_MOST = 31 };

/* 4 or 5, or 0, with four rows against four columns at a time. */
static int wrong_table(size_t n, const uint32_t *table)
{
    for (size_t i = 0; i < n; i++)
        if (table[i * n + i] != 0)
            return 4;
    for (size_t i = 0; i < n; i += 4) {
        const uint32_t *rows = table + i * n;
        const size_t next = i + 4 < n ? i + 4 : n;
        for (size_t k = i; k < next; k++)
            for (size_t j = k + 1; j < next; j++)
                if (table[k * n + j] != table[j * n + k])
                    return 5;
        for (size_t j = next; j < n; j++) {
            const uint32_t *row = table + j * n + i;
            if (row[0] != rows[j] || row[1] != rows[n + j] || row[2] != rows[2 * n + j] || row[3] != rows[3 * n + j])
                return 5;
        }
    }
    return 0;
}

/* ---- One edge. ---- */

/* The node that the standard listing gives this number. */
static size_t node_of(size_t n, const uint16_t *listing, const uint8_t *size, size_t edge)
{
    uint8_t least[NUMBERS];
    size_t v = 2 * n - 3, number = v;
    if (edge < n)
        return edge;
    for (size_t i = 0; i < n; i++)
        least[i] = (uint8_t)i;
    for (size_t k = 0; k < n - 2; k++) {
        const uint8_t a = least[listing[2 * k]], b = least[listing[2 * k + 1]];
        least[n + k] = a < b ? a : b;
    }
    while (number != edge) {
        const size_t a = listing[2 * (v - n)], b = listing[2 * (v - n) + 1], swap = least[b] < least[a];
        const size_t second = swap ? a : b, before = number - size[second]; /* the number of the first child */
        v = edge <= before ? a + b - second : second;
        number = edge <= before ? before : number - 1;
    }
    return v;
}

typedef struct {
    summands of;
    uint32_t x[MOST]; /* the cells of its row, by place */
} grafted;

/* What the grafted tree's cells are made of, each so many times. */
static void graft_on(size_t n, uint32_t times, const uint16_t *listing, const uint32_t *table, const places *w,
                     size_t v, grafted *g)
{
    uint32_t d[NUMBERS];
    uint8_t with[NUMBERS] = {0}; /* 1 where x is on the edge above or under it */
    const size_t from = w->place[v], to = from + w->size[v], j = w->order[from];
    const uint32_t under = pairs(n - w->size[v]) - w->d[v], other = pairs(w->size[v]) + w->d[v] - w->d[j];
    with[v] = 1;
    for (size_t k = 0; k < n - 2; k++)
        with[n + k] |= with[listing[2 * k]] | with[listing[2 * k + 1]];
    d[0] = d[2 * n - 3] = g->of.meet[1] = 0;
    for (size_t k = n - 2; k-- > 0;) {
        const size_t c = n + k, a = listing[2 * k], b = listing[2 * k + 1];
        d[a] = d[c] + times * pairs((size_t)w->size[b] + with[b]);
        d[b] = d[c] + times * pairs((size_t)w->size[a] + with[a]);
        g->of.meet[w->place[b]] = times * pairs(n + 1 - w->size[c] - with[a] - with[b]) - d[a] - d[b];
    }
    for (size_t p = 0; p < n; p++) {
        const size_t i = w->order[p];
        g->of.d_at[p] = d[i];
        g->x[p] = times * (p >= from && p < to ? w->d[i] + under : table[j * n + i] + other);
    }
}

/* The sizes of the gaps of a row added up. */
static uint64_t row_total(size_t n, const uint32_t *restrict cells, const uint32_t *restrict row, uint32_t more)
{
    const size_t fours = n / 4 * 4;
    uint32_t sum = 0, any = 0;
    uint64_t total = 0;
    for (size_t j = 0; j < fours; j++) {
        const uint32_t gap = cells[j] - (row[j] + more), below = (uint32_t)((int32_t)gap >> 31);
        sum += (gap ^ below) - below;
        any |= cells[j];
    }
    for (size_t j = fours; j < n; j++) {
        const uint32_t gap = cells[j] - (row[j] + more), below = (uint32_t)((int32_t)gap >> 31);
        sum += (gap ^ below) - below;
        any |= cells[j];
    }
    if (any < WIDE)
        return sum;
    for (size_t j = 0; j < n; j++) {
        const int64_t gap = (int64_t)cells[j] - (int64_t)(row[j] + more);
        total += (uint64_t)(gap < 0 ? -gap : gap);
    }
    return total;
}

uint64_t plain_look(size_t n, uint32_t times, const uint16_t *listing, const uint32_t *table, size_t edge,
                    const uint32_t *new_table)
{
    const int there = edge >= 1 && edge <= 2 * n - 3;
    places w;
    grafted g;
    uint32_t row[MOST], new_row[MOST];
    int wrong = plain_check(n, listing);
    if (wrong)
        return (uint64_t)wrong;
    plain_places(n, listing, &w);
    if (!there || plain_row_differs(n, table, w.d, 0))
        return (uint64_t)plain_judge(n, &w, table, 0);
    graft_on(n, times, listing, table, &w, node_of(n, listing, w.size, edge), &g);
    for (size_t p = 1; p < n; p++)
        new_row[w.order[p]] = g.of.d_at[p];
    row[0] = new_row[0] = 0;
    new_row[n] = g.x[0];
    uint64_t total = row_total(n, new_table + 1, new_row + 1, 0);
    for (size_t p = 1; p < n; p++) {
        const size_t i = w.order[p];
        next_rows(&w, p, row, &g.of, new_row);
        new_row[n] = g.x[p] - g.of.d_at[p];
        if (plain_row_differs(n, table + i * n, row, w.d[i]))
            return (uint64_t)plain_judge(n, &w, table, 0);
        total += row_total(n - i, new_table + i * (n + 1) + i + 1, new_row + i + 1, g.of.d_at[p]);
    }
    wrong = wrong_table(n + 1, new_table);
    return wrong ? (uint64_t)wrong : total << 8;
}

/* ---- All edges. ---- */

typedef int16_t line[MOST]; /* by place; what is behind the last is 0 */
typedef struct {
    size_t from, to; /* the first place, and the one behind the last */
} span;

typedef struct {
    size_t n;
    int32_t times;
    uint16_t listing[2 * MOST]; /* the standard one, so a node's number is its edge's */
    places w;
    line gaps[MOST];            /* to the old tree */
    line in, out;               /* masks: -1 at no place and at every place, but while a span is looked at */
} view;

static int16_t greater(int16_t g, int16_t c) { return g > c ? g : c; }

/* The greater of each gap and c, added up over so many rows and, of eight times so many columns, those of the mask. */
static int32_t raised(size_t rows, size_t eights, const int16_t *restrict at, const int16_t *restrict mask, int16_t c)
{
    int32_t sum = 0;
    for (; rows >= 4; rows -= 4, at += 4 * MOST)
        for (size_t q = 0; q < LANES * eights; q++) {
            const int16_t two = (int16_t)(greater(at[q], c) + greater(at[MOST + q], c));
            const int16_t more = (int16_t)(greater(at[2 * MOST + q], c) + greater(at[3 * MOST + q], c));
            sum += (int16_t)(two + more) * mask[q];
        }
    for (; rows >= 2; rows -= 2, at += 2 * MOST)
        for (size_t q = 0; q < LANES * eights; q++)
            sum += (int16_t)(greater(at[q], c) + greater(at[MOST + q], c)) * mask[q];
    for (size_t q = 0; rows > 0 && q < LANES * eights; q++)
        sum += greater(at[q], c) * mask[q];
    return -sum;
}

/* Writes 0 or -1 over a span. */
static void put(int16_t *mask, span s, int value) { memset(mask + s.from, value, (s.to - s.from) * sizeof *mask); }

/* The same over the columns of a span, and over all others; the mask has them and no more of these eights. */
static int32_t raised_in(line *at, size_t rows, span s, const int16_t *mask, int16_t c)
{
    const size_t from = s.from / LANES, to = (s.to + LANES - 1) / LANES;
    return raised(rows, to - from, at[0] + LANES * from, mask + LANES * from, c);
}
static int32_t raised_out(size_t n, line *at, size_t rows, span s, const int16_t *mask, int16_t c)
{
    const size_t from = (s.from + LANES - 1) / LANES, to = s.to / LANES, all = (n + LANES - 1) / LANES;
    if (from >= to)
        return raised(rows, all, at[0], mask, c);
    return raised(rows, from, at[0], mask, c) + raised(rows, all - to, at[0] + LANES * to, mask + LANES * to, c);
}

/* The same over one row and a span, which may be short. */
static int32_t raised_row(const int16_t *row, span s, int16_t c)
{
    const size_t many = s.to - s.from, eights = many / LANES * LANES;
    int32_t sum = 0;
    row += s.from;
    for (size_t q = 0; q < eights; q++)
        sum += greater(row[q], c);
    for (size_t q = eights; q < many; q++)
        sum += greater(row[q], c);
    return sum;
}

static span span_of(const places *w, size_t v) { return (span){w->place[v], (size_t)w->place[v] + w->size[v]}; }

/* Every bit that some cell has. */
static uint32_t any_bit(size_t many, const uint32_t *cells)
{
    uint32_t any[4] = {0};
    size_t k = 0;
    for (; k + 4 <= many; k += 4)
        for (size_t lane = 0; lane < 4; lane++)
            any[lane] |= cells[k + lane];
    for (; k < many; k++)
        any[0] |= cells[k];
    return any[0] | any[1] | any[2] | any[3];
}

/* A cell cut off at the ceiling; what is cut off is added. */
static uint32_t cut(uint32_t cell, uint64_t *off)
{
    *off += cell > CEILING ? cell - CEILING : 0;
    return cell > CEILING ? CEILING : cell;
}

/* Lays the gaps out by place, four rows at a time; what was cut off them, twice, is returned. */
static uint64_t lay_out(const uint32_t *own, const uint32_t *new_table, view *l)
{
    const size_t n = l->n, m = n + 1;
    const uint8_t *order = l->w.order;
    const int high = any_bit(m * m, new_table) > CEILING;
    uint64_t off = 0;
    for (size_t p = 0; p < n; p += 4) {
        const uint32_t *cells[4], *due[4];
        int16_t *row = l->gaps[p];
        for (size_t r = 0; r < 4; r++) { /* what is laid out behind the last place is not used */
            const size_t i = p + r < n ? order[p + r] : 0;
            cells[r] = new_table + i * m;
            due[r] = own + i * n;
            memset(row + r * MOST + n, 0, (MOST - n) * sizeof *row);
        }
        for (size_t q = 0; q < n; q++) {
            const size_t j = order[q];
            row[q] = (int16_t)(cells[0][j] - due[0][j]);
            row[MOST + q] = (int16_t)(cells[1][j] - due[1][j]);
            row[2 * MOST + q] = (int16_t)(cells[2][j] - due[2][j]);
            row[3 * MOST + q] = (int16_t)(cells[3][j] - due[3][j]);
        }
        for (size_t k = p; high && k < p + 4 && k < n; k++)
            for (size_t q = 0; q < n; q++)
                l->gaps[k][q] = (int16_t)(cut(cells[k - p][order[q]], &off) - due[k - p][order[q]]);
    }
    return off;
}

/* For one c: the sum over A x B of each row of the listing, and over all that leads out of each leaf and node. */
static void rims(view *l, int16_t c, int32_t *across, int32_t *rim)
{
    const places *w = &l->w;
    const span all = {0, l->n};
    for (size_t p = 0; p < l->n; p++)
        rim[w->order[p]] = raised_in(l->gaps + p, 1, all, l->out, c) - c;
    for (size_t k = 0; k < l->n - 2; k++) {
        const size_t a = l->listing[2 * k], b = l->listing[2 * k + 1];
        const span sb = span_of(w, b);
        put(l->in, sb, -1);
        across[k] = raised_in(l->gaps + w->place[a], w->size[a], sb, l->in, c);
        put(l->in, sb, 0);
        rim[l->n + k] = rim[a] + rim[b] - 2 * across[k];
    }
}

/* What each edge adds to the edge above it in the sum of the greater ones over the old leaves; the last edge has all of
   it. */
static void steps(view *l, int32_t *step)
{
    const size_t n = l->n;
    const places *w = &l->w;
    int32_t across[MOST], rim[NUMBERS];
    size_t cells[MOST] = {0}; /* of all blocks U x B with an A of this size */
    rims(l, 0, across, rim);
    step[2 * n - 3] = rim[0];
    for (size_t k = 0; k < n - 2; k++) {
        const size_t a = l->listing[2 * k], b = l->listing[2 * k + 1], u = n - w->size[n + k];
        const span sb = span_of(w, b);
        put(l->in, sb, -1);
        const int32_t gone = raised_in(l->gaps + w->place[a], w->size[a], sb, l->in, (int16_t)(l->times * (int32_t)u));
        put(l->in, sb, 0);
        step[2 * n - 3] += gone;
        step[a] = 2 * across[k] - rim[b] - gone;
        step[b] = 2 * across[k] - rim[a] - gone;
        cells[w->size[a]] += u * w->size[b];
        cells[w->size[b]] += u * w->size[a];
    }
    for (size_t size = 1; size < n; size++)
        if (cells[size] > 4 * n * n) {
            rims(l, (int16_t)(l->times * (int32_t)size), across, rim);
            for (size_t k = 0; k < n - 2; k++) {
                const size_t a = l->listing[2 * k], b = l->listing[2 * k + 1];
                step[a] += w->size[a] == size ? rim[b] - across[k] : 0;
                step[b] += w->size[b] == size ? rim[a] - across[k] : 0;
            }
        }
    for (size_t k = 0; k < n - 2; k++) {
        const span sv = span_of(w, n + k);
        put(l->out, sv, 0);
        for (size_t c = 0; c < 2; c++) {
            const size_t a = l->listing[2 * k + c], b = l->listing[2 * k + 1 - c], size = w->size[a];
            if (cells[size] <= 4 * n * n)
                step[a] += raised_out(n, l->gaps + w->place[b], w->size[b], sv, l->out,
                                      (int16_t)(l->times * (int32_t)size));
        }
        put(l->out, sv, -1);
    }
}

/* Writes so many gaps with this added; both places may be the same. */
static void shift(const int16_t *from, int16_t *to, size_t many, int32_t by)
{
    size_t q = 0;
    for (; q + LANES <= many; q += LANES) {
        int16_t eight[LANES];
        memcpy(eight, from + q, sizeof eight);
        for (size_t lane = 0; lane < LANES; lane++)
            eight[lane] = (int16_t)(eight[lane] + by);
        memcpy(to + q, eight, sizeof eight);
    }
    for (; q < many; q++)
        to[q] = (int16_t)(from[q] + by);
}

/* For each edge the sum of the greater of 0 and the gap over the row of x, which is given for the last edge. There is a
   row for each level; what both children have in common is written for the first, and the rest when each has its turn,
   for the listing, read backwards, goes through a subtree before its brother. */
static void x_sums(view *l, line *x, int32_t *sum)
{
    const size_t n = l->n, last = 2 * n - 3;
    const places *w = &l->w;
    uint8_t level[NUMBERS];
    uint16_t above[NUMBERS];
    level[last] = 0;
    sum[last] = raised_in(x, 1, (span){0, n}, l->out, 0);
    for (size_t v = last; v >= n; v--) {
        const size_t a = l->listing[2 * (v - n)], b = l->listing[2 * (v - n) + 1];
        const span sa = span_of(w, a), sb = span_of(w, b), sv = span_of(w, v);
        const int32_t na = w->size[a], nb = w->size[b], u = (int32_t)n - na - nb;
        const int32_t rise = l->times * u * nb, rise_b = l->times * u * na, fall = l->times * na * nb;
        int16_t *row = x[level[v]];
        if (v != last) {
            const span sp = span_of(w, above[v]);
            const size_t brother = w->size[above[v]] - w->size[v], rest = n - w->size[above[v]];
            const int32_t risen = l->times * (int32_t)(brother * rest);
            memcpy(row + sp.from, x[level[v] - 1] + sp.from, (sp.to - sp.from) * sizeof *row);
            shift(row + sv.from, row + sv.from, sv.to - sv.from, -risen);
        }
        put(l->out, sv, 0);
        const int32_t outer = raised_out(n, x + level[v], 1, sv, l->out, (int16_t)-fall) + fall * u;
        put(l->out, sv, -1);
        sum[a] = outer + raised_row(row, sa, (int16_t)rise) - rise * na + raised_row(row, sb, 0);
        sum[b] = outer + raised_row(row, sb, (int16_t)rise_b) - rise_b * nb + raised_row(row, sa, 0);
        shift(row, x[level[v] + 1], (n + LANES - 1) / LANES * LANES, fall);
        level[a] = level[b] = (uint8_t)(level[v] + 1);
        above[a] = above[b] = (uint16_t)v;
    }
}

int plain_look_all(size_t n, uint32_t times, const uint16_t *listing, const uint32_t *table, const uint32_t *new_table,
                   uint64_t *totals)
{
    const size_t last = 2 * n - 3;
    const uint32_t *own = table, *cells = new_table + n * (n + 1);
    uint32_t sixths[SIXTHS_MOST * SIXTHS_MOST];
    int32_t step[NUMBERS], sum[NUMBERS];
    line x[MOST];
    view l;
    int wrong = plain_check(n, listing);
    if (wrong)
        return wrong;
    plain_standardise(n, listing, l.listing);
    plain_places(n, l.listing, &l.w);
    wrong = plain_judge(n, &l.w, table, 1);
    if (!wrong)
        wrong = wrong_table(n + 1, new_table);
    if (wrong)
        return wrong;
    if (times > 1) {
        for (size_t k = 0; k < n * n; k++)
            sixths[k] = times * table[k];
        own = sixths;
    }
    l.n = n;
    l.times = (int32_t)times;
    memset(l.in, 0, sizeof l.in);
    memset(l.out, 0, sizeof l.out);
    put(l.out, (span){0, n}, -1);
    uint64_t off = lay_out(own, new_table, &l) / 2;
    int32_t less = raised_in(l.gaps, n, (span){0, n}, l.out, -CEILING) / 2;
    for (size_t k = 0; k < n - 2; k++)
        less += l.times * (int32_t)(n - l.w.size[n + k]) * l.w.size[l.listing[2 * k]] * l.w.size[l.listing[2 * k + 1]];
    for (size_t i = 0; i < n; i++) {
        const uint32_t due = i == 0 ? times * pairs(n - 1) : own[i];
        x[0][l.w.place[i]] = (int16_t)(cut(cells[i], &off) - due);
        less += x[0][l.w.place[i]];
    }
    memset(x[0] + n, 0, (MOST - n) * sizeof x[0][0]);
    steps(&l, step);
    x_sums(&l, x, sum);
    for (size_t v = last; v >= n; v--) {
        step[l.listing[2 * (v - n)]] += step[v];
        step[l.listing[2 * (v - n) + 1]] += step[v];
    }
    for (size_t v = 1; v <= last; v++)
        totals[v - 1] = (uint64_t)(2 * (step[v] + sum[v]) - less) + off;
    return 0;
}
