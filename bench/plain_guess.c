/* Plain C of the guess: see plain.h.

   A pair of subtrees keeps the sum of its cells, and a bound below its mean size of gap: the size of that sum less the
   sum of the values expected. The sums of two pairs add up when subtrees merge, and so do those of m, so a bound takes
   a few steps. Only a pair whose bound comes up as the least has its gaps added up; it is merged when no bound is
   below its mean. The total gap is the sum of the gaps of the pairs merged, since the tree's cell of two leaves is the
   value expected when their subtrees merge. */
#include "plain.h"
#include <math.h>
#include <string.h>

enum { MOST = 128, GUESSED = 3 };

typedef struct {
    double cells; /* their sum */
    double mean;  /* of the sizes of gap, or a bound below it */
} pair;

/* Subtrees go by their least leaves, and pairs by the smaller of them first. All sums are whole and below 2 to the 53,
   so no double is inexact but a mean. */
typedef struct {
    size_t n, lives;
    const uint32_t *table;
    double p[MOST + 1];
    pair pairs[MOST][MOST + 1];    /* one more, lest a column fall on few sets of the cache */
    uint16_t known[MOST][MOST];    /* the sizes of the two subtrees, as `sizes` has them, when their mean was found */
    uint8_t live[MOST];            /* the subtrees, in order */
    uint32_t size[MOST];
    double sum_m[MOST];
    uint8_t partner[MOST];         /* of the subtrees behind it in order, the first with the least mean or bound */
    double least[MOST];            /* that mean or bound */
    uint8_t place[MOST];           /* where its leaves stand */
    uint8_t leaf[MOST][MOST];
    uint32_t m[MOST][MOST], more[MOST]; /* m of a leaf is what stands beside it and `more` of its subtree */
} forest;

static uint16_t sizes(const forest *f, size_t a, size_t b) { return (uint16_t)(f->size[a] << 8 | f->size[b]); }
static double weight(const forest *f, size_t a, size_t b) { return (double)(f->size[a] * f->size[b]); }

/* The sum of which this is the mean: it is below 2 to the 44, so the mean is off by less than half of one in it. */
static uint64_t sum_of(double mean, double weight) { return (uint64_t)(mean * weight + 0.5); }

/* Whether the mean of a and b is below that of c and d, compared as fractions where the doubles are equal. */
static int below(const forest *f, double mean, size_t a, size_t b, double other, size_t c, size_t d)
{
    if (mean != other)
        return mean < other;
    const double v = weight(f, a, b), w = weight(f, c, d);
    return sum_of(mean, v) * (uint64_t)w < sum_of(other, w) * (uint64_t)v;
}

/* First the least double, with no branch on a mean, and then where it stands. */
static void find_partner(forest *f, size_t at)
{
    const size_t a = f->live[at];
    const pair *row = f->pairs[a];
    size_t k = at + 1, b;
    double least = INFINITY;
    for (; k < f->lives; k++) {
        const double mean = row[f->live[k]].mean;
        least = mean < least ? mean : least;
    }
    for (k = at + 1; row[f->live[k]].mean != least;)
        k++;
    for (b = f->live[k++]; k < f->lives; k++)
        if (row[f->live[k]].mean == least && below(f, least, a, f->live[k], least, a, b))
            b = f->live[k];
    f->partner[a] = (uint8_t)b;
    f->least[a] = least;
}

static void single_leaves(size_t n, uint32_t times, const uint32_t *table, forest *f)
{
    f->n = f->lives = n;
    f->table = table;
    for (size_t k = 0; k <= n; k++)
        f->p[k] = k == 0 ? 0 : (double)(times * (uint32_t)(k * (k - 1) / 2));
    const double expected = f->p[n - 2];
    for (size_t i = 0; i < n; i++) {
        pair *row = f->pairs[i];
        double least = INFINITY;
        for (size_t j = i + 1; j < n; j++) {
            const double cell = table[i * n + j], mean = fabs(cell - expected);
            row[j] = (pair){cell, mean};
            if (mean < least) {
                least = mean;
                f->partner[i] = (uint8_t)j;
            }
        }
        f->least[i] = least;
        f->live[i] = f->place[i] = f->leaf[i][0] = (uint8_t)i;
        f->size[i] = 1;
        f->sum_m[i] = 0;
        f->m[i][0] = f->more[i] = 0;
        memset(f->known[i], 0, n * sizeof f->known[i][0]);
    }
}

/* Adds up the gaps of a and b. */
static uint64_t gaps(const forest *f, size_t a, size_t b)
{
    const size_t in = f->size[a] > f->size[b] ? a : b, out = in == a ? b : a;
    const uint8_t *columns = f->leaf[f->place[in]], *rows = f->leaf[f->place[out]];
    const uint32_t *m = f->m[f->place[in]], *m_rows = f->m[f->place[out]];
    const uint32_t rest = (uint32_t)f->p[f->n - f->size[a] - f->size[b]] + f->more[a] + f->more[b];
    uint64_t sum = 0;
    for (size_t x = 0; x < f->size[out]; x++) {
        const uint32_t *row = f->table + rows[x] * f->n, e = rest + m_rows[x];
        for (size_t y = 0; y < f->size[in]; y++) {
            const int64_t gap = (int64_t)row[columns[y]] - (int64_t)(e + m[y]);
            sum += (uint64_t)(gap < 0 ? -gap : gap);
        }
    }
    return sum;
}

/* The place, in order, of the first of the two to merge; its partner is the other. */
static size_t choose(forest *f)
{
    for (;;) {
        size_t at = 0;
        double least = f->least[f->live[0]];
        for (size_t k = 1; k + 1 < f->lives; k++) {
            const size_t c = f->live[k], a = f->live[at];
            if (f->least[c] <= least && below(f, f->least[c], c, f->partner[c], least, a, f->partner[a])) {
                at = k;
                least = f->least[c];
            }
        }
        const size_t a = f->live[at], b = f->partner[a];
        if (weight(f, a, b) == 1 || f->known[a][b] == sizes(f, a, b))
            return at;
        f->known[a][b] = sizes(f, a, b);
        f->pairs[a][b].mean = (double)gaps(f, a, b) / weight(f, a, b);
        find_partner(f, at);
    }
}

/* Puts the leaves of a and b together, those of the smaller behind the other's. */
static void gather(forest *f, size_t a, size_t b)
{
    const double pa = f->p[f->size[a]], pb = f->p[f->size[b]];
    const size_t to = f->size[a] < f->size[b] ? b : a, from = to == a ? b : a, in = f->place[to], out = f->place[from];
    f->sum_m[a] += f->sum_m[b] + f->size[a] * pb + f->size[b] * pa;
    f->more[a] += (uint32_t)pb;
    f->more[b] += (uint32_t)pa;
    for (size_t k = 0; k < f->size[from]; k++) {
        f->leaf[in][f->size[to] + k] = f->leaf[out][k];
        f->m[in][f->size[to] + k] = f->m[out][k] + f->more[from] - f->more[to];
    }
    f->more[a] = f->more[to];
    f->place[a] = (uint8_t)in;
    f->size[a] += f->size[b];
}

/* The bound of a, which has just taken up the cells of `other` too, and d. */
static inline void bound(const forest *f, pair *of, const pair *other, size_t a, size_t d)
{
    const double size = f->size[a], size_d = f->size[d], w = size * size_d;
    const double expected = w * f->p[f->n - f->size[a] - f->size[d]] + size_d * f->sum_m[a] + size * f->sum_m[d];
    of->cells += other->cells;
    of->mean = fabs(of->cells - expected) / w;
}

static void merge(forest *f, size_t at, size_t b)
{
    const size_t a = f->live[at];
    size_t k = at + 1;
    gather(f, a, b);
    while (f->live[k] != b)
        k++;
    memmove(f->live + k, f->live + k + 1, --f->lives - k);
    for (k = 0; k < at; k++) {
        const size_t d = f->live[k], was = f->partner[d];
        pair *of = &f->pairs[d][a];
        bound(f, of, &f->pairs[d][b], a, d);
        if (was == a || was == b) {
            find_partner(f, k);
        } else if (of->mean <= f->least[d] && (a < was ? !below(f, f->least[d], d, was, of->mean, d, a)
                                                       : below(f, of->mean, d, a, f->least[d], d, was))) {
            f->partner[d] = (uint8_t)a;
            f->least[d] = of->mean;
        }
    }
    for (k = at + 1; k < f->lives && f->live[k] < b; k++) {
        const size_t d = f->live[k];
        bound(f, &f->pairs[a][d], &f->pairs[d][b], a, d);
        if (f->partner[d] == b && k + 1 < f->lives)
            find_partner(f, k);
    }
    for (; k < f->lives; k++)
        bound(f, &f->pairs[a][f->live[k]], &f->pairs[b][f->live[k]], a, f->live[k]);
    if (at + 1 < f->lives)
        find_partner(f, at);
}

uint64_t plain_guess(size_t n, uint32_t times, const uint32_t *table, uint16_t *out)
{
    const int wrong = plain_rebuild(n, times, table, out);
    if (wrong != 6)
        return (uint64_t)wrong;
    forest f;
    uint16_t listing[2 * MOST], name[MOST], hung[MOST]; /* hung: what leaf 0's subtree took up, in order */
    size_t rows = 0, many = 0;
    uint64_t total = 0;
    single_leaves(n, times, table, &f);
    for (size_t i = 0; i < n; i++)
        name[i] = (uint16_t)i;
    while (f.lives > 1) {
        const size_t at = choose(&f), a = f.live[at], b = f.partner[a];
        total += sum_of(f.least[a], weight(&f, a, b));
        if (a == 0) {
            hung[many++] = name[b];
        } else {
            listing[2 * rows] = name[a];
            listing[2 * rows + 1] = name[b];
            name[a] = (uint16_t)(n + rows++);
        }
        merge(&f, at, b);
    }
    for (uint16_t below_it = hung[--many]; many > 0; below_it = (uint16_t)(n + rows++)) {
        listing[2 * rows] = hung[--many];
        listing[2 * rows + 1] = below_it;
    }
    plain_standardise(n, listing, out);
    return (total << 16) + 256 * GUESSED;
}
