/* Plain C of trees, tables, polls, and the table of a sheet: see plain.h. */
#include "plain.h"
#include <string.h>

enum { MOST = 128, NUMBERS = 2 * MOST, LISTED = 1, ORIGINS = 5 };

int plain_check(size_t n, const uint16_t *listing)
{
    uint8_t named[NUMBERS] = {0};
    for (size_t p = 0; p < 2 * (n - 2); p++) {
        size_t c = listing[p];
        if (c < 1 || c >= n + p / 2)
            return 7;
        if (named[c])
            return 8;
        named[c] = 1;
    }
    return 0;
}

typedef struct {
    uint16_t first[MOST], second[MOST];
} children;

/* The children of each node, the one with the smaller least leaf first. */
static void in_order(size_t n, const uint16_t *listing, children *c)
{
    uint16_t least[NUMBERS];
    for (size_t i = 0; i < n; i++)
        least[i] = (uint16_t)i;
    for (size_t k = 0; k < n - 2; k++) {
        uint16_t a = listing[2 * k], b = listing[2 * k + 1];
        int swap = least[b] < least[a];
        c->first[k] = swap ? b : a;
        c->second[k] = swap ? a : b;
        least[n + k] = least[swap ? b : a];
    }
}

static size_t emit(size_t n, const children *c, size_t v, size_t row, uint16_t *out)
{
    if (v < n)
        return row;
    size_t a = c->first[v - n], b = c->second[v - n];
    size_t ra = emit(n, c, a, row, out);
    size_t rb = emit(n, c, b, ra, out);
    out[2 * rb] = (uint16_t)(a < n ? a : n + ra - 1);
    out[2 * rb + 1] = (uint16_t)(b < n ? b : n + rb - 1);
    return rb + 1;
}

void plain_standardise(size_t n, const uint16_t *listing, uint16_t *out)
{
    children c;
    in_order(n, listing, &c);
    emit(n, &c, 2 * n - 3, 0, out);
}

uint64_t plain_restandardise(size_t n, uint32_t origin, const uint16_t *listing, uint16_t *out)
{
    plain_standardise(n, listing, out);
    return (uint64_t)(origin < ORIGINS ? origin : LISTED) << 8;
}

/* Writes the sets of the inner nodes under v, and of v, in post-order; where the next one goes is returned. */
static uint8_t *emit_sets(size_t n, const children *c, const uint64_t (*sets)[2], size_t v, uint8_t *out)
{
    if (v < n)
        return out;
    out = emit_sets(n, c, sets, c->first[v - n], out);
    out = emit_sets(n, c, sets, c->second[v - n], out);
    memcpy(out, sets[v], sizeof sets[v]);
    return out + sizeof sets[v];
}

void plain_splits(size_t n, const uint16_t *listing, uint8_t *out)
{
    children c;
    uint16_t least[NUMBERS];
    uint64_t sets[NUMBERS][2]; /* a word's low byte comes first */
    for (size_t i = 0; i < n; i++) {
        least[i] = (uint16_t)i;
        sets[i][0] = i < 64 ? (uint64_t)1 << i : 0;
        sets[i][1] = i < 64 ? 0 : (uint64_t)1 << (i - 64);
    }
    for (size_t k = 0; k < n - 2; k++) {
        uint16_t a = listing[2 * k], b = listing[2 * k + 1];
        int swap = least[b] < least[a];
        c.first[k] = swap ? b : a;
        c.second[k] = swap ? a : b;
        least[n + k] = least[swap ? b : a];
        sets[n + k][0] = sets[a][0] | sets[b][0];
        sets[n + k][1] = sets[a][1] | sets[b][1];
    }
    out = emit_sets(n, &c, (const uint64_t (*)[2])sets, c.first[n - 3], out);
    emit_sets(n, &c, (const uint64_t (*)[2])sets, c.second[n - 3], out);
}

int plain_pairing(size_t n, const uint16_t *listing, const uint16_t question[4])
{
    static const int8_t by_mask[16] = {-1, -1, -1, 0, -1, 1, 2, -1, -1, 2, 1, -1, 0, -1, -1, -1};
    uint8_t under[NUMBERS] = {0};
    for (int q = 0; q < 4; q++)
        under[question[q]] |= (uint8_t)(1u << q);
    for (size_t k = 0; k < n - 2; k++) {
        under[n + k] = under[listing[2 * k]] | under[listing[2 * k + 1]];
        if (by_mask[under[n + k]] >= 0)
            return by_mask[under[n + k]];
    }
    return -1;
}

static uint32_t pairs(size_t k) { return (uint32_t)(k * (k - 1) / 2); }

void plain_table(size_t n, const uint16_t *listing, uint32_t *out)
{
    uint32_t p[MOST + 1], m[MOST] = {0};
    uint16_t size[NUMBERS], start[NUMBERS];
    uint8_t order[MOST];
    for (size_t k = 0; k <= n; k++)
        p[k] = k ? pairs(k) : 0;
    for (size_t i = 0; i < n; i++)
        size[i] = 1;
    for (size_t k = 0; k < n - 2; k++)
        size[n + k] = (uint16_t)(size[listing[2 * k]] + size[listing[2 * k + 1]]);
    start[2 * n - 3] = 0;
    for (size_t k = n - 2; k-- > 0;) {
        uint16_t a = listing[2 * k], b = listing[2 * k + 1];
        start[a] = start[n + k];
        start[b] = (uint16_t)(start[n + k] + size[a]);
    }
    for (size_t i = 1; i < n; i++)
        order[start[i]] = (uint8_t)i;
    for (size_t k = 0; k < n - 2; k++) {
        uint16_t a = listing[2 * k], b = listing[2 * k + 1];
        uint32_t rest = p[n - size[n + k]], pa = p[size[a]], pb = p[size[b]];
        for (size_t x = start[a]; x < (size_t)start[a] + size[a]; x++) {
            size_t i = order[x];
            for (size_t y = start[b]; y < (size_t)start[b] + size[b]; y++) {
                size_t j = order[y];
                uint32_t v = rest + m[i] + m[j];
                out[i * n + j] = v;
                out[j * n + i] = v;
            }
        }
        for (size_t x = start[a]; x < (size_t)start[a] + size[a]; x++)
            m[order[x]] += pb;
        for (size_t y = start[b]; y < (size_t)start[b] + size[b]; y++)
            m[order[y]] += pa;
    }
    for (size_t j = 1; j < n; j++) {
        out[j] = m[j];
        out[j * n] = m[j];
    }
    for (size_t i = 0; i < n; i++)
        out[i * n + i] = 0;
}

void direct_table(size_t n, const uint16_t *listing, uint32_t *out)
{
    uint8_t side[NUMBERS][MOST];
    memset(side, 0, sizeof side);
    for (size_t i = 1; i < n; i++)
        side[i][i] = 1;
    for (size_t k = 0; k < n - 2; k++)
        for (size_t i = 0; i < n; i++)
            side[n + k][i] = side[listing[2 * k]][i] | side[listing[2 * k + 1]][i];
    for (size_t i = 0; i < n; i++)
        for (size_t j = 0; j < n; j++) {
            uint32_t count = 0;
            for (size_t p = 0; i != j && p < n; p++)
                for (size_t q = p + 1; q < n; q++) {
                    if (p == i || p == j || q == i || q == j)
                        continue;
                    for (size_t e = 1; e < 2 * n - 2; e++)
                        if (side[e][i] == side[e][j] && side[e][p] == side[e][q] && side[e][i] != side[e][p]) {
                            count++;
                            break;
                        }
                }
            out[i * n + j] = count;
        }
}

int plain_wrong_table(size_t n, const uint32_t *table)
{
    for (size_t i = 0; i < n; i++)
        if (table[i * n + i] != 0)
            return 4;
    for (size_t i = 0; i < n; i++)
        for (size_t j = i + 1; j < n; j++)
            if (table[i * n + j] != table[j * n + i])
                return 5;
    return 0;
}

int plain_gap(size_t n, uint32_t times, const uint32_t *table, const uint16_t *listing, int64_t *out)
{
    uint32_t own[MOST * MOST];
    int wrong = plain_wrong_table(n, table);
    if (wrong)
        return wrong;
    plain_table(n, listing, own);
    for (size_t k = 0; k < n * n; k++)
        out[k] = (int64_t)table[k] - (int64_t)(times * own[k]);
    return 0;
}

/* A rebuild's subtrees: a leaf's label is the least leaf of its subtree, and sizes and names are kept by label. What
   stands in p and m counts as many times as a tree's cell does. */
typedef struct {
    uint32_t p[MOST + 1], label[MOST], m[MOST];
    size_t size[MOST];
    uint16_t name[MOST];
} forest;

/* Whether every cell of the subtrees a and b has the value expected; the first cell is looked at first. */
static int eligible(size_t n, const uint32_t *table, const forest *f, size_t a, size_t b)
{
    uint32_t rest = f->p[n - f->size[a] - f->size[b]];
    if (table[a * n + b] != rest + f->m[a] + f->m[b])
        return 0;
    if (f->size[b] < f->size[a]) {
        size_t c = a;
        a = b;
        b = c;
    }
    uint32_t rows = (uint32_t)a, columns = (uint32_t)b;
    for (size_t x = 0; x < n; x++) {
        if (f->label[x] != rows)
            continue;
        const uint32_t *row = table + x * n;
        uint32_t e = rest + f->m[x], bad = 0;
        for (size_t y = 0; y < n; y++)
            bad += (f->label[y] == columns) & (row[y] != e + f->m[y]);
        if (bad)
            return 0;
    }
    return 1;
}

static void join(size_t n, forest *f, size_t a, size_t b)
{
    uint32_t pa = f->p[f->size[a]], pb = f->p[f->size[b]];
    uint32_t la = (uint32_t)a, lb = (uint32_t)b;
    for (size_t x = 0; x < n; x++) {
        uint32_t l = f->label[x];
        f->m[x] += (l == la ? pb : 0) + (l == lb ? pa : 0);
        f->label[x] = l == lb ? la : l;
    }
    f->size[a] += f->size[b];
}

static void single_leaves(size_t n, uint32_t times, forest *f)
{
    for (size_t k = 0; k <= n; k++)
        f->p[k] = k ? times * pairs(k) : 0;
    for (size_t i = 0; i < n; i++) {
        f->label[i] = (uint32_t)i;
        f->m[i] = 0;
        f->size[i] = 1;
        f->name[i] = (uint16_t)i;
    }
}

int plain_rebuild(size_t n, uint32_t times, const uint32_t *table, uint16_t *out)
{
    int wrong = plain_wrong_table(n, table);
    if (wrong)
        return wrong;
    forest f;
    children c;
    size_t r = 0;
    single_leaves(n, times, &f);
    for (size_t t = n - 1; t >= 1; t--)
        for (size_t b = t + 1; b < n;) {
            if (f.label[b] != b || !eligible(n, table, &f, t, b)) {
                b++;
                continue;
            }
            join(n, &f, t, b);
            c.first[r] = f.name[t];
            c.second[r] = f.name[b];
            f.name[t] = (uint16_t)(n + r++);
            b = t + 1;
        }
    for (size_t k = 1; k < n; k++)
        if (f.label[k] != 1 || table[k] != f.m[k])
            return 6;
    emit(n, &c, f.name[1], 0, out);
    return 0;
}

int plain_guided(size_t n, uint32_t times, const uint32_t *table, const uint16_t *merges, uint16_t *out)
{
    int wrong = plain_wrong_table(n, table);
    if (wrong)
        return wrong;
    forest f;
    single_leaves(n, times, &f);
    for (size_t k = 0; k < n - 1; k++) {
        if (merges[2 * k] >= n || merges[2 * k + 1] >= n)
            return 12;
        size_t a = f.label[merges[2 * k]], b = f.label[merges[2 * k + 1]];
        if (a == b || !eligible(n, table, &f, a, b))
            return 12;
        join(n, &f, a < b ? a : b, a < b ? b : a);
    }
    return plain_rebuild(n, times, table, out);
}

/* What a code gives to the pairings 0, 1 and 2, ten bits each: no sum over the last leaf of a quartet is above 174. */
#define SHARES(first, second, third) ((first) | (second) << 10 | (third) << 20)

int plain_poll(size_t n, const uint8_t *records, uint32_t *out)
{
    static const uint32_t shares[] = {SHARES(6, 0, 0), SHARES(0, 6, 0), SHARES(0, 0, 6), SHARES(2, 2, 2),
                                      SHARES(3, 3, 0), SHARES(3, 0, 3), SHARES(0, 3, 3)};
    uint32_t sums[32][32] = {{0}}; /* above the diagonal */
    const uint8_t *r = records;
    for (size_t a = 0; a < n; a++)
        for (size_t b = a + 1; b < n; b++)
            for (size_t c = b + 1; c < n; c++) {
                const uint8_t first[4] = {(uint8_t)a, (uint8_t)b, (uint8_t)c, 0}, one[4] = {0, 0, 0, 1};
                uint32_t due, step, leaves, three = 0;
                memcpy(&due, first, sizeof due);
                memcpy(&step, one, sizeof step);
                due += step * (uint32_t)c;
                for (size_t d = c + 1; d < n; d++, r += 5) {
                    memcpy(&leaves, r, sizeof leaves);
                    due += step;
                    if (leaves != due)
                        return 10;
                    if (r[4] > 6)
                        return 11;
                    const uint32_t given = shares[r[4]];
                    three += given;
                    sums[c][d] += given & 1023;
                    sums[b][d] += given >> 10 & 1023;
                    sums[a][d] += given >> 20;
                }
                sums[a][b] += three & 1023;
                sums[a][c] += three >> 10 & 1023;
                sums[b][c] += three >> 20;
            }
    for (size_t i = 0; i < n; i++)
        for (size_t j = i; j < n; j++)
            out[i * n + j] = out[j * n + i] = sums[i][j];
    return 0;
}

int plain_sheet_table(const uint8_t *sheet, size_t len, uint32_t *out)
{
    size_t n, offset;
    int wrong = plain_sheet(sheet, len, &n, &offset);
    if (wrong)
        return wrong;
    const uint8_t *cell = sheet + offset;
    for (size_t i = 0; i < n; i++) {
        out[i * n + i] = 0;
        for (size_t j = i + 1; j < n; j++, cell += 2)
            out[i * n + j] = out[j * n + i] = cell[0] + 256u * cell[1];
    }
    return 0;
}

int plain_rebuild_sheet(const uint8_t *sheet, size_t len, uint8_t *out)
{
    uint32_t table[MOST * MOST];
    uint16_t listing[2 * MOST];
    int wrong = plain_sheet_table(sheet, len, table);
    size_t n = wrong ? 0 : sheet[len - 8];
    if (!wrong)
        wrong = plain_rebuild(n, 1, table, listing);
    for (size_t k = 0; !wrong && k < 2 * (n - 2); k++) {
        out[2 * k] = (uint8_t)listing[k];
        out[2 * k + 1] = (uint8_t)(listing[k] >> 8);
    }
    return wrong;
}

size_t plain_sheet_name(const uint8_t *sheet, size_t len, size_t leaf)
{
    size_t n, offset, at = 0;
    if (plain_sheet(sheet, len, &n, &offset) != 0 || leaf >= n)
        return 0;
    while (leaf-- > 0)
        at += 1 + (size_t)sheet[at];
    return 256 * (at + 1) + sheet[at];
}

void neighbour_joining(size_t n, const uint32_t *table, uint16_t *joined)
{
    static double d[MOST][MOST];
    double sum[MOST];
    uint16_t live[MOST] = {0};
    size_t many = n, steps = 0;
    for (size_t i = 0; i < n; i++) {
        live[i] = (uint16_t)i;
        for (size_t j = 0; j < n; j++)
            d[i][j] = i == j ? 0 : (double)pairs(n) - (double)table[i * n + j];
    }
    while (many > 2) {
        size_t bi = 0, bj = 1;
        double best = 1e300;
        for (size_t x = 0; x < many; x++) {
            sum[x] = 0;
            for (size_t y = 0; y < many; y++)
                sum[x] += d[live[x]][live[y]];
        }
        for (size_t x = 0; x < many; x++)
            for (size_t y = x + 1; y < many; y++) {
                double q = (double)(many - 2) * d[live[x]][live[y]] - sum[x] - sum[y];
                if (q < best) {
                    best = q;
                    bi = x;
                    bj = y;
                }
            }
        uint16_t a = live[bi], b = live[bj];
        joined[2 * steps] = a;
        joined[2 * steps + 1] = b;
        steps++;
        for (size_t x = 0; x < many; x++) {
            uint16_t k = live[x];
            double v = (d[a][k] + d[b][k] - d[a][b]) / 2;
            if (k != a && k != b)
                d[a][k] = d[k][a] = v;
        }
        live[bj] = live[--many];
    }
    joined[2 * steps] = live[0];
    joined[2 * steps + 1] = live[1];
}
