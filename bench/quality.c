/* How good the guess is: tables of known trees are spoilt in several ways, and the guess of each is compared with the
   tree, and so is textbook neighbour joining of the same table.

   Trees are drawn by grafting leaf after leaf: on an edge by chance (every tree alike), on the leaf before (combs), or
   on each leaf in turn (balanced trees); then the leaves are numbered by chance. For every count of leaves and way of
   spoiling it prints, guess before neighbour joining, how many of a hundred trees were found, and the mean share of
   the tree's splits that were, in percent; and the mean total gap of the guesses, in percent of what the cells of any
   tree of so many leaves add up to, two for each quartet.

   With a path it also draws a plot there: the share of splits over the quartets flipped, for trees drawn by chance. */
#include "../include/quartree.h"
#include "plain.h"
#include <stdio.h>
#include <stdlib.h>
#include <string.h>

enum { MOST = 128, SHAPES = 3, COUNTS = 5, SET = QUARTREE_SET_BYTES };
static const char *const shapes[SHAPES] = {"by chance", "comb", "balanced"};
static const struct {
    size_t leaves;
    int tables; /* of each shape, spoilt in each way */
} counts[COUNTS] = {{8, 300}, {16, 300}, {32, 200}, {64, 100}, {128, 20}};

typedef struct {
    uint8_t set[MOST][SET]; /* the n - 3 splits, each the side without leaf 0 */
} splits;

static size_t n;
static uint32_t exact[MOST * MOST], table[MOST * MOST];
static uint8_t apart[MOST][MOST]; /* how many splits lie between two leaves */
static splits own;
static uint64_t state = 1;

static uint32_t chance(void)
{
    state = state * 6364136223846793005u + 1442695040888963407u;
    return (uint32_t)(state >> 32);
}

static size_t below(size_t bound) { return chance() % bound; }

/* ---- Trees ------------------------------------------------------------------------------------------------------- */

static uint16_t child[2 * MOST][2], parent[2 * MOST], listing[2 * MOST];

/* Writes the rows of the nodes under this one behind those that stand, and gives its number in the listing. */
static uint16_t write_rows(uint16_t v, size_t *rows)
{
    if (v < n)
        return v;
    const uint16_t a = write_rows(child[v][0], rows), b = write_rows(child[v][1], rows);
    listing[2 * *rows] = a;
    listing[2 * *rows + 1] = b;
    return (uint16_t)(n + (*rows)++);
}

/* A listing of a tree of this shape: leaf k is grafted on the edge above a leaf or node. Node n + k - 2 comes with
   leaf k. Leaf 0 is the parent of the top, and has no edge above it, so the top's stands for it. */
static void draw_tree(int shape)
{
    size_t half = 1, rows = 0;
    uint16_t top = 1;
    parent[1] = 0;
    for (size_t k = 2; k < n; k++) {
        const uint16_t node = (uint16_t)(n + k - 2);
        half = k == 2 * half ? k : half;
        size_t edge = below(2 * k - 3); /* of k - 1 leaves and k - 2 nodes */
        edge = edge < k - 1 ? edge + 1 : n + edge - (k - 1);
        if (shape > 0)
            edge = shape == 1 ? k - 1 : k - half;
        if (edge == 0)
            edge = top;
        const uint16_t above = parent[edge];
        if (edge == top)
            top = node;
        else
            child[above][child[above][1] == edge] = node;
        parent[node] = above;
        parent[edge] = parent[k] = node;
        child[node][0] = (uint16_t)edge;
        child[node][1] = (uint16_t)k;
    }
    write_rows(top, &rows);
}

static int holds(const uint8_t *set, size_t leaf) { return set[leaf / 8] >> leaf % 8 & 1; }

/* Adds a split: these leaves, or, where leaf 0 is one of them, the others. */
static void add_split(splits *s, size_t at, const uint8_t *leaves)
{
    memset(s->set[at], 0, SET);
    for (size_t i = 1; i < n; i++)
        if (holds(leaves, i) != holds(leaves, 0))
            s->set[at][i / 8] |= (uint8_t)(1u << i % 8);
}

/* A tree of this shape with its leaves numbered by chance: its table, its splits, and how far leaves are apart. */
static void make(int shape)
{
    uint16_t number[MOST];
    uint8_t drawn[MOST * SET], leaves[SET];
    draw_tree(shape);
    plain_table(n, listing, table);
    plain_splits(n, listing, drawn);
    for (size_t i = 0; i < n; i++) {
        const size_t other = below(i + 1);
        number[i] = number[other];
        number[other] = (uint16_t)i;
    }
    for (size_t i = 0; i < n; i++)
        for (size_t j = 0; j < n; j++)
            exact[number[i] * n + number[j]] = table[i * n + j];
    memset(apart, 0, sizeof apart);
    for (size_t k = 0; k < n - 3; k++) {
        memset(leaves, 0, SET);
        for (size_t i = 0; i < n; i++)
            if (holds(drawn + SET * k, i))
                leaves[number[i] / 8] |= (uint8_t)(1u << number[i] % 8);
        add_split(&own, k, leaves);
        for (size_t i = 0; i < n; i++)
            for (size_t j = 0; j < n; j++)
                apart[i][j] += (uint8_t)(holds(leaves, i) != holds(leaves, j));
    }
}

/* ---- Ways of spoiling a table: of its upper half, which is then mirrored. ---------------------------------------- */

static void count_pairing(const size_t q[4], int pairing, uint32_t by)
{
    static const int other[3][2] = {{2, 3}, {1, 3}, {1, 2}};
    table[q[0] * n + q[pairing + 1]] += by;
    table[q[other[pairing][0]] * n + q[other[pairing][1]]] += by;
}

/* Each quartet, with this chance in a hundred, is counted for one of the two pairings that are not the tree's. */
static void flip(uint32_t percent)
{
    const uint32_t limit = (uint32_t)(((uint64_t)percent << 32) / 100);
    for (size_t a = 0; a < n; a++)
        for (size_t b = a + 1; b < n; b++)
            for (size_t c = b + 1; c < n; c++)
                for (size_t d = c + 1; d < n; d++) {
                    if (chance() >= limit)
                        continue;
                    const size_t q[4] = {a, b, c, d};
                    const int first = apart[a][b] + apart[c][d], second = apart[a][c] + apart[b][d];
                    const int third = apart[a][d] + apart[b][c];
                    const int pairing = first < second ? 0 : second < third ? 1 : 2;
                    count_pairing(q, pairing, (uint32_t)-1);
                    count_pairing(q, (pairing + 1 + (int)below(2)) % 3, 1);
                }
}

/* The same, and then each cell is put back where it is to be expected from: flipping draws it towards a third of the
   most that a cell can have. None is below 0. */
static void flip_and_put_right(uint32_t percent)
{
    const int64_t most = (int64_t)((n - 2) * (n - 3) / 2), whole = 200 - 3 * (int64_t)percent;
    flip(percent);
    for (size_t k = 0; k < n * n; k++) {
        const int64_t put = (200 * (int64_t)table[k] - percent * most + whole / 2) / whole;
        table[k] = put < 0 ? 0 : (uint32_t)put;
    }
}

/* Each cell is rounded to the nearest multiple. */
static void round_to(uint32_t multiple)
{
    for (size_t k = 0; k < n * n; k++)
        table[k] = (table[k] + multiple / 2) / multiple * multiple;
}

/* Each cell is off by up to so much, and none is below 0. */
static void move_by(uint32_t most)
{
    for (size_t k = 0; k < n * n; k++) {
        const uint32_t moved = table[k] + (uint32_t)below(2 * most + 1);
        table[k] = moved < most ? 0 : moved - most;
    }
}

static const struct {
    const char *name;
    void (*spoil)(uint32_t);
    uint32_t by;
} ways[] = {
    {"exact", round_to, 1}, {"1 % flipped", flip, 1}, {"5 % flipped", flip, 5}, {"10 % flipped", flip, 10},
    {"20 % flipped", flip, 20}, {"30 % flipped", flip, 30}, {"10 % flipped, put right", flip_and_put_right, 10},
    {"multiples of 4", round_to, 4}, {"multiples of 16", round_to, 16}, {"multiples of 64", round_to, 64},
    {"off by up to 20", move_by, 20},
};
enum { WAYS = sizeof ways / sizeof *ways };

static void spoil(int way)
{
    memcpy(table, exact, n * n * sizeof *table);
    ways[way].spoil(ways[way].by);
    for (size_t i = 0; i < n; i++) {
        table[i * n + i] = 0;
        for (size_t j = i + 1; j < n; j++)
            table[j * n + i] = table[i * n + j];
    }
}

/* ---- The two trees, and what they have of the one that was drawn. ------------------------------------------------ */

/* The splits of the guess, and its total gap. */
static uint64_t guess(splits *s)
{
    uint16_t out[2 * MOST];
    uint8_t sets[MOST * SET];
    const uint64_t reply = quartree_guess(n, QUARTREE_COUNTS, table, n * n, out, 2 * (n - 2));
    if (QUARTREE_NUMBER(reply) != 0) {
        fprintf(stderr, "quality: a table was refused\n");
        exit(1);
    }
    plain_splits(n, out, sets);
    for (size_t k = 0; k < n - 3; k++)
        add_split(s, k, sets + SET * k);
    return QUARTREE_FIGURE_X(reply);
}

/* The splits of neighbour joining, which its first n - 3 pairs make: what is joined after them lies on edges that are
   there. */
static void join(splits *s)
{
    uint16_t joined[2 * MOST];
    uint8_t leaves[MOST][SET];
    neighbour_joining(n, table, joined);
    memset(leaves, 0, sizeof leaves);
    for (size_t i = 0; i < n; i++)
        leaves[i][i / 8] = (uint8_t)(1u << i % 8);
    for (size_t k = 0; k < n - 3; k++) {
        uint8_t *into = leaves[joined[2 * k]];
        for (size_t b = 0; b < SET; b++)
            into[b] |= leaves[joined[2 * k + 1]][b];
        add_split(s, k, into);
    }
}

static size_t shared(const splits *s)
{
    size_t count = 0;
    for (size_t i = 0; i < n - 3; i++)
        for (size_t j = 0; j < n - 3; j++)
            if (memcmp(s->set[i], own.set[j], SET) == 0) {
                count++;
                break;
            }
    return count;
}

typedef struct {
    double trees, splits, gap;
} found;

static void note(found *f, const splits *s)
{
    const size_t count = shared(s);
    f->trees += count == n - 3;
    f->splits += (double)count / (double)(n - 3);
}

/* Spoils the table, and notes what comes of it. */
static void try_way(int way, found *by_guess, found *by_joining)
{
    static splits s;
    spoil(way);
    by_guess->gap += (double)guess(&s) / (2.0 * (double)QUARTREE_POLL_RECORDS(n));
    note(by_guess, &s);
    join(&s);
    note(by_joining, &s);
}

/* ---- The plot ---------------------------------------------------------------------------------------------------- */

/* The shares of splits found, in percent, of trees drawn by chance: by the guess, and by neighbour joining. */
typedef struct {
    double guess, joining;
} shares;

/* The first ways flip 0, 1, 5, 10, 20 and 30 percent of the quartets. */
enum { FLIPS = 6 };
static int flipped(int way) { return way == 0 ? 0 : (int)ways[way].by; }

/* Where a way stands in the plot from left to right, and a share from below. */
static int across(int way) { return 70 + 12 * flipped(way); }
static double up(double share) { return 350 - 3 * share; }

static void draw_line(FILE *f, int line, const char *colour, size_t leaves, const shares at[WAYS], int by_guess)
{
    const char *dashes = by_guess ? "" : " stroke-dasharray=\"6 4\"";
    const int y = 62 + 20 * line;
    fprintf(f, "<polyline fill=\"none\" stroke=\"%s\" stroke-width=\"2\"%s points=\"", colour, dashes);
    for (int way = 0; way < FLIPS; way++)
        fprintf(f, "%d,%.1f ", across(way), up(by_guess ? at[way].guess : at[way].joining));
    fprintf(f, "\"/>\n<line x1=\"446\" y1=\"%d\" x2=\"474\" y2=\"%d\" stroke=\"%s\" stroke-width=\"2\"%s/>"
               "<text x=\"482\" y=\"%d\">%s, %zu leaves</text>\n",
            y - 4, y - 4, colour, dashes, y, by_guess ? "guess" : "neighbour joining", leaves);
}

static void draw(const char *path, shares at[COUNTS][WAYS])
{
    static const char *const colours[COUNTS] = {"#1b6ca8", "", "#2e8b57", "", "#c0392b"};
    FILE *f = fopen(path, "w");
    if (f == NULL) {
        fprintf(stderr, "quality: the plot cannot be written\n");
        exit(1);
    }
    fprintf(f, "<svg xmlns=\"http://www.w3.org/2000/svg\" width=\"690\" height=\"410\" font-family=\"sans-serif\" "
               "font-size=\"12\">\n<rect width=\"690\" height=\"410\" fill=\"white\"/>\n");
    for (int way = 0; way < FLIPS; way++)
        fprintf(f, "<line x1=\"%d\" y1=\"50\" x2=\"%d\" y2=\"350\" stroke=\"#ddd\"/><text x=\"%d\" y=\"368\" "
                   "text-anchor=\"middle\">%d</text>\n", across(way), across(way), across(way), flipped(way));
    for (int share = 0; share <= 100; share += 20)
        fprintf(f, "<line x1=\"70\" y1=\"%.0f\" x2=\"430\" y2=\"%.0f\" stroke=\"#ddd\"/><text x=\"62\" y=\"%.0f\" "
                   "text-anchor=\"end\">%d</text>\n", up(share), up(share), up(share) + 4, share);
    fprintf(f, "<text x=\"70\" y=\"24\" font-size=\"13\">Splits found in tables with flipped quartets, trees drawn by "
               "chance</text>\n<text x=\"250\" y=\"394\" text-anchor=\"middle\">quartets flipped, in percent</text>\n"
               "<text transform=\"translate(24,200) rotate(-90)\" text-anchor=\"middle\">splits of the tree found, in "
               "percent</text>\n");
    for (int by_guess = 0, line = 0; by_guess < 2; by_guess++)
        for (int c = 0; c < COUNTS; c += 2)
            draw_line(f, line++, colours[c], counts[c].leaves, at[c], by_guess);
    fprintf(f, "</svg>\n");
    fclose(f);
}

int main(int argc, char **argv)
{
    static found by_guess[WAYS][SHAPES], by_joining[WAYS][SHAPES];
    static shares by_chance[COUNTS][WAYS];
    printf("| n | table |");
    for (int shape = 0; shape < SHAPES; shape++)
        printf(" %s: tree | splits | gap |", shapes[shape]);
    printf("\n|---|---|---|---|---|---|---|---|---|---|---|\n");
    for (int c = 0; c < COUNTS; c++) {
        const double part = 100.0 / counts[c].tables;
        n = counts[c].leaves;
        memset(by_guess, 0, sizeof by_guess);
        memset(by_joining, 0, sizeof by_joining);
        for (int shape = 0; shape < SHAPES; shape++)
            for (int t = 0; t < counts[c].tables; t++) {
                make(shape);
                for (int way = 0; way < WAYS; way++)
                    try_way(way, &by_guess[way][shape], &by_joining[way][shape]);
            }
        for (int way = 0; way < WAYS; way++) {
            by_chance[c][way].guess = part * by_guess[way][0].splits;
            by_chance[c][way].joining = part * by_joining[way][0].splits;
            printf("| %zu | %s |", n, ways[way].name);
            for (int shape = 0; shape < SHAPES; shape++) {
                const found g = by_guess[way][shape], j = by_joining[way][shape];
                printf(" %.0f, %.0f | %.1f, %.1f | %.1f |", part * g.trees, part * j.trees, part * g.splits,
                       part * j.splits, part * g.gap);
            }
            printf("\n");
        }
        fflush(stdout);
    }
    if (argc > 1)
        draw(argv[1], by_chance);
    return 0;
}
