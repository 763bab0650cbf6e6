/* Measures every call of the part against plain C, and against the floor (its buffers read and written once); the
   rebuilds and the guess also against textbook neighbour joining, the table against counting quartets directly; import
   also with long texts. The calls of leaf sets have a table of their own, with plain C that goes byte by byte. Plain C
   of the splits, of the table, of a poll, of the guess (plain_guess.c), of graft and prune (plain_graft.c), of both
   looks (plain_look.c), and of all that judges names (plain_sheets.c), is of another algorithm. Where n leaves are
   said, a graft makes a tree of n leaves, a look is at one, and a prune is given one; the other tree has a leaf less.
   Each figure is a ratio of medians of rounds that take turns in this one run; no bare time is printed. With a file
   name it draws the growth of the calls with the number of leaves there, as an SVG. */
#define _POSIX_C_SOURCE 200809L
#include "../include/quartree.h"
#include "plain.h"
#include <math.h>
#include <stdio.h>
#include <stdlib.h>
#include <string.h>
#include <time.h>

enum { MOST = 128, ROUNDS = 41, SHAPES = 3, COUNTS = 4, LONG = 1 << 20, TIES = 1 << 19, OFF = 20, DRAWN = 1 << 10 };
enum { SET = QUARTREE_SET_BYTES, PAIRS = 1 << 10 };
static const size_t counts[COUNTS] = {16, 32, 64, 128};
static const char *const shapes[SHAPES] = {"comb", "balanced", "random"};
static const uint64_t imported = 256 * QUARTREE_IMPORTED; /* an accepted reply with that origin */
static const uint64_t grafted = 256 * QUARTREE_GRAFTED;

static size_t n;
static uint16_t listing[2 * MOST], standard[2 * MOST], merges[2 * MOST], joined[2 * MOST], question[4];
static uint32_t table[MOST * MOST], cells[MOST * MOST], sixths[MOST * MOST], rough[MOST * MOST];
static uint16_t fewer[2 * MOST], changed[2 * MOST];
static uint32_t fewer_cells[MOST * MOST], changed_cells[MOST * MOST], looked[MOST * MOST], drawn[DRAWN];
static uint64_t totals[QUARTREE_EDGES(MOST)];
static int64_t gaps[MOST * MOST];
static uint8_t sets[QUARTREE_SET_BYTES * MOST], bytes[4 * MOST], sheet[QUARTREE_SHEET_MOST_BYTES];
static uint8_t text[QUARTREE_TEXT_BYTES(MOST)], text_out[QUARTREE_TEXT_BYTES(MOST)], long_text[LONG];
static uint8_t first_sets[SET * PAIRS], second_sets[SET * PAIRS], equal_sets[SET * PAIRS], made_sets[SET * PAIRS];
static struct quartree_record records[QUARTREE_POLL_RECORDS(32)], ties[TIES];
static size_t sheet_len, text_len, long_len, turn;
static volatile uint64_t sink;

static double now(void)
{
    struct timespec t;
    clock_gettime(CLOCK_MONOTONIC, &t);
    return (double)t.tv_sec * 1e9 + (double)t.tv_nsec;
}

static void fail(const char *what)
{
    fprintf(stderr, "bench: %s\n", what);
    exit(1);
}

/* ---- Inputs: trees, their tables, merges, sheets and polls. ---- */

/* A pseudo-random listing of n leaves: each row joins two items that are not yet used. */
static void random_listing(uint32_t seed)
{
    uint16_t items[MOST];
    size_t live = n - 1;
    for (size_t i = 0; i < live; i++)
        items[i] = (uint16_t)(i + 1);
    for (size_t k = 0; k < n - 2; k++) {
        for (int c = 0; c < 2; c++) {
            seed = seed * 1664525u + 1013904223u;
            size_t x = (seed >> 8) % live;
            listing[2 * k + c] = items[x];
            items[x] = items[--live];
        }
        items[live++] = (uint16_t)(n + k);
    }
}

/* Each row joins the node before it and the next leaf. */
static void comb(void)
{
    for (size_t k = 0; k < n - 2; k++) {
        listing[2 * k] = (uint16_t)(k == 0 ? 1 : n + k - 1);
        listing[2 * k + 1] = (uint16_t)(k + 2);
    }
}

/* Each row joins the two oldest items that are not yet used. */
static void balanced(void)
{
    uint16_t items[2 * MOST];
    size_t first = 0, last = n - 1;
    for (size_t i = 0; i < last; i++)
        items[i] = (uint16_t)(i + 1);
    for (size_t k = 0; k < n - 2; k++) {
        listing[2 * k] = items[first++];
        listing[2 * k + 1] = items[first++];
        items[last++] = (uint16_t)(n + k);
    }
}

/* The merges of the rows, each by a leaf of either child, and then leaf 0's. */
static void merges_of_rows(void)
{
    uint16_t leaf[2 * MOST];
    for (size_t i = 0; i < n; i++)
        leaf[i] = (uint16_t)i;
    for (size_t k = 0; k < n - 2; k++) {
        merges[2 * k] = leaf[listing[2 * k]];
        merges[2 * k + 1] = leaf[listing[2 * k + 1]];
        leaf[n + k] = merges[2 * k];
    }
    merges[2 * (n - 2)] = 0;
    merges[2 * (n - 2) + 1] = 1;
}

/* A table so many times, with every cell, and its mirror, off by up to OFF, and none below 0. */
static void roughen(uint32_t times, const uint32_t *of, uint32_t *to)
{
    uint32_t seed = (uint32_t)n;
    for (size_t i = 0; i < n; i++) {
        to[i * n + i] = 0;
        for (size_t j = i + 1; j < n; j++) {
            seed = seed * 1664525u + 1013904223u;
            const uint32_t moved = times * of[i * n + j] + (seed >> 8) % (2 * OFF + 1);
            to[i * n + j] = to[j * n + i] = moved < OFF ? 0 : moved - OFF;
        }
    }
}

/* A sheet of the table, with names of four bytes. */
static void sheet_of_table(void)
{
    size_t at = 0;
    for (size_t i = 0; i < n; i++)
        at += (size_t)snprintf((char *)sheet + at, 8, "%cs%03zu", 4, i);
    const uint8_t trailer[8] = {(uint8_t)n, 0, (uint8_t)at, (uint8_t)(at >> 8), 0, 0, 0x51, 0x54};
    for (size_t i = 0; i < n; i++)
        for (size_t j = i + 1; j < n; j++) {
            sheet[at++] = (uint8_t)cells[i * n + j];
            sheet[at++] = (uint8_t)(cells[i * n + j] >> 8);
        }
    memcpy(sheet + at, trailer, sizeof trailer);
    sheet_len = at + sizeof trailer;
}

/* The poll of the tree's own pairings. */
static void poll_of_tree(void)
{
    size_t k = 0;
    for (size_t a = 0; a < n; a++)
        for (size_t b = a + 1; b < n; b++)
            for (size_t c = b + 1; c < n; c++)
                for (size_t d = c + 1; d < n; d++) {
                    const uint16_t q[4] = {(uint16_t)a, (uint16_t)b, (uint16_t)c, (uint16_t)d};
                    const uint8_t code = (uint8_t)plain_pairing(n, listing, q);
                    records[k++] = (struct quartree_record){(uint8_t)a, (uint8_t)b, (uint8_t)c, (uint8_t)d, code};
                }
}

/* Polls with every code by chance, one after the other, so many that a processor does not learn them by heart. */
static void polls_with_ties(void)
{
    uint32_t seed = 1;
    for (size_t k = 0; k < TIES; k++) {
        seed = seed * 1664525u + 1013904223u;
        ties[k] = records[k % QUARTREE_POLL_RECORDS(n)];
        ties[k].code = (uint8_t)((seed >> 8) % 7);
    }
}

/* The next of them. */
static const struct quartree_record *next_ties(void)
{
    const size_t count = QUARTREE_POLL_RECORDS(n);
    return ties + count * (turn++ % (TIES / count));
}

/* The guess of a table, which both make, and of which this origin is due. */
static void guess_alike(uint32_t poll, const uint32_t *of, uint64_t origin)
{
    uint16_t guessed[2 * MOST];
    const size_t rows = 2 * (n - 2);
    memset(standard, 0, sizeof standard);
    const uint64_t reply = quartree_guess(n, poll, of, n * n, standard, rows);
    if (QUARTREE_NUMBER(reply) != 0 || QUARTREE_FIGURE_Y(reply) != origin
        || (QUARTREE_FIGURE_X(reply) == 0) != (origin == QUARTREE_REBUILT))
        fail("a guess has another origin");
    if (plain_guess(n, poll == QUARTREE_POLL ? 6 : 1, of, guessed) != reply
        || memcmp(standard, guessed, rows * sizeof *standard) != 0)
        fail("plain C guesses another tree");
}

/* Whether a listing and a table of so many leaves stand where a call leaves its own. */
static int stand(size_t leaves, const uint16_t *rows, const uint32_t *of)
{
    return memcmp(rows, standard, 2 * (leaves - 2) * sizeof *rows) == 0
           && memcmp(of, table, leaves * leaves * sizeof *of) == 0;
}

/* Every leaf pruned, and then grafted on every edge of the tree that lacks leaf 0, which both do alike. That tree is
   left for the grafts, and the edges and leaves are drawn. */
static void change_alike(void)
{
    const size_t less = n - 1, rows = 2 * (n - 2);
    uint32_t seed = (uint32_t)n;
    for (size_t leaf = n; leaf-- > 0;)
        if (quartree_prune(n, listing, rows, cells, n * n, leaf, standard, rows - 2, table, less * less) != grafted
            || plain_prune(n, listing, cells, leaf, fewer, fewer_cells) != grafted || !stand(less, fewer, fewer_cells))
            fail("plain C prunes otherwise");
    for (size_t edge = 1; edge <= QUARTREE_EDGES(less); edge++)
        if (quartree_graft(less, fewer, rows - 2, fewer_cells, less * less, edge, standard, rows, table, n * n)
                != grafted
            || plain_graft(less, fewer, fewer_cells, edge, changed, changed_cells) != grafted
            || !stand(n, changed, changed_cells))
            fail("plain C grafts otherwise");
    for (size_t k = 0; k < DRAWN; k++) {
        seed = seed * 1664525u + 1013904223u;
        drawn[k] = seed >> 8;
    }
}

/* The next edge of the tree to be grafted on, and the next leaf to be pruned. */
static size_t next_edge(void) { return 1 + drawn[turn++ % DRAWN] % QUARTREE_EDGES(n - 1); }
static size_t next_leaf(void) { return drawn[turn++ % DRAWN] % n; }

/* The looks at every edge of the tree to be grafted on, one by one and all at once, which both answer alike. The new
   table is that of the tree grafted last, so many times and with every cell off; it is left for the looks. */
static void look_alike(uint32_t poll)
{
    const size_t less = n - 1, rows = 2 * (less - 2), edges = QUARTREE_EDGES(less);
    const uint32_t times = poll == QUARTREE_POLL ? 6 : 1;
    uint64_t plain_totals[QUARTREE_EDGES(MOST)];
    roughen(times, changed_cells, looked);
    memset(totals, 0, sizeof totals);
    if (quartree_look_all(less, poll, fewer, rows, fewer_cells, less * less, looked, n * n, totals, edges) != 0
        || plain_look_all(less, times, fewer, fewer_cells, looked, plain_totals) != 0
        || memcmp(totals, plain_totals, edges * sizeof *totals) != 0)
        fail("plain C looks at all edges otherwise");
    for (size_t edge = 1; edge <= edges; edge++)
        if (quartree_look(less, poll, fewer, rows, fewer_cells, less * less, edge, looked, n * n)
                != totals[edge - 1] << 8
            || plain_look(less, times, fewer, fewer_cells, edge, looked) != totals[edge - 1] << 8)
            fail("plain C looks at an edge otherwise");
}

/* A tree of this shape, and all that the calls take of it; what the part and plain C make of them is the same. */
static void make(int shape)
{
    uint16_t expected[2 * MOST];
    uint32_t polled[32 * 32];
    uint8_t plain_sets[QUARTREE_SPLIT_BYTES(MOST)];
    const size_t rows = 2 * (n - 2), size = rows * sizeof *standard;
    if (shape == 0)
        comb();
    else if (shape == 1)
        balanced();
    else
        random_listing((uint32_t)n);
    merges_of_rows();
    question[0] = 0;
    question[1] = (uint16_t)(n / 3);
    question[2] = (uint16_t)(n / 2);
    question[3] = (uint16_t)(n - 1);
    if (quartree_table(n, listing, rows, cells, n * n) != 0
        || quartree_standardise(n, listing, rows, expected, rows) != 0)
        fail("a listing was refused");
    memset(standard, 0, sizeof standard);
    if (quartree_restandardise(n, QUARTREE_IMPORTED, listing, rows, standard, rows) != imported
        || memcmp(standard, expected, size) != 0)
        fail("a record was not restandardised");
    memset(standard, 0, sizeof standard);
    if (plain_restandardise(n, QUARTREE_IMPORTED, listing, standard) != imported
        || memcmp(standard, expected, size) != 0)
        fail("plain C restandardises otherwise");
    plain_splits(n, listing, plain_sets);
    if (quartree_splits(n, listing, rows, sets, QUARTREE_SPLIT_BYTES(n)) != 0
        || memcmp(sets, plain_sets, QUARTREE_SPLIT_BYTES(n)) != 0)
        fail("plain C lists other splits");
    plain_table(n, listing, table);
    if (memcmp(table, cells, n * n * sizeof *cells) != 0)
        fail("plain C makes another table");
    if (quartree_rebuild(n, QUARTREE_COUNTS, cells, n * n, standard, rows) != 0
        || memcmp(standard, expected, size) != 0)
        fail("a tree was not rebuilt");
    memset(standard, 0, sizeof standard);
    if (quartree_rebuild_guided(n, QUARTREE_COUNTS, cells, n * n, merges, 2 * (n - 1), standard, rows) != 0
        || memcmp(standard, expected, size) != 0)
        fail("a guided tree was not rebuilt");
    memset(standard, 0, sizeof standard);
    if (plain_rebuild(n, 1, cells, standard) != 0 || memcmp(standard, expected, size) != 0)
        fail("plain C rebuilds another tree");
    roughen(1, cells, rough);
    guess_alike(QUARTREE_COUNTS, rough, QUARTREE_GUESSED);
    guess_alike(QUARTREE_COUNTS, cells, QUARTREE_REBUILT);
    change_alike();
    if (n <= 32)
        look_alike(QUARTREE_POLL);
    look_alike(QUARTREE_COUNTS);
    sheet_of_table();
    if (quartree_sheet_table(sheet, sheet_len, table, n * n) != 256 * n
        || memcmp(table, cells, n * n * sizeof *cells) != 0)
        fail("a sheet was not read");
    text_len = plain_export(sheet, sheet_len, listing, rows, text, sizeof text) >> 8;
    if (quartree_export(sheet, sheet_len, listing, rows, text_out, text_len) != 256 * text_len
        || memcmp(text_out, text, text_len) != 0)
        fail("plain C exports another text");
    memset(standard, 0, sizeof standard);
    if (plain_import(sheet, sheet_len, text, text_len, standard, rows) != imported
        || memcmp(standard, expected, size) != 0)
        fail("plain C imports another tree");
    memset(standard, 0, sizeof standard);
    if (quartree_import(sheet, sheet_len, text, text_len, standard, rows) != imported
        || memcmp(standard, expected, size) != 0)
        fail("an export was not imported");
    if (n <= 32) {
        poll_of_tree();
        polls_with_ties();
        for (size_t k = 0; k < n * n; k++)
            sixths[k] = 6 * cells[k];
        if (quartree_poll(n, records, QUARTREE_POLL_RECORDS(n), table, n * n) != 0
            || memcmp(table, sixths, n * n * sizeof *sixths) != 0)
            fail("a poll of a tree's own pairings has another table");
        memset(standard, 0, sizeof standard);
        if (quartree_rebuild(n, QUARTREE_POLL, table, n * n, standard, rows) != 0
            || memcmp(standard, expected, size) != 0)
            fail("a poll's tree was not rebuilt");
        memset(standard, 0, sizeof standard);
        if (plain_rebuild(n, 6, table, standard) != 0 || memcmp(standard, expected, size) != 0)
            fail("plain C rebuilds another tree of a poll");
        if (quartree_poll(n, ties, QUARTREE_POLL_RECORDS(n), table, n * n) != 0
            || plain_poll(n, &ties[0].a, polled) != 0 || memcmp(table, polled, n * n * sizeof *polled) != 0)
            fail("plain C adds up another poll");
        guess_alike(QUARTREE_POLL, table, QUARTREE_GUESSED);
        guess_alike(QUARTREE_POLL, sixths, QUARTREE_REBUILT);
    }
}

/* ---- The calls: ours, plain C, and the floor. ---- */

static uint64_t read_once(const void *from, size_t size)
{
    uint64_t sum = 0, word;
    for (size_t k = 0; k + sizeof word <= size; k += sizeof word) {
        memcpy(&word, (const char *)from + k, sizeof word);
        sum += word;
    }
    return sum;
}
static void floor_of(const void *from, size_t size, void *to, size_t room)
{
    sink += read_once(from, size);
    if (to != NULL)
        memset(to, (int)(sink & 1), room);
}

static void check(void) { sink += quartree_check(n, listing, 2 * (n - 2)); }
static void check_plain(void) { sink += (uint64_t)plain_check(n, listing); }
static void check_floor(void) { floor_of(listing, 4 * (n - 2), NULL, 0); }
static void standardise(void) { sink += quartree_standardise(n, listing, 2 * (n - 2), standard, 2 * (n - 2)); }
static void standardise_plain(void)
{
    check_plain();
    plain_standardise(n, listing, standard);
}
static void restandardise(void)
{
    sink += quartree_restandardise(n, QUARTREE_IMPORTED, listing, 2 * (n - 2), standard, 2 * (n - 2));
}
static void restandardise_plain(void)
{
    check_plain();
    sink += plain_restandardise(n, QUARTREE_IMPORTED, listing, standard);
}
static void standardise_floor(void) { floor_of(listing, 4 * (n - 2), standard, 4 * (n - 2)); }
static void splits(void) { sink += quartree_splits(n, listing, 2 * (n - 2), sets, QUARTREE_SPLIT_BYTES(n)); }
static void splits_plain(void)
{
    check_plain();
    plain_splits(n, listing, sets);
}
static void splits_floor(void) { floor_of(listing, 4 * (n - 2), sets, QUARTREE_SPLIT_BYTES(n)); }
static void pairing(void) { sink += quartree_pairing(n, listing, 2 * (n - 2), question, 4); }
static void pairing_plain(void)
{
    check_plain();
    sink += (uint64_t)plain_pairing(n, listing, question);
}
static void table_ours(void) { sink += quartree_table(n, listing, 2 * (n - 2), table, n * n); }
static void table_plain(void)
{
    check_plain();
    plain_table(n, listing, table);
}
static void table_floor(void) { floor_of(listing, 4 * (n - 2), table, n * n * sizeof *table); }
static void gap(void)
{
    sink += quartree_gap(n, QUARTREE_COUNTS, cells, n * n, listing, 2 * (n - 2), gaps, n * n);
}
static void gap_plain(void)
{
    check_plain();
    sink += (uint64_t)plain_gap(n, 1, cells, listing, gaps);
}
static void gap_floor(void) { floor_of(cells, n * n * sizeof *cells, gaps, n * n * sizeof *gaps); }
static void rebuild(void) { sink += quartree_rebuild(n, QUARTREE_COUNTS, cells, n * n, standard, 2 * (n - 2)); }
static void rebuild_plain(void) { sink += (uint64_t)plain_rebuild(n, 1, cells, standard); }
static void rebuild_floor(void) { floor_of(cells, n * n * sizeof *cells, standard, 4 * (n - 2)); }
static void rebuild_poll(void) { sink += quartree_rebuild(n, QUARTREE_POLL, sixths, n * n, standard, 2 * (n - 2)); }
static void rebuild_poll_plain(void) { sink += (uint64_t)plain_rebuild(n, 6, sixths, standard); }
static void guided(void)
{
    sink += quartree_rebuild_guided(n, QUARTREE_COUNTS, cells, n * n, merges, 2 * (n - 1), standard, 2 * (n - 2));
}
static void guided_plain(void) { sink += (uint64_t)plain_guided(n, 1, cells, merges, standard); }
static void guess(void) { sink += quartree_guess(n, QUARTREE_COUNTS, rough, n * n, standard, 2 * (n - 2)); }
static void guess_plain(void) { sink += plain_guess(n, 1, rough, standard); }
static void guess_floor(void) { floor_of(rough, n * n * sizeof *rough, standard, 4 * (n - 2)); }
static void guess_exact(void) { sink += quartree_guess(n, QUARTREE_COUNTS, cells, n * n, standard, 2 * (n - 2)); }
static void graft(void)
{
    const size_t less = n - 1;
    sink += quartree_graft(less, fewer, 2 * (less - 2), fewer_cells, less * less, next_edge(), changed, 2 * (n - 2),
                           changed_cells, n * n);
}
static void graft_plain(void)
{
    sink += (uint64_t)plain_check(n - 1, fewer);
    sink += plain_graft(n - 1, fewer, fewer_cells, next_edge(), changed, changed_cells);
}
static void prune(void)
{
    sink += quartree_prune(n, listing, 2 * (n - 2), cells, n * n, next_leaf(), changed, 2 * (n - 3), changed_cells,
                           (n - 1) * (n - 1));
}
static void prune_plain(void)
{
    check_plain();
    sink += plain_prune(n, listing, cells, next_leaf(), changed, changed_cells);
}
static void change_floor(void) { floor_of(cells, n * n * sizeof *cells, changed_cells, n * n * sizeof *cells); }
static void look(void)
{
    const size_t less = n - 1;
    sink += quartree_look(less, QUARTREE_COUNTS, fewer, 2 * (less - 2), fewer_cells, less * less, next_edge(), looked,
                          n * n);
}
static void look_plain(void) { sink += plain_look(n - 1, 1, fewer, fewer_cells, next_edge(), looked); }
static void look_floor(void)
{
    sink += read_once(fewer_cells, (n - 1) * (n - 1) * sizeof *fewer_cells);
    floor_of(looked, n * n * sizeof *looked, NULL, 0);
}
static void look_all(void)
{
    const size_t less = n - 1;
    sink += quartree_look_all(less, QUARTREE_COUNTS, fewer, 2 * (less - 2), fewer_cells, less * less, looked, n * n,
                              totals, QUARTREE_EDGES(less));
}
static void look_all_plain(void) { sink += (uint64_t)plain_look_all(n - 1, 1, fewer, fewer_cells, looked, totals); }
static void look_all_floor(void)
{
    sink += read_once(fewer_cells, (n - 1) * (n - 1) * sizeof *fewer_cells);
    floor_of(looked, n * n * sizeof *looked, totals, QUARTREE_EDGES(n - 1) * sizeof *totals);
}
static void poll(void) { sink += quartree_poll(n, records, QUARTREE_POLL_RECORDS(n), table, n * n); }
static void poll_plain(void) { sink += (uint64_t)plain_poll(n, &records[0].a, table); }
static void poll_ties(void) { sink += quartree_poll(n, next_ties(), QUARTREE_POLL_RECORDS(n), table, n * n); }
static void poll_ties_plain(void) { sink += (uint64_t)plain_poll(n, &next_ties()->a, table); }
static void poll_floor(void) { floor_of(records, 5 * QUARTREE_POLL_RECORDS(n), table, n * n * sizeof *table); }
static void check_sheet(void) { sink += quartree_check_sheet(sheet, sheet_len); }
static void check_sheet_plain(void)
{
    size_t leaves, offset;
    sink += (uint64_t)plain_sheet(sheet, sheet_len, &leaves, &offset);
}
static void check_sheet_floor(void) { floor_of(sheet, sheet_len, NULL, 0); }
static void sheet_table(void) { sink += quartree_sheet_table(sheet, sheet_len, table, n * n); }
static void sheet_table_plain(void) { sink += (uint64_t)plain_sheet_table(sheet, sheet_len, table); }
static void sheet_table_floor(void) { floor_of(sheet, sheet_len, table, n * n * sizeof *table); }
static void sheet_name(void) { sink += quartree_sheet_name(sheet, sheet_len, n - 1); }
static void sheet_name_plain(void) { sink += plain_sheet_name(sheet, sheet_len, n - 1); }
static void rebuild_sheet(void) { sink += quartree_rebuild_sheet(sheet, sheet_len, bytes, 4 * (n - 2)); }
static void rebuild_sheet_plain(void) { sink += (uint64_t)plain_rebuild_sheet(sheet, sheet_len, bytes); }
static void rebuild_sheet_floor(void) { floor_of(sheet, sheet_len, bytes, 4 * (n - 2)); }
static void export_ours(void)
{
    sink += quartree_export(sheet, sheet_len, listing, 2 * (n - 2), text_out, text_len);
}
static void export_plain(void) { sink += plain_export(sheet, sheet_len, listing, 2 * (n - 2), text_out, text_len); }
static void export_floor(void) { floor_of(sheet, sheet_len, text_out, text_len); }
static void import_ours(void) { sink += quartree_import(sheet, sheet_len, text, text_len, standard, 2 * (n - 2)); }
static void import_plain(void) { sink += plain_import(sheet, sheet_len, text, text_len, standard, 2 * (n - 2)); }
static void import_floor(void)
{
    sink += read_once(sheet, sheet_len);
    floor_of(text, text_len, standard, 4 * (n - 2));
}
static void long_ours(void) { sink += quartree_import(sheet, sheet_len, long_text, long_len, standard, 2 * (n - 2)); }
static void long_plain(void) { sink += plain_import(sheet, sheet_len, long_text, long_len, standard, 2 * (n - 2)); }
static void long_floor(void)
{
    sink += read_once(sheet, sheet_len);
    floor_of(long_text, long_len, standard, 4 * (n - 2));
}
static void join_of(const uint32_t *of)
{
    neighbour_joining(n, of, joined);
    sink += joined[0];
}
static void joining(void) { join_of(cells); }
static void joining_rough(void) { join_of(rough); }

enum { CALLS = 23 };
static const struct {
    const char *name;
    size_t most; /* leaves */
    int times;   /* calls a round */
    void (*ours)(void), (*plain)(void), (*floor)(void);
} calls[CALLS] = {
    {"check", 128, 400, check, check_plain, check_floor},
    {"standardise", 128, 400, standardise, standardise_plain, standardise_floor},
    {"restandardise", 128, 400, restandardise, restandardise_plain, standardise_floor},
    {"splits", 128, 200, splits, splits_plain, splits_floor},
    {"pairing", 128, 400, pairing, pairing_plain, check_floor},
    {"table", 128, 40, table_ours, table_plain, table_floor},
    {"gap", 128, 40, gap, gap_plain, gap_floor},
    {"rebuild", 128, 40, rebuild, rebuild_plain, rebuild_floor},
    {"guided", 128, 40, guided, guided_plain, rebuild_floor},
    {"guess", 128, 8, guess, guess_plain, guess_floor},
    {"graft", 128, 40, graft, graft_plain, change_floor},
    {"prune", 128, 40, prune, prune_plain, change_floor},
    {"look", 128, 40, look, look_plain, look_floor},
    {"look_all", 128, 8, look_all, look_all_plain, look_all_floor},
    {"poll", 32, 20, poll, poll_plain, poll_floor},
    {"poll_ties", 32, 20, poll_ties, poll_ties_plain, poll_floor},
    {"rebuild_poll", 32, 40, rebuild_poll, rebuild_poll_plain, rebuild_floor},
    {"check_sheet", 128, 20, check_sheet, check_sheet_plain, check_sheet_floor},
    {"sheet_table", 128, 20, sheet_table, sheet_table_plain, sheet_table_floor},
    {"sheet_name", 128, 20, sheet_name, sheet_name_plain, check_sheet_floor},
    {"rebuild_sheet", 128, 20, rebuild_sheet, rebuild_sheet_plain, rebuild_sheet_floor},
    {"export", 128, 40, export_ours, export_plain, export_floor},
    {"import", 128, 40, import_ours, import_plain, import_floor},
};

/* ---- Measuring. ---- */

static int by_value(const void *a, const void *b)
{
    double x = *(const double *)a, y = *(const double *)b;
    return (x > y) - (x < y);
}

static double median(double *t)
{
    qsort(t, ROUNDS, sizeof *t, by_value);
    return t[ROUNDS / 2];
}

static double timed(void (*call)(void), int times)
{
    double t0 = now();
    for (int k = 0; k < times; k++)
        call();
    return (now() - t0) / times;
}

/* The median time of `a` over that of `b`, in rounds that take turns. */
static double ratio(void (*a)(void), void (*b)(void), int times)
{
    double ta[ROUNDS], tb[ROUNDS];
    for (int r = 0; r < ROUNDS; r++) {
        ta[r] = timed(a, times);
        tb[r] = timed(b, times);
    }
    return median(ta) / median(tb);
}

/* The direct count over our table: one round of each, since the first takes long. */
static double direct_ratio(void)
{
    double t0 = now();
    direct_table(n, listing, cells);
    double direct = now() - t0, ours = timed(table_ours, 200);
    if (memcmp(cells, table, n * n * sizeof *cells) != 0)
        fail("the direct count differs from the table");
    return direct / ours;
}

static double least(double x, double y) { return x < y ? x : y; }

/* The least of three times of our rebuild. */
static double rebuild_time(void) { return least(timed(rebuild, 1), least(timed(rebuild, 1), timed(rebuild, 1))); }

/* The slowest table with one cell, and its mirror, one too large, over the table itself. */
static double damaged_ratio(void)
{
    static double times[MOST * MOST];
    double worst = 0, accepted = rebuild_time();
    for (int pass = 0; pass < 4; pass++) /* far apart, so that what else the machine does falls on no table each time */
        for (size_t i = 0; i < n; i++)
            for (size_t j = i + 1; j < n; j++) {
                cells[i * n + j]++;
                cells[j * n + i]++;
                double t = rebuild_time(), *kept = &times[i * n + j];
                *kept = pass == 0 ? t : least(*kept, t);
                if (quartree_rebuild(n, QUARTREE_COUNTS, cells, n * n, standard, 2 * (n - 2)) != 6)
                    fail("a damaged table was accepted");
                cells[i * n + j]--;
                cells[j * n + i]--;
            }
    for (size_t i = 0; i < n; i++)
        for (size_t j = i + 1; j < n; j++)
            if (times[i * n + j] > worst)
                worst = times[i * n + j];
    return worst / least(accepted, rebuild_time());
}

/* ---- Long texts, all with the sheet of n leaves. ---- */

/* The tree's text with as many blanks behind each comma as make it so long. */
static void padded(size_t len)
{
    const size_t blanks = (len - text_len) / (n - 1);
    long_len = 0;
    for (size_t k = 0; k < text_len; k++) {
        long_text[long_len++] = text[k];
        if (text[k] == ',') {
            memset(long_text + long_len, k % 2 == 0 ? ' ' : '\n', blanks);
            long_len += blanks;
        }
    }
}

/* The tree's text, with a length behind every name and bracket. */
static void with_lengths(void)
{
    static const char length[] = ":0.01234";
    long_len = 0;
    for (size_t k = 0; k + 1 < text_len; k++) {
        long_text[long_len++] = text[k];
        if (text[k] != '(' && text[k] != ',' && strchr(",);", text[k + 1]) != NULL) {
            memcpy(long_text + long_len, length, sizeof length - 1);
            long_len += sizeof length - 1;
        }
    }
    long_text[long_len++] = ';';
}

/* A megabyte of one byte, or of two in turns. */
static void filled(char byte, char other)
{
    for (long_len = 0; long_len < LONG; long_len += 2) {
        long_text[long_len] = (uint8_t)byte;
        long_text[long_len + 1] = (uint8_t)other;
    }
}
static void of_blanks(void) { filled(' ', '\n'); }
static void of_brackets(void) { filled('(', '('); }
static void of_parts(void)
{
    filled(',', 's');
    long_text[0] = '(';
    memcpy(long_text + LONG - 2, ");", 2);
}
static void of_digits(void)
{
    filled('1', '2');
    memcpy(long_text, "(s:", 3);
    memcpy(long_text + LONG - 2, ");", 2);
}

/* Ours over plain C and over the floor. */
static void print_long(const char *what, uint64_t due, int times)
{
    const size_t room = 2 * (n - 2);
    if (quartree_import(sheet, sheet_len, long_text, long_len, standard, room) != due
        || plain_import(sheet, sheet_len, long_text, long_len, standard, room) != due)
        fail("a long text is answered otherwise");
    printf("| %s | %zu | %.2f | %.2f |", what, long_len, ratio(long_ours, long_plain, times),
           ratio(long_ours, long_floor, times));
    fflush(stdout);
}

static void print_texts(void)
{
    static const struct {
        const char *what;
        void (*fill)(void);
        uint64_t due;
    } megabytes[] = {
        {"a megabyte of blanks: 17 at its end", of_blanks, 17 + ((uint64_t)LONG << 8)},
        {"a megabyte of brackets: 17 at the 128th", of_brackets, 17 + (127 << 8)},
        {"a megabyte of parts of one bracket: 18", of_parts, 18},
        {"a megabyte of one length: 18", of_digits, 18},
    };
    printf("Texts imported with the sheet of 128 leaves: ours over plain C, and over the floor; where blanks make the\n"
           "text longer, ours over ours with the text before, and how many times as long it is:\n\n");
    printf("| text | bytes | import | over the floor | growth |\n|---|---|---|---|---|\n");
    n = MOST;
    make(2);
    with_lengths();
    print_long("with lengths", imported, 20);
    printf(" |\n");
    double before = 0;
    size_t len_before = 0;
    for (size_t len = 1 << 12; len <= LONG; len *= 4) {
        padded(len);
        double taken[ROUNDS];
        for (int r = 0; r < ROUNDS; r++)
            taken[r] = timed(long_ours, 4);
        double now_taken = median(taken);
        print_long("padded by blanks", imported, 4);
        if (before > 0)
            printf(" %.1f of %.1f |\n", now_taken / before, (double)long_len / (double)len_before);
        else
            printf(" |\n");
        before = now_taken;
        len_before = long_len;
    }
    for (size_t k = 0; k < sizeof megabytes / sizeof *megabytes; k++) {
        megabytes[k].fill();
        print_long(megabytes[k].what, megabytes[k].due, 2);
        printf(" |\n");
    }
    printf("\n");
}

/* ---- Leaf sets, which know no leaf count. ---- */

/* Sets by chance, in pairs, and the first of each pair once more. */
static void fill_sets(void)
{
    uint32_t seed = 1;
    for (size_t k = 0; k < sizeof first_sets; k++) {
        seed = seed * 1664525u + 1013904223u;
        first_sets[k] = equal_sets[k] = (uint8_t)(seed >> 16);
        second_sets[k] = (uint8_t)(seed >> 24);
    }
}

/* Every pair once. They are inlined, so that the loop calls the function by its name, as a user's does. */
static inline __attribute__((always_inline)) void make_sets(set_maker *call)
{
    uint64_t sum = 0;
    for (size_t at = 0; at < sizeof made_sets; at += SET)
        sum += call(first_sets + at, SET, second_sets + at, SET, made_sets + at, SET);
    sink += sum;
}
static inline __attribute__((always_inline)) void compare_sets(set_comparer *call, const uint8_t *with)
{
    uint64_t sum = 0;
    for (size_t at = 0; at < sizeof first_sets; at += SET)
        sum += call(first_sets + at, SET, with + at, SET);
    sink += sum;
}

static void join_ours(void) { make_sets(quartree_set_join); }
static void join_words(void) { make_sets(plain_join); }
static void join_single(void) { make_sets(single_join); }
static void join_bytes(void) { make_sets(bytes_join); }
static void make_idle(void) { make_sets(idle_maker); }
static void intersect_ours(void) { make_sets(quartree_set_intersect); }
static void intersect_words(void) { make_sets(plain_intersect); }
static void intersect_single(void) { make_sets(single_intersect); }
static void intersect_bytes(void) { make_sets(bytes_intersect); }
static void equal_ours(void) { compare_sets(quartree_set_equal, equal_sets); }
static void equal_words(void) { compare_sets(plain_equal, equal_sets); }
static void equal_single(void) { compare_sets(single_equal, equal_sets); }
static void equal_bytes(void) { compare_sets(bytes_equal, equal_sets); }
static void equal_idle(void) { compare_sets(idle_comparer, equal_sets); }
static void unequal_ours(void) { compare_sets(quartree_set_equal, second_sets); }
static void unequal_words(void) { compare_sets(plain_equal, second_sets); }
static void unequal_single(void) { compare_sets(single_equal, second_sets); }
static void unequal_bytes(void) { compare_sets(bytes_equal, second_sets); }

/* The same work by ours, by words, by one byte after the other, and by the bytes as gcc -O2 takes them; and the calls
   alone. */
enum { OURS, WORDS, SINGLE, BYTES, WAYS };
static const struct {
    const char *name;
    void (*ways[WAYS])(void), (*idle)(void);
} set_calls[] = {
    {"set_join", {join_ours, join_words, join_single, join_bytes}, make_idle},
    {"set_intersect", {intersect_ours, intersect_words, intersect_single, intersect_bytes}, make_idle},
    {"set_equal of equal sets", {equal_ours, equal_words, equal_single, equal_bytes}, equal_idle},
    {"set_equal of sets by chance", {unequal_ours, unequal_words, unequal_single, unequal_bytes}, equal_idle},
};
enum { SET_CALLS = sizeof set_calls / sizeof *set_calls };

/* All ways make the same sets, and find the same of them equal; one bit more or less makes another set. */
static void sets_alike(void)
{
    static uint8_t due[sizeof made_sets];
    static set_comparer *const compare[WAYS] = {quartree_set_equal, plain_equal, single_equal, bytes_equal};
    for (size_t c = 0; c < 2; c++) {
        set_calls[c].ways[OURS]();
        memcpy(due, made_sets, sizeof due);
        for (int way = WORDS; way < WAYS; way++) {
            memset(made_sets, 0, sizeof made_sets);
            set_calls[c].ways[way]();
            if (memcmp(made_sets, due, sizeof due) != 0)
                fail("plain C makes other sets");
        }
    }
    for (size_t k = 0; k < PAIRS; k++)
        for (int way = OURS; way < WAYS; way++) {
            uint8_t other[SET];
            memcpy(other, first_sets + SET * k, SET);
            other[k / 8 % SET] ^= (uint8_t)(1u << k % 8);
            if (compare[way](first_sets + SET * k, SET, equal_sets + SET * k, SET) != 256
                || compare[way](first_sets + SET * k, SET, other, SET) != 0)
                fail("sets are compared otherwise");
        }
}

static void print_sets(void)
{
    fill_sets();
    sets_alike();
    printf("Leaf sets, %d pairs: ours over plain C by words of 64 bits; over ours a call that does nothing, and\n"
           "plain C that goes byte by byte, kept to one byte after the other, and as gcc -O2 makes it:\n\n", PAIRS);
    printf("| call | ours / words | idle call / ours | one byte after the other / ours | bytes by gcc -O2 / ours |\n");
    printf("|---|---|---|---|---|\n");
    for (size_t c = 0; c < SET_CALLS; c++) {
        void (*const *ways)(void) = set_calls[c].ways;
        printf("| %s | %.2f | %.2f | %.2f | %.2f |\n", set_calls[c].name, ratio(ways[OURS], ways[WORDS], 40),
               ratio(set_calls[c].idle, ways[OURS], 40), ratio(ways[SINGLE], ways[OURS], 40),
               ratio(ways[BYTES], ways[OURS], 40));
        fflush(stdout);
    }
    printf("\n");
}

/* Each call's median time at every leaf count over that at the smallest, of random trees. */
static void growth(double grown[CALLS][COUNTS])
{
    static double t[CALLS][COUNTS][ROUNDS];
    for (int r = 0; r < ROUNDS; r++)
        for (int c = 0; c < COUNTS; c++) {
            n = counts[c];
            make(2);
            for (int k = 0; k < CALLS; k++)
                if (n <= calls[k].most)
                    t[k][c][r] = timed(calls[k].ours, calls[k].times);
        }
    for (int k = 0; k < CALLS; k++)
        for (int c = 0; c < COUNTS; c++)
            grown[k][c] = counts[c] <= calls[k].most ? median(t[k][c]) : 0;
    for (int k = 0; k < CALLS; k++)
        for (int c = COUNTS - 1; c >= 0; c--)
            grown[k][c] /= grown[k][0];
}

/* ---- What is printed and drawn. ---- */

static void print_against(const char *title, int against_floor)
{
    printf("%s\n\n| n |", title);
    for (int k = 0; k < CALLS; k++)
        printf(" %s |", calls[k].name);
    printf("\n|---|");
    for (int k = 0; k < CALLS; k++)
        printf("---|");
    for (int c = 0; c < COUNTS; c++) {
        n = counts[c];
        make(2);
        printf("\n| %zu |", n);
        for (int k = 0; k < CALLS; k++)
            if (n > calls[k].most) {
                printf(" |");
            } else {
                void (*other)(void) = against_floor ? calls[k].floor : calls[k].plain;
                printf(" %.2f |", ratio(calls[k].ours, other, calls[k].times));
            }
        fflush(stdout);
    }
    printf("\n\n");
}

static void print_rebuilds(void)
{
    printf("The rebuilds: ours over plain C; neighbour joining over ours; the guided rebuild over ours;\n");
    printf("the slowest table with one cell changed over the table itself:\n\n");
    printf("| tree | n | rebuild | neighbour joining / rebuild | guided / rebuild | damaged / accepted |\n");
    printf("|---|---|---|---|---|---|\n");
    for (int shape = 0; shape < SHAPES; shape++)
        for (int c = 0; c < COUNTS; c++) {
            n = counts[c];
            make(shape);
            printf("| %s | %zu | %.2f | %.1f | %.2f | %.2f |\n", shapes[shape], n, ratio(rebuild, rebuild_plain, 40),
                   ratio(joining, rebuild, 4), ratio(guided, rebuild, 40), damaged_ratio());
            fflush(stdout);
        }
    printf("\nCounting quartets directly over our table:");
    for (int c = 0; c < COUNTS; c++) {
        n = counts[c];
        make(2);
        printf(" %.0f at %zu%s", direct_ratio(), n, c < COUNTS - 1 ? "," : " leaves.\n\n");
        fflush(stdout);
    }
}

static void print_guesses(void)
{
    printf("The guess of a table with every cell off by up to %d: ours over plain C, over our rebuild of the exact\n"
           "table, and over neighbour joining of the rough one; our guess of the exact table over our rebuild of it:\n"
           "\n", OFF);
    printf("| tree | n | guess | guess / rebuild | guess / neighbour joining | guess / rebuild, exact table |\n");
    printf("|---|---|---|---|---|---|\n");
    for (int shape = 0; shape < SHAPES; shape++)
        for (int c = 0; c < COUNTS; c++) {
            n = counts[c];
            make(shape);
            printf("| %s | %zu | %.2f | %.1f | %.2f | %.2f |\n", shapes[shape], n, ratio(guess, guess_plain, 8),
                   ratio(guess, rebuild, 8), ratio(guess, joining_rough, 4), ratio(guess_exact, rebuild, 40));
            fflush(stdout);
        }
    printf("\n");
}

static void print_looks(void)
{
    printf("The looks before a graft: ours over plain C, at one edge and at all; and as many looks as there are edges\n"
           "over one at all of them, ours and plain C's:\n\n");
    printf("| tree | n | look | look_all | looks / look_all | looks / look_all, plain C |\n");
    printf("|---|---|---|---|---|---|\n");
    for (int shape = 0; shape < SHAPES; shape++)
        for (int c = 0; c < COUNTS; c++) {
            n = counts[c];
            make(shape);
            const double edges = (double)QUARTREE_EDGES(n - 1);
            printf("| %s | %zu | %.2f | %.2f | %.1f | %.1f |\n", shapes[shape], n, ratio(look, look_plain, 40),
                   ratio(look_all, look_all_plain, 8), edges * ratio(look, look_all, 8),
                   edges * ratio(look_plain, look_all_plain, 8));
            fflush(stdout);
        }
    printf("\n");
}

static void draw(const char *path, double grown[CALLS][COUNTS])
{
    static const char *const colours[] = {"#1b6ca8", "#c0392b", "#2e8b57", "#8e44ad", "#7f8c1f", "#d81b60",
                                          "#00897b", "#6d4c41", "#5e35b1", "#d68910", "#34495e"};
    /* standardise, table, both rebuilds, guess, graft, prune, both looks, and of a sheet */
    static const int lines[] = {1, 5, 7, 8, 9, 10, 11, 12, 13, 18, 20};
    FILE *f = fopen(path, "w");
    if (f == NULL)
        fail("the plot cannot be written");
    fprintf(f, "<svg xmlns=\"http://www.w3.org/2000/svg\" width=\"560\" height=\"400\" font-family=\"sans-serif\" "
               "font-size=\"12\">\n<rect width=\"560\" height=\"400\" fill=\"white\"/>\n");
    for (int c = 0; c < COUNTS; c++)
        fprintf(f, "<line x1=\"%d\" y1=\"30\" x2=\"%d\" y2=\"350\" stroke=\"#ddd\"/><text x=\"%d\" y=\"368\" "
                   "text-anchor=\"middle\">%zu leaves</text>\n", 60 + 120 * c, 60 + 120 * c, 60 + 120 * c, counts[c]);
    for (int e = 0; e <= 8; e += 2)
        fprintf(f, "<line x1=\"60\" y1=\"%d\" x2=\"420\" y2=\"%d\" stroke=\"#ddd\"/><text x=\"52\" y=\"%d\" "
                   "text-anchor=\"end\">%d</text>\n", 350 - 40 * e, 350 - 40 * e, 354 - 40 * e, 1 << e);
    fprintf(f, "<text x=\"60\" y=\"20\">time over that at 16 leaves; dashed: n squared</text>\n"
               "<line x1=\"60\" y1=\"350\" x2=\"420\" y2=\"110\" stroke=\"#888\" stroke-dasharray=\"5 4\"/>\n");
    for (size_t d = 0; d < sizeof lines / sizeof *lines; d++) {
        fprintf(f, "<polyline fill=\"none\" stroke=\"%s\" stroke-width=\"2\" points=\"", colours[d]);
        for (int c = 0; c < COUNTS; c++)
            fprintf(f, "%d,%.1f ", 60 + 120 * c, 350 - 40 * log2(grown[lines[d]][c]));
        fprintf(f, "\"/>\n<rect x=\"436\" y=\"%zu\" width=\"12\" height=\"3\" fill=\"%s\"/><text x=\"454\" y=\"%zu\">%s"
                   "</text>\n", 56 + 20 * d, colours[d], 62 + 20 * d, calls[lines[d]].name);
    }
    fprintf(f, "</svg>\n");
    fclose(f);
}

int main(int argc, char **argv)
{
    static double grown[CALLS][COUNTS];
    print_against("Ours over plain C, on a random tree:", 0);
    print_against("Ours over the floor, its buffers read and written once:", 1);
    print_rebuilds();
    print_guesses();
    print_looks();
    print_sets();
    print_texts();
    growth(grown);
    printf("Ours at 128 leaves over ours at 32, where n * n gives 16 and n * n * n gives 64:");
    for (int k = 0; k < CALLS; k++)
        if (calls[k].most == 128)
            printf(" %s %.1f%s", calls[k].name, grown[k][3] / grown[k][1], k < CALLS - 1 ? "," : ".\n");
    if (argc > 1)
        draw(argv[1], grown);
    return 0;
}
