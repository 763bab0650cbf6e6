/* Measures the stack that each call takes at the most leaves, and fails where one takes more than the header promises.

   A call runs on a thread whose stack was filled with a pattern, and the bytes that have lost it are counted, less
   those of a thread that calls nothing. Every call is made with trees of several shapes, and with every fault that it
   can be refused for; what is printed is the most that it took. A poll and its table have 32 leaves, and a tree that is
   grafted on or looked at has one leaf less than the most, or than the poll. */
#define _POSIX_C_SOURCE 200809L
#include "../include/quartree.h"
#include <pthread.h>
#include <stdio.h>
#include <stdlib.h>
#include <string.h>

enum { N = QUARTREE_MOST_LEAVES, FEWER = N - 1, POLL = QUARTREE_POLL_MOST_LEAVES, POLL_FEWER = POLL - 1 };
enum { STACK = 1 << 20, PATTERN = 0xA5 };

static uint16_t listing[QUARTREE_LISTING_NUMBERS(N)], standard[QUARTREE_LISTING_NUMBERS(N)];
static uint16_t merges[QUARTREE_MERGE_NUMBERS(N)], question[4];
static uint32_t own_table[N * N], table[N * N], table_out[N * N], sums[POLL * POLL];
static uint16_t fewer_listing[QUARTREE_LISTING_NUMBERS(FEWER)];
static uint32_t fewer_table[FEWER * FEWER];
static uint16_t poll_fewer_listing[QUARTREE_LISTING_NUMBERS(POLL_FEWER)];
static uint32_t poll_fewer_table[POLL_FEWER * POLL_FEWER];
static uint64_t totals[QUARTREE_EDGES(FEWER)];
static int64_t gaps[N * N];
static uint8_t sets[QUARTREE_SPLIT_BYTES(N)], bytes[QUARTREE_LISTING_BYTES(N)], sheet[QUARTREE_SHEET_MOST_BYTES + 1];
static uint8_t text[QUARTREE_TEXT_BYTES(N)], text_out[QUARTREE_TEXT_BYTES(N)];
static uint8_t first_set[QUARTREE_SET_BYTES], second_set[QUARTREE_SET_BYTES], set_out[QUARTREE_SET_BYTES];
static struct quartree_record records[QUARTREE_POLL_RECORDS(POLL)];
static uint16_t comb[QUARTREE_LISTING_NUMBERS(POLL)], comb_merges[QUARTREE_MERGE_NUMBERS(POLL)];
static size_t leaves, poll_leaves, fewer_leaves, numbers, cells, fewer_numbers, fewer_cells, room, sheet_len, names_len;
static size_t text_len, set_len, leaf, edge;
static uint64_t reply;

/* ---- The calls --------------------------------------------------------------------------------------------------- */

/* The room of an output: what is due, unless that is cut. */
static size_t of(size_t due) { return due < room ? due : room; }

static void nothing(void) { reply = 0; }
static void version(void) { reply = quartree_version() - QUARTREE_VERSION_NUMBER; }
static void check(void) { reply = quartree_check(leaves, listing, numbers); }
static void standardise(void)
{
    reply = quartree_standardise(leaves, listing, numbers, standard, of(QUARTREE_LISTING_NUMBERS(N)));
}
static void restandardise(void)
{
    reply = quartree_restandardise(leaves, QUARTREE_IMPORTED, listing, numbers, standard,
                                   of(QUARTREE_LISTING_NUMBERS(N)));
}
static void splits(void) { reply = quartree_splits(leaves, listing, numbers, sets, of(sizeof sets)); }
static void set_join(void)
{
    reply = quartree_set_join(first_set, set_len, second_set, set_len, set_out, of(sizeof set_out));
}
static void set_intersect(void)
{
    reply = quartree_set_intersect(first_set, set_len, second_set, set_len, set_out, of(sizeof set_out));
}
static void set_equal(void) { reply = quartree_set_equal(first_set, set_len, second_set, set_len); }
static void pairing(void) { reply = quartree_pairing(leaves, listing, numbers, question, 4); }
static void write_table(void) { reply = quartree_table(leaves, listing, numbers, table_out, of(N * N)); }
static void gap(void)
{
    reply = quartree_gap(leaves, QUARTREE_COUNTS, table, cells, listing, numbers, gaps, of(N * N));
}
static void rebuild(void)
{
    reply = quartree_rebuild(leaves, QUARTREE_COUNTS, table, cells, standard, of(QUARTREE_LISTING_NUMBERS(N)));
}
static void guess(void)
{
    reply = quartree_guess(leaves, QUARTREE_COUNTS, table, cells, standard, of(QUARTREE_LISTING_NUMBERS(N)));
}
static void guided(void)
{
    reply = quartree_rebuild_guided(leaves, QUARTREE_COUNTS, table, cells, merges, QUARTREE_MERGE_NUMBERS(N), standard,
                                    of(QUARTREE_LISTING_NUMBERS(N)));
}
static void graft(void)
{
    reply = quartree_graft(fewer_leaves, fewer_listing, fewer_numbers, fewer_table, fewer_cells, edge, standard,
                           of(QUARTREE_LISTING_NUMBERS(N)), table_out, of(N * N));
}
static void look(void)
{
    reply = quartree_look(fewer_leaves, QUARTREE_COUNTS, fewer_listing, fewer_numbers, fewer_table, fewer_cells, edge,
                          table, cells);
}
static void look_all(void)
{
    reply = quartree_look_all(fewer_leaves, QUARTREE_COUNTS, fewer_listing, fewer_numbers, fewer_table, fewer_cells,
                              table, cells, totals, of(QUARTREE_EDGES(FEWER)));
}
static void prune_of(size_t pruned)
{
    reply = quartree_prune(leaves, listing, numbers, table, cells, pruned, standard,
                           of(QUARTREE_LISTING_NUMBERS(FEWER)), table_out, of(FEWER * FEWER));
}
static void prune(void) { prune_of(leaf); }
static void prune_first(void) { prune_of(leaf < N ? 0 : leaf); }
static void poll(void)
{
    reply = quartree_poll(poll_leaves, records, QUARTREE_POLL_RECORDS(POLL), sums, of(POLL * POLL));
}
/* The table that the poll has left. */
static void gap_of_poll(void)
{
    reply = quartree_gap(poll_leaves, QUARTREE_POLL, sums, POLL * POLL, comb, QUARTREE_LISTING_NUMBERS(POLL), gaps,
                         of(POLL * POLL));
}
static void rebuild_of_poll(void)
{
    reply = quartree_rebuild(poll_leaves, QUARTREE_POLL, sums, POLL * POLL, standard,
                             of(QUARTREE_LISTING_NUMBERS(POLL)));
}
static void guess_of_poll(void)
{
    reply = quartree_guess(poll_leaves, QUARTREE_POLL, sums, POLL * POLL, standard, of(QUARTREE_LISTING_NUMBERS(POLL)));
}
static void guided_of_poll(void)
{
    reply = quartree_rebuild_guided(poll_leaves, QUARTREE_POLL, sums, POLL * POLL, comb_merges,
                                    QUARTREE_MERGE_NUMBERS(POLL), standard, of(QUARTREE_LISTING_NUMBERS(POLL)));
}
static void look_at_poll(void)
{
    reply = quartree_look(poll_leaves - 1, QUARTREE_POLL, poll_fewer_listing, QUARTREE_LISTING_NUMBERS(POLL_FEWER),
                          poll_fewer_table, POLL_FEWER * POLL_FEWER,
                          edge <= QUARTREE_EDGES(FEWER) ? QUARTREE_EDGES(POLL_FEWER) : edge, sums, POLL * POLL);
}
static void look_all_at_poll(void)
{
    reply = quartree_look_all(poll_leaves - 1, QUARTREE_POLL, poll_fewer_listing, QUARTREE_LISTING_NUMBERS(POLL_FEWER),
                              poll_fewer_table, POLL_FEWER * POLL_FEWER, sums, POLL * POLL, totals,
                              of(QUARTREE_EDGES(POLL_FEWER)));
}
static void check_sheet(void) { reply = quartree_check_sheet(sheet, sheet_len); }
static void sheet_table(void) { reply = quartree_sheet_table(sheet, sheet_len, table_out, of(N * N)); }
static void sheet_name(void) { reply = quartree_sheet_name(sheet, sheet_len, leaf); }
static void rebuild_sheet(void) { reply = quartree_rebuild_sheet(sheet, sheet_len, bytes, of(sizeof bytes)); }
static void write_text(void)
{
    reply = quartree_export(sheet, sheet_len, listing, numbers, text_out, of(sizeof text_out));
}
static void read_text(void)
{
    reply = quartree_import(sheet, sheet_len, text, text_len, standard, of(QUARTREE_LISTING_NUMBERS(N)));
}

static const struct {
    const char *name;
    void (*call)(void);
    int guesses; /* it has a limit of its own */
} calls[] = {
    {"version", version, 0}, {"check", check, 0}, {"standardise", standardise, 0}, {"restandardise", restandardise, 0},
    {"splits", splits, 0}, {"pairing", pairing, 0}, {"set_join", set_join, 0}, {"set_intersect", set_intersect, 0},
    {"set_equal", set_equal, 0}, {"table", write_table, 0}, {"gap", gap, 0}, {"rebuild", rebuild, 0},
    {"rebuild_guided", guided, 0}, {"guess", guess, 1}, {"graft", graft, 0}, {"look", look, 0},
    {"look_all", look_all, 0}, {"prune", prune, 0}, {"prune of leaf 0", prune_first, 0}, {"poll", poll, 0},
    {"gap of a poll", gap_of_poll, 0}, {"rebuild of a poll", rebuild_of_poll, 0},
    {"rebuild_guided of a poll", guided_of_poll, 0}, {"guess of a poll", guess_of_poll, 1},
    {"look at a poll", look_at_poll, 0}, {"look_all at a poll", look_all_at_poll, 0}, {"check_sheet", check_sheet, 0},
    {"sheet_table", sheet_table, 0}, {"sheet_name", sheet_name, 0}, {"rebuild_sheet", rebuild_sheet, 0},
    {"export", write_text, 0}, {"import", read_text, 0},
};
enum { CALLS = sizeof calls / sizeof *calls };

/* ---- Inputs with nothing wrong ----------------------------------------------------------------------------------- */

static uint64_t state = 1;

static size_t below(size_t bound)
{
    state = state * 6364136223846793005u + 1442695040888963407u;
    return (size_t)(state >> 33) % bound;
}

/* Which two of so many subtrees merge next, the newest being the last of them: two combs, a balanced tree, and trees by
   chance; of these, every other one is most like a comb. */
enum { COMB_UP, COMB_DOWN, BALANCED, CHANCE, SHAPES = CHANCE + 6 };

static void choose(int shape, size_t count, size_t *first, size_t *second)
{
    *first = shape == BALANCED ? 0 : count - 1;
    *second = shape == BALANCED ? 1 : shape == COMB_DOWN ? count - 2 : 0;
    if (shape >= CHANCE) {
        if (shape % 2 == 0 || below(4) == 0)
            *first = below(count);
        *second = (*first + 1 + below(count - 1)) % count;
    }
}

/* A tree of this shape on n leaves, its merges and its table. Where turned is 1 the children of every row are
   exchanged. */
static void fill_tree(int shape, size_t turned, size_t n, uint16_t *rows, uint16_t *joined, uint32_t *own)
{
    uint16_t subtree[2 * N], held[2 * N];
    size_t count = n - 1;
    for (size_t k = 0; k < count; k++)
        subtree[k] = held[k] = (uint16_t)(k + 1);
    for (size_t row = 0; row < n - 2; row++) {
        size_t first, second;
        choose(shape, count, &first, &second);
        rows[2 * row + turned] = subtree[first];
        rows[2 * row + 1 - turned] = subtree[second];
        joined[2 * row] = held[first];
        joined[2 * row + 1] = held[second];
        size_t low = first < second ? first : second, high = first < second ? second : first;
        uint16_t left = held[first];
        memmove(subtree + high, subtree + high + 1, (count - high - 1) * sizeof *subtree);
        memmove(held + high, held + high + 1, (count - high - 1) * sizeof *held);
        memmove(subtree + low, subtree + low + 1, (count - low - 2) * sizeof *subtree);
        memmove(held + low, held + low + 1, (count - low - 2) * sizeof *held);
        subtree[count - 2] = (uint16_t)(n + row);
        held[count - 2] = left;
        count--;
    }
    joined[2 * (n - 2)] = held[0];
    joined[2 * (n - 2) + 1] = 0;
    reply = quartree_table(n, rows, QUARTREE_LISTING_NUMBERS(n), own, n * n);
}

/* The longest sheet, with this table. */
static void fill_sheet(void)
{
    size_t at = 0;
    for (size_t i = 0; i < N; i++)
        at += (size_t)snprintf((char *)sheet + at, sizeof sheet - at, "%c%040zu", 40, i);
    names_len = at;
    for (size_t i = 0; i < N; i++)
        for (size_t j = i + 1; j < N; j++) {
            sheet[at++] = (uint8_t)table[i * N + j];
            sheet[at++] = (uint8_t)(table[i * N + j] >> 8);
        }
    const uint8_t trailer[8] = {N, 0, (uint8_t)names_len, (uint8_t)(names_len >> 8), 0, 0, 0x51, 0x54};
    memcpy(sheet + at, trailer, sizeof trailer);
    sheet_len = at + sizeof trailer;
}

/* The tree's text. Where turned is 1, the names of leaf 0 and the last leaf change places in it, so that leaf 0 stands
   within, and the top is not at its node. */
static void fill_text(size_t turned)
{
    uint8_t *first = text + 1, *last = NULL, name[40];
    text_len = QUARTREE_FIGURE(quartree_export(sheet, sheet_len, listing, QUARTREE_LISTING_NUMBERS(N), text,
                                               sizeof text));
    for (size_t at = 0; turned == 1 && at + sizeof name <= text_len; at++)
        if (memcmp(text + at, sheet + names_len - sizeof name, sizeof name) == 0)
            last = text + at;
    if (last != NULL) {
        memcpy(name, first, sizeof name);
        memcpy(first, last, sizeof name);
        memcpy(last, name, sizeof name);
    }
}

/* The poll of a comb's own pairings, and its listing and merges. */
static void fill_poll(void)
{
    size_t k = 0;
    for (uint8_t a = 0; a < POLL; a++)
        for (uint8_t b = (uint8_t)(a + 1); b < POLL; b++)
            for (uint8_t c = (uint8_t)(b + 1); c < POLL; c++)
                for (uint8_t d = (uint8_t)(c + 1); d < POLL; d++, k++)
                    records[k] = (struct quartree_record){a, b, c, d, 0};
    for (size_t row = 0; row < POLL - 2; row++) {
        comb[2 * row] = (uint16_t)(POLL - 2 - row);
        comb[2 * row + 1] = (uint16_t)(row == 0 ? POLL - 1 : POLL + row - 1);
    }
    for (size_t step = 0; step < POLL - 1; step++) {
        comb_merges[2 * step] = (uint16_t)(POLL - 1 - step);
        comb_merges[2 * step + 1] = (uint16_t)(POLL - 2 - step);
    }
}

static void fill(int shape, size_t turned)
{
    fill_tree(shape, turned, POLL_FEWER, poll_fewer_listing, merges, poll_fewer_table);
    fill_tree(shape, turned, FEWER, fewer_listing, merges, fewer_table);
    fill_tree(shape, turned, N, listing, merges, own_table);
    memcpy(table, own_table, sizeof table);
    memset(first_set, 0x55, sizeof first_set);
    memset(second_set, turned == 1 ? 0x55 : 0x33, sizeof second_set);
    set_len = QUARTREE_SET_BYTES;
    for (uint16_t i = 0; i < 4; i++)
        question[i] = (uint16_t)(i * (N - 1) / 3);
    fill_sheet();
    fill_text(turned);
    fill_poll();
    leaves = N;
    poll_leaves = POLL;
    fewer_leaves = FEWER;
    numbers = QUARTREE_LISTING_NUMBERS(N);
    cells = N * N;
    fewer_numbers = QUARTREE_LISTING_NUMBERS(FEWER);
    fewer_cells = FEWER * FEWER;
    room = SIZE_MAX;
    leaf = turned == 1 ? 1 + below(N - 1) : N - 1;
    edge = turned == 1 ? 1 + below(QUARTREE_EDGES(FEWER)) : QUARTREE_EDGES(FEWER);
}

/* ---- The faults, where they are found last ----------------------------------------------------------------------- */

enum { LAST_RECORD = QUARTREE_POLL_RECORDS(POLL) - 1, LAST_STEP = QUARTREE_MERGES(N) - 1 };

static void none(void) { }
static void too_many_leaves(void)
{
    leaves = N + 1;
    poll_leaves = POLL + 1;
    fewer_leaves = FEWER + 1;
    sheet[sheet_len - 8] = N + 1;
}
static void input_short(void)
{
    numbers--;
    cells--;
    fewer_numbers--;
    fewer_cells--;
    set_len--;
}
static void room_short(void) { room = 1; }
/* Where a tree of fewer leaves is looked at, these are faults of the new table alone. */
static void new_diagonal_filled(void) { table[N * N - 1] = 1; }
static void new_halves_unequal(void) { table[N * N - N - 1]++; }
static void diagonal_filled(void)
{
    new_diagonal_filled();
    fewer_table[FEWER * FEWER - 1] = 1;
}
static void halves_unequal(void)
{
    new_halves_unequal();
    fewer_table[FEWER * FEWER - FEWER - 1]++;
}
static void table_of_zeros(void)
{
    memset(table, 0, sizeof table);
    memset(fewer_table, 0, sizeof fewer_table);
    fill_sheet();
}
static void one_cell_wrong(void)
{
    size_t i = below(N - 1), j = i + 1 + below(N - 1 - i);
    table[N * i + j]++;
    table[N * j + i]++;
    fewer_table[FEWER * (FEWER - 2) + FEWER - 1]++;
    fewer_table[FEWER * (FEWER - 1) + FEWER - 2]++;
    fill_sheet();
}
static void any_table(void)
{
    for (size_t i = 0; i < N; i++)
        for (size_t j = i + 1; j < N; j++)
            table[N * i + j] = table[N * j + i] = (uint32_t)below(QUARTREE_TABLE_CELLS(N));
    fill_sheet();
}
static void child_not_allowed(void) { listing[numbers - 1] = fewer_listing[fewer_numbers - 1] = 0; }
static void child_again(void)
{
    listing[numbers - 1] = listing[0];
    fewer_listing[fewer_numbers - 1] = fewer_listing[0];
}
static void leaf_not_there(void)
{
    question[3] = N;
    leaf = N;
    edge = QUARTREE_EDGES(FEWER) + 1;
}
static void record_not_due(void) { records[LAST_RECORD].a++; }
static void code_above_6(void) { records[LAST_RECORD].code = 7; }
static void ties(void)
{
    for (size_t k = 0; k <= LAST_RECORD; k++)
        records[k].code = (uint8_t)(k % 7);
}
static void stop_at(size_t step) { merges[2 * step + 1] = merges[2 * step]; }
static void first_proposal_stops(void) { stop_at(0); }
static void middle_proposal_stops(void) { stop_at(LAST_STEP / 2); }
static void last_proposal_stops(void) { stop_at(LAST_STEP); }
static void other_ending(void) { sheet[sheet_len - 1]++; }
static void offset_too_great(void) { sheet[sheet_len - 6]++; }
static void bad_byte_in_last_name(void) { sheet[names_len - 1] = '_'; }
static void last_name_again(void) { memcpy(sheet + names_len - 41, sheet, 41); }
static void text_stops(void) { text_len--; }
static void brackets_alone(void) { memset(text, '(', text_len); }
static void node_of_one_part(void)
{
    memset(text, '(', N - 1);
    text[N - 1] = '0';
    memset(text + N, ')', N - 1);
    text[2 * N - 1] = ';';
    text_len = 2 * N;
}
static void name_unknown(void) { text[1] = 'x'; }

static void (*const faults[])(void) = {
    none, too_many_leaves, input_short, room_short, diagonal_filled, halves_unequal, new_diagonal_filled,
    new_halves_unequal, table_of_zeros, one_cell_wrong, any_table, child_not_allowed, child_again, leaf_not_there,
    record_not_due, code_above_6, ties, first_proposal_stops, middle_proposal_stops, last_proposal_stops, other_ending,
    offset_too_great, bad_byte_in_last_name, last_name_again, text_stops, brackets_alone, node_of_one_part,
    name_unknown,
};
enum { FAULTS = sizeof faults / sizeof *faults };

/* ---- The measurement --------------------------------------------------------------------------------------------- */

static void *run(void *call)
{
    (*(void (**)(void))call)();
    return NULL;
}

/* The bytes of its stack that a thread with this call has written. */
static size_t depth(void (*call)(void))
{
    static _Alignas(4096) unsigned char stack[STACK];
    pthread_attr_t attributes;
    pthread_t thread;
    size_t untouched = 0;
    memset(stack, PATTERN, STACK);
    if (pthread_attr_init(&attributes) != 0 || pthread_attr_setstack(&attributes, stack, STACK) != 0
        || pthread_create(&thread, &attributes, run, &call) != 0 || pthread_join(thread, NULL) != 0)
        exit(1);
    pthread_attr_destroy(&attributes);
    while (untouched < STACK && stack[untouched] == PATTERN)
        untouched++;
    return STACK - untouched;
}

int main(void)
{
    size_t before = depth(nothing), taken[CALLS] = {0}, most[2] = {0, 0};
    unsigned answered = 0;
    for (size_t fault = 0; fault < FAULTS; fault++)
        for (int shape = 0; shape < 2 * SHAPES; shape++) {
            fill(shape / 2, shape % 2);
            faults[fault]();
            for (size_t c = 0; c < CALLS; c++) {
                size_t bytes_taken = depth(calls[c].call) - before;
                if (fault == 0 && QUARTREE_NUMBER(reply) != QUARTREE_ACCEPTED) {
                    printf("%s was refused: %u\n", calls[c].name, QUARTREE_NUMBER(reply));
                    return 1;
                }
                taken[c] = bytes_taken > taken[c] ? bytes_taken : taken[c];
                answered |= 1u << QUARTREE_NUMBER(reply);
            }
        }
    for (size_t c = 0; c < CALLS; c++) {
        printf("| %s | %zu |\n", calls[c].name, taken[c]);
        size_t *limited = &most[calls[c].guesses];
        *limited = taken[c] > *limited ? taken[c] : *limited;
    }
    if (answered != (1u << 21) - 1) {
        printf("not every refusal was met: %x\n", answered);
        return 1;
    }
    printf("a guess takes %zu at most; QUARTREE_GUESS_STACK_BYTES is %d\n", most[1], QUARTREE_GUESS_STACK_BYTES);
    printf("any other call takes %zu at most; QUARTREE_STACK_BYTES is %d\n", most[0], QUARTREE_STACK_BYTES);
    return most[0] <= QUARTREE_STACK_BYTES && most[1] <= QUARTREE_GUESS_STACK_BYTES ? 0 : 1;
}
