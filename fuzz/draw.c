/* draw.c: listings, lists of merges, tables, questions, polls, sheets, texts and leaf sets, drawn from the fuzzer's
   bytes. */

#include "draw.h"
#include <string.h>

#define LENGTH(array) (sizeof(array) / sizeof *(array))

/* ---- Bytes ------------------------------------------------------------------------------------------------------- */

struct source source_of(const uint8_t *data, size_t size)
{
    struct source source = {data, size, 0};
    uint64_t seed = take(&source);
    seed += (uint64_t)take(&source) << 8;
    source.stream = seed * 0x9E3779B97F4A7C15;
    return source;
}

uint8_t take(struct source *source)
{
    if (source->left > 0) {
        source->left--;
        return *source->next++;
    }
    source->stream ^= source->stream << 13;
    source->stream ^= source->stream >> 7;
    source->stream ^= source->stream << 17;
    return (uint8_t)(source->stream >> 32);
}

/* So many bytes as one number, low byte first. */
static uint32_t take_number(struct source *source, unsigned bytes)
{
    uint32_t number = 0;
    for (unsigned place = 0; place < bytes; place++)
        number |= (uint32_t)take(source) << (8 * place);
    return number;
}

size_t below(struct source *source, size_t bound)
{
    return take_number(source, bound <= 256 ? 1 : 2) % bound;
}

/* One bit of 32. */
static uint32_t take_bit(struct source *source)
{
    return (uint32_t)1 << below(source, 32);
}

/* ---- Leaf counts, lengths and rooms ------------------------------------------------------------------------------ */

/* Can an input of fitting length be drawn for n leaves? */
static bool fitted(size_t n)
{
    return n >= QUARTREE_LEAST_LEAVES && n <= FITTED_LEAVES;
}

size_t draw_leaf_count(struct source *source)
{
    static const size_t refused[] = {0,   1,   2,     129,   130,     131, 255, 256,
                                     259, 512, 32773, 65535, 65540,   (size_t)1 << 32, ((size_t)1 << 32) + 5, SIZE_MAX};
    uint8_t kind = take(source);
    if (kind < 160)
        return 3 + kind % 6;
    if (kind < 216)
        return 9 + kind % 12;
    if (kind < 240)
        return 21 + below(source, 44);
    if (kind < 243)
        return 65 + below(source, 63);
    if (kind < 246)
        return 128;
    return refused[below(source, LENGTH(refused))];
}

size_t draw_poll_leaf_count(struct source *source)
{
    static const size_t refused[] = {0, 1, 2, 3, 33, 34, 36, 128, 260, 65540, ((size_t)1 << 32) + 4, SIZE_MAX};
    uint8_t kind = take(source);
    if (kind < 180)
        return 4 + kind % 5;
    if (kind < 230)
        return 9 + kind % 8;
    if (kind < 238)
        return 17 + below(source, 15);
    if (kind < 242)
        return 32;
    return refused[below(source, LENGTH(refused))];
}

size_t draw_look_leaf_count(struct source *source, uint32_t word, bool all)
{
    size_t n = word == QUARTREE_COUNTS ? draw_leaf_count(source) : draw_poll_leaf_count(source) - 1;
    return all && n > 32 && n < QUARTREE_MOST_LEAVES ? 3 + n % 29 : n;
}

uint32_t draw_word(struct source *source)
{
    static const uint32_t polls[] = {QUARTREE_POLL, 2, 6, 256, 65536, (uint32_t)1 << 31, UINT32_MAX};
    uint8_t kind = take(source);
    return kind < 160 ? QUARTREE_COUNTS : polls[kind % LENGTH(polls)];
}

uint32_t draw_origin(struct source *source)
{
    uint8_t kind = take(source);
    uint32_t small = kind % 8;
    return kind < 160 ? small : kind < 208 ? small ^ take_bit(source) : take_number(source, 4);
}

/* A length that does not fit in one case of six. */
static size_t draw_length(struct source *source, size_t fitting)
{
    uint8_t kind = take(source);
    if (kind < 213)
        return fitting;
    switch (kind % 6) {
    case 0:
        return fitting > 0 ? fitting - 1 : 0;
    case 1:
        return fitting + 1;
    case 2:
        return fitting + below(source, SLACK + 1);
    case 3:
        return fitting / 2;
    case 4:
        return 0;
    default:
        return below(source, fitting + 1);
    }
}

size_t draw_room(struct source *source, size_t result)
{
    uint8_t kind = take(source);
    if (kind < 150)
        return result;
    if (kind < 218)
        return result + 1 + kind % SLACK;
    if (kind < 236)
        return result > 0 ? result - 1 : 0;
    return below(source, result + 1);
}

/* How often an input is damaged. */
static unsigned draw_damages(struct source *source)
{
    uint8_t kind = take(source);
    return kind < 160 ? 0 : kind < 240 ? 1 : 2 + kind % 3;
}

/* Numbers of any value, from first up to last, and below a bound if one is given. */
static void any_numbers(struct source *source, uint16_t *numbers, size_t first, size_t last, size_t bound)
{
    for (size_t place = first; place < last; place++)
        numbers[place] = (uint16_t)(bound > 0 ? below(source, bound) : take_number(source, 2));
}

/* The length for a damaged input of numbers; what is longer is filled up. */
static size_t damage_length(struct source *source, uint16_t *numbers, size_t fitting)
{
    size_t length = draw_length(source, fitting);
    any_numbers(source, numbers, fitting, length, 0);
    return length;
}

static void exchange(uint16_t *numbers, size_t place, size_t other)
{
    uint16_t number = numbers[place];
    numbers[place] = numbers[other];
    numbers[other] = number;
}

/* ---- Listings ---------------------------------------------------------------------------------------------------- */

/* Every row takes any two of what may still be named: the leaves but 0 and the nodes of the rows so far. */
void draw_listing(struct source *source, size_t n, uint16_t *listing)
{
    uint16_t open[FITTED_LEAVES];
    size_t count = 0;
    if (!fitted(n))
        return;
    for (size_t leaf = 1; leaf < n; leaf++)
        open[count++] = (uint16_t)leaf;
    for (size_t place = 0; place < QUARTREE_LISTING_NUMBERS(n); place++) {
        size_t choice = below(source, count);
        listing[place] = open[choice];
        open[choice] = open[--count];
        if (place % 2 == 1)
            open[count++] = (uint16_t)(n + place / 2);
    }
}

static void damage_child(struct source *source, size_t n, uint16_t *listing)
{
    size_t place = below(source, QUARTREE_LISTING_NUMBERS(n)), other = below(source, QUARTREE_LISTING_NUMBERS(n));
    switch (below(source, 9)) {
    case 0:
        listing[place] = 0;
        break;
    case 1: /* its own row's node */
        listing[place] = (uint16_t)(n + place / 2);
        break;
    case 2: /* any node, some of which no row has */
        listing[place] = (uint16_t)(n + below(source, n));
        break;
    case 3:
        listing[place] = (uint16_t)(listing[place] + 256);
        break;
    case 4:
        listing[place] = (uint16_t)take_number(source, 2);
        break;
    case 5:
        exchange(listing, place, other);
        break;
    default: /* the later child is named as the earlier one */
        listing[place > other ? place : other] = listing[place > other ? other : place];
    }
}

size_t damage_listing(struct source *source, size_t n, uint16_t *listing)
{
    if (!fitted(n))
        return damage_length(source, listing, 0);
    if (take(source) >= 244)
        any_numbers(source, listing, 0, QUARTREE_LISTING_NUMBERS(n), 2 * n);
    for (unsigned left = draw_damages(source); left > 0; left--)
        damage_child(source, n, listing);
    return damage_length(source, listing, QUARTREE_LISTING_NUMBERS(n));
}

size_t draw_question(struct source *source, size_t n, uint16_t *question)
{
    size_t bound = n < 4 || n > 256 ? 4 : n;
    for (size_t place = 0; place < 4; place++) {
        size_t leaf = below(source, bound), earlier = 0;
        while (earlier < place) /* the next leaf that is not yet named */
            if (question[earlier++] == leaf) {
                leaf = (leaf + 1) % bound;
                earlier = 0;
            }
        question[place] = (uint16_t)leaf;
    }
    for (unsigned left = draw_damages(source); left > 0; left--) {
        size_t place = below(source, 4);
        switch (below(source, 4)) {
        case 0:
            question[place] = question[below(source, 4)];
            break;
        case 1:
            question[place] = (uint16_t)n;
            break;
        case 2:
            question[place] = (uint16_t)(question[place] + 256);
            break;
        default:
            question[place] = (uint16_t)take_number(source, 2);
        }
    }
    return damage_length(source, question, 4);
}

/* ---- Merges and tables ------------------------------------------------------------------------------------------- */

/* The subtrees that merges have left: for each leaf the number of the subtree that holds it. */
struct subtrees {
    size_t n;
    uint8_t holding[FITTED_LEAVES];
};

/* The leaves of one subtree. */
struct leaves {
    size_t count;
    uint8_t leaf[FITTED_LEAVES];
};

static struct subtrees single_leaves(size_t n)
{
    struct subtrees subtrees = {n, {0}};
    for (size_t leaf = 0; leaf < n; leaf++)
        subtrees.holding[leaf] = (uint8_t)leaf;
    return subtrees;
}

static struct leaves leaves_of(const struct subtrees *subtrees, size_t subtree)
{
    struct leaves leaves = {0, {0}};
    for (size_t leaf = 0; leaf < subtrees->n; leaf++)
        if (subtrees->holding[leaf] == subtree)
            leaves.leaf[leaves.count++] = (uint8_t)leaf;
    return leaves;
}

/* The second subtree becomes part of the first. */
static void join(struct subtrees *subtrees, size_t first, size_t second)
{
    for (size_t leaf = 0; leaf < subtrees->n; leaf++)
        if (subtrees->holding[leaf] == second)
            subtrees->holding[leaf] = (uint8_t)first;
}

/* Any leaf of a subtree: the next one, from a drawn leaf on. */
static uint16_t any_leaf(struct source *source, const struct subtrees *subtrees, size_t subtree)
{
    size_t leaf = below(source, subtrees->n);
    while (subtrees->holding[leaf] != subtree)
        leaf = (leaf + 1) % subtrees->n;
    return (uint16_t)leaf;
}

/* Every step takes any two of the subtrees that are left; so every tree comes with every order of its merges. */
void draw_merges(struct source *source, size_t n, uint16_t *merges)
{
    struct subtrees subtrees;
    size_t open[FITTED_LEAVES], count = n;
    if (!fitted(n))
        return;
    subtrees = single_leaves(n);
    for (size_t leaf = 0; leaf < n; leaf++)
        open[leaf] = leaf;
    for (size_t step = 0; step < QUARTREE_MERGES(n); step++) {
        size_t choice = below(source, count), first = open[choice];
        open[choice] = open[--count];
        size_t second = open[below(source, count)];
        merges[2 * step] = any_leaf(source, &subtrees, first);
        merges[2 * step + 1] = any_leaf(source, &subtrees, second);
        join(&subtrees, second, first);
    }
}

/* The merges in the order of the rows, each subtree named by a leaf of it, and last the one with leaf 0. */
void merges_of_listing(size_t n, const uint16_t *listing, uint16_t *merges)
{
    uint16_t leaf_of[2 * FITTED_LEAVES];
    if (!fitted(n))
        return;
    for (size_t leaf = 0; leaf < n; leaf++)
        leaf_of[leaf] = (uint16_t)leaf;
    for (size_t place = 0; place < QUARTREE_LISTING_NUMBERS(n); place++) {
        merges[place] = leaf_of[listing[place]];
        leaf_of[n + place / 2] = merges[place];
    }
    merges[QUARTREE_LISTING_NUMBERS(n)] = 0;
    merges[QUARTREE_LISTING_NUMBERS(n) + 1] = leaf_of[2 * n - 3];
}

/* Each subtree but the whole is merged in one step; a merge with leaf n goes before that. */
void graft_merges(struct source *source, size_t n, uint16_t *merges)
{
    size_t place;
    if (!fitted(n) || take(source) >= 200) {
        draw_merges(source, n + 1, merges);
        return;
    }
    place = below(source, QUARTREE_MERGE_NUMBERS(n));
    uint16_t leaf = merges[place], *step = merges + place / 2 * 2;
    memmove(step + 2, step, (QUARTREE_MERGE_NUMBERS(n) - place / 2 * 2) * sizeof *merges);
    step[0] = leaf;
    step[1] = (uint16_t)n;
}

static uint32_t pairs_of(size_t k)
{
    return (uint32_t)(k == 0 ? 0 : k * (k - 1) / 2);
}

/* Writes a cell and its mirror cell. */
static void put(size_t n, uint32_t *table, size_t i, size_t j, uint32_t value)
{
    table[n * i + j] = value;
    table[n * j + i] = value;
}

/* By the rule of the merges: a merge of A and B has the cells between them at P(n-a-b) + m(i) + m(j). */
void table_of_merges(size_t n, const uint16_t *merges, uint32_t *table)
{
    struct subtrees subtrees;
    uint32_t m[FITTED_LEAVES] = {0};
    if (!fitted(n))
        return;
    subtrees = single_leaves(n);
    memset(table, 0, QUARTREE_TABLE_CELLS(n) * sizeof *table);
    for (size_t step = 0; step < QUARTREE_MERGES(n); step++) {
        size_t first = subtrees.holding[merges[2 * step]], second = subtrees.holding[merges[2 * step + 1]];
        struct leaves a = leaves_of(&subtrees, first), b = leaves_of(&subtrees, second);
        uint32_t outside = pairs_of(n - a.count - b.count);
        for (size_t i = 0; i < a.count; i++)
            for (size_t j = 0; j < b.count; j++)
                put(n, table, a.leaf[i], b.leaf[j], outside + m[a.leaf[i]] + m[b.leaf[j]]);
        for (size_t i = 0; i < a.count; i++)
            m[a.leaf[i]] += pairs_of(b.count);
        for (size_t j = 0; j < b.count; j++)
            m[b.leaf[j]] += pairs_of(a.count);
        join(&subtrees, first, second);
    }
}

void scale_table(struct source *source, size_t n, uint32_t word, uint32_t *table)
{
    bool told = take(source) < 240;
    if (fitted(n) && (word != QUARTREE_COUNTS) == told)
        for (size_t cell = 0; cell < QUARTREE_TABLE_CELLS(n); cell++)
            table[cell] *= 6;
}

/* Another value for a cell: less or more by so much, and not below 0. */
static uint32_t cell_off_by(uint32_t cell, uint32_t by, bool less)
{
    return less ? cell - (by < cell ? by : cell) : cell + by;
}

/* Another value for a cell: off by one or by up to 127, or none; 0 or the greatest; or any. */
static uint32_t rough_cell(struct source *source, size_t kind, uint32_t cell)
{
    uint8_t byte = kind < 3 ? take(source) : 0;
    switch (kind) {
    case 0:
        return cell_off_by(cell, byte % 4 / 2, byte % 2 == 1);
    case 1:
        return cell_off_by(cell, byte / 2, byte % 2 == 1);
    case 2:
        return byte < 128 ? 0 : UINT32_MAX;
    default:
        return take_number(source, 4);
    }
}

void roughen_table(struct source *source, size_t n, uint32_t *table)
{
    uint8_t kind = take(source);
    for (size_t i = 0; fitted(n) && kind >= 128 && i < n; i++)
        for (size_t j = i + 1; j < n; j++)
            put(n, table, i, j, rough_cell(source, kind % 4, table[n * i + j]));
}

static void damage_step(struct source *source, size_t n, uint16_t *merges)
{
    size_t step = below(source, QUARTREE_MERGES(n)), other = below(source, QUARTREE_MERGES(n));
    size_t place = 2 * step + below(source, 2);
    switch (below(source, 8)) {
    case 0: /* names one subtree twice, if the other step is an earlier one */
        merges[2 * step] = merges[2 * other];
        merges[2 * step + 1] = merges[2 * other + 1];
        break;
    case 1:
        merges[place] = (uint16_t)n;
        break;
    case 2:
        merges[place] = (uint16_t)(merges[place] + 256);
        break;
    case 3:
        merges[place] = (uint16_t)take_number(source, 2);
        break;
    case 4:
        merges[place] = (uint16_t)below(source, n);
        break;
    case 5:
        exchange(merges, place, 2 * other);
        break;
    default: /* the steps change places, which often is another order of eligible merges */
        exchange(merges, 2 * step, 2 * other);
        exchange(merges, 2 * step + 1, 2 * other + 1);
    }
}

size_t damage_merges(struct source *source, size_t n, uint16_t *merges)
{
    if (!fitted(n))
        return damage_length(source, merges, 0);
    if (take(source) >= 244)
        any_numbers(source, merges, 0, QUARTREE_MERGE_NUMBERS(n), n);
    for (unsigned left = draw_damages(source); left > 0; left--)
        damage_step(source, n, merges);
    return damage_length(source, merges, QUARTREE_MERGE_NUMBERS(n));
}

static void damage_cells(struct source *source, size_t n, uint32_t *table)
{
    size_t i = below(source, n), j = (i + 1 + below(source, n - 1)) % n, k = below(source, n);
    uint32_t cell = table[n * i + j];
    switch (below(source, 9)) {
    case 0:
        put(n, table, i, j, cell + 1);
        break;
    case 1:
        put(n, table, i, j, cell - 1);
        break;
    case 2:
        put(n, table, i, j, cell ^ take_bit(source));
        break;
    case 3:
        put(n, table, i, j, take_number(source, 4));
        break;
    case 4: /* two cells of a leaf change places */
        if (k != i) {
            put(n, table, i, j, table[n * i + k]);
            put(n, table, i, k, cell);
        }
        break;
    case 5: /* one half only */
        table[n * i + j] ^= take_bit(source);
        break;
    case 6:
        table[n * i + i] ^= take_bit(source);
        break;
    case 7: /* all cells of a leaf */
        for (size_t other = 0; other < n; other++)
            if (other != i)
                put(n, table, i, other, table[n * i + other] + 1);
        break;
    default: /* all cells between the leaves up to i and the others */
        for (size_t low = 0; low <= i; low++)
            for (size_t high = i + 1; high < n; high++)
                put(n, table, low, high, table[n * low + high] + 1);
    }
}

/* A table with a zero diagonal and equal halves, and small cells of any values. */
static void any_cells(struct source *source, size_t n, uint32_t *table)
{
    size_t bound = 1 + below(source, 1 + pairs_of(n - 2));
    for (size_t i = 0; i < n; i++) {
        table[n * i + i] = 0;
        for (size_t j = i + 1; j < n; j++)
            put(n, table, i, j, (uint32_t)below(source, bound));
    }
}

size_t damage_table(struct source *source, size_t n, uint32_t *table)
{
    size_t fitting = fitted(n) ? QUARTREE_TABLE_CELLS(n) : 0, cells;
    if (fitted(n)) {
        if (take(source) >= 236)
            any_cells(source, n, table);
        for (unsigned left = draw_damages(source); left > 0; left--)
            damage_cells(source, n, table);
    }
    cells = draw_length(source, fitting);
    for (size_t place = fitting; place < cells; place++)
        table[place] = take_number(source, 4);
    return cells;
}

/* ---- Polls ------------------------------------------------------------------------------------------------------- */

static void damage_record(struct source *source, size_t count, struct quartree_record *records)
{
    struct quartree_record *record = &records[below(source, count)], *other = &records[below(source, count)], before;
    before = *record;
    switch (below(source, 9)) {
    case 0: /* two records change places */
        *record = *other;
        *other = before;
        break;
    case 1:
        *record = *other;
        break;
    case 2:
        record->a = take(source);
        break;
    case 3:
        record->b = take(source);
        break;
    case 4:
        record->c = take(source);
        break;
    case 5:
        record->d = take(source);
        break;
    case 6:
        record->c = before.d;
        record->d = before.c;
        break;
    case 7:
        record->code = 7;
        break;
    default:
        record->code = take(source);
    }
}

static struct quartree_record any_record(struct source *source)
{
    uint32_t leaves = take_number(source, 4);
    return (struct quartree_record){(uint8_t)leaves, (uint8_t)(leaves >> 8), (uint8_t)(leaves >> 16),
                                    (uint8_t)(leaves >> 24), take(source)};
}

size_t draw_poll(struct source *source, size_t n, struct quartree_record *records)
{
    bool has_poll = n >= QUARTREE_POLL_LEAST_LEAVES && n <= FITTED_POLL_LEAVES;
    size_t fitting = 0, count;
    for (size_t a = 0; has_poll && a < n; a++)
        for (size_t b = a + 1; b < n; b++)
            for (size_t c = b + 1; c < n; c++)
                for (size_t d = c + 1; d < n; d++)
                    records[fitting++] = (struct quartree_record){(uint8_t)a, (uint8_t)b, (uint8_t)c, (uint8_t)d,
                                                                  (uint8_t)below(source, 7)};
    for (unsigned left = draw_damages(source); has_poll && left > 0; left--)
        damage_record(source, fitting, records);
    count = draw_length(source, fitting);
    for (size_t place = fitting; place < count; place++)
        records[place] = any_record(source);
    return count;
}

/* ---- Sheets ------------------------------------------------------------------------------------------------------ */

enum { NAME_BYTES = 48 };

/* A name, and the length that is written for it. */
struct name {
    uint8_t length;
    size_t count;
    uint8_t bytes[NAME_BYTES];
};

/* The parts of a sheet, each open to damage. */
struct parts {
    size_t n;
    size_t names;
    struct name name[FITTED_LEAVES];
    size_t left_over; /* bytes between the last name and the cells */
    size_t cells;
    uint32_t cell[FITTED_LEAVES * FITTED_LEAVES];
    uint16_t leaf_count;
    uint32_t offset_shift; /* added to the offset of the first cell */
    uint8_t ending[2];
};

static const char letters[] = "abcdefghijklmnopqrstuvwxyzABCDEFGHIJKLMNOPQRSTUVWXYZ0123456789.-";

static void add_letter(struct name *name, size_t letter)
{
    name->bytes[name->count++] = (uint8_t)letters[letter % 64];
    name->length = (uint8_t)name->count;
}

/* Names of which no two are equal: short ones; ones with an end of their own; ones that differ at the end only; or the
   beginnings of one name. */
static void draw_names(struct source *source, struct parts *parts)
{
    size_t kind = below(source, 4);
    parts->names = parts->n;
    for (size_t leaf = 0; leaf < parts->n; leaf++) {
        struct name *name = &parts->name[leaf];
        name->count = 0;
        if (kind == 3 && parts->n <= 40) {
            while (name->count <= leaf)
                add_letter(name, name->count);
            continue;
        }
        while (kind == 2 && name->count < 38)
            add_letter(name, name->count);
        add_letter(name, leaf);
        if (kind > 0 || leaf >= 64)
            add_letter(name, leaf / 64);
        for (size_t left = kind == 1 ? below(source, 39) : 0; left > 0; left--)
            add_letter(name, take(source));
    }
}

/* The cells above the diagonal of a tree's table, damaged or not. */
static void draw_sheet_cells(struct source *source, struct parts *parts)
{
    static uint32_t table[MOST_CELLS];
    uint16_t merges[MOST_NUMBERS];
    size_t n = parts->n;
    draw_merges(source, n, merges);
    table_of_merges(n, merges, table);
    damage_table(source, n, table);
    parts->cells = 0;
    for (size_t i = 0; i < n; i++)
        for (size_t j = i + 1; j < n; j++)
            parts->cell[parts->cells++] = table[n * i + j];
}

static size_t names_end(const struct parts *parts)
{
    size_t end = parts->left_over;
    for (size_t leaf = 0; leaf < parts->names; leaf++)
        end += 1 + parts->name[leaf].count;
    return end;
}

static void damage_parts(struct source *source, struct parts *parts)
{
    static const uint8_t lengths[] = {0, 1, 2, 39, 40, 41, 127, 255};
    struct name *name = &parts->name[below(source, parts->names)], *other = &parts->name[below(source, parts->names)];
    size_t count, shortest;
    switch (below(source, 16)) {
    case 0:
        name->length = lengths[below(source, LENGTH(lengths))];
        break;
    case 1:
        name->bytes[below(source, name->count)] = take(source);
        break;
    case 2: /* 40 bytes, or a few more */
        count = 40 + below(source, 4);
        while (name->count < count)
            add_letter(name, take(source));
        break;
    case 3: /* one name fewer */
        *name = parts->name[parts->names - 1];
        parts->names -= parts->names > 1;
        break;
    case 4:
        parts->left_over = 1 + below(source, 4);
        break;
    case 5: /* as long as the longest sheet, or longer by one byte */
        shortest = names_end(parts) - parts->left_over + 2 * parts->cells + 8;
        if (shortest <= QUARTREE_SHEET_MOST_BYTES)
            parts->left_over = QUARTREE_SHEET_MOST_BYTES - shortest + below(source, 2);
        break;
    case 6:
        parts->leaf_count = (uint16_t)draw_leaf_count(source);
        break;
    case 7:
        parts->leaf_count = (uint16_t)take_number(source, 2);
        break;
    case 8: /* by one byte up or down */
        parts->offset_shift = below(source, 2) == 0 ? 1 : UINT32_MAX;
        break;
    case 9:
        parts->offset_shift = take_bit(source);
        break;
    case 10:
        parts->ending[below(source, 2)] ^= (uint8_t)(1 << below(source, 8));
        break;
    case 11:
        parts->cells -= parts->cells > 0;
        break;
    default: /* a name twice */
        *name = *other;
    }
}

static void write_number(uint8_t *sheet, size_t *at, uint32_t number, unsigned bytes)
{
    for (unsigned place = 0; place < bytes; place++)
        sheet[(*at)++] = (uint8_t)(number >> (8 * place));
}

static size_t write_parts(struct source *source, const struct parts *parts, uint8_t *sheet)
{
    size_t at = 0, offset;
    for (size_t leaf = 0; leaf < parts->names; leaf++) {
        const struct name *name = &parts->name[leaf];
        sheet[at++] = name->length;
        memcpy(sheet + at, name->bytes, name->count);
        at += name->count;
    }
    for (size_t left = parts->left_over; left > 0; left--)
        sheet[at++] = take(source);
    offset = at;
    for (size_t cell = 0; cell < parts->cells; cell++)
        write_number(sheet, &at, parts->cell[cell], 2);
    write_number(sheet, &at, parts->leaf_count, 2);
    write_number(sheet, &at, (uint32_t)offset + parts->offset_shift, 4);
    write_number(sheet, &at, parts->ending[0], 1);
    write_number(sheet, &at, parts->ending[1], 1);
    return at;
}

/* Damage to the bytes of a sheet, wherever they belong; the new length. */
static size_t damage_bytes(struct source *source, uint8_t *sheet, size_t len)
{
    size_t place = below(source, len);
    switch (below(source, 5)) {
    case 0:
        sheet[place] ^= (uint8_t)(1 << below(source, 8));
        return len;
    case 1:
        sheet[place] = take(source);
        return len;
    case 2:
        memmove(sheet + place, sheet + place + 1, len - place - 1);
        return len - 1;
    case 3:
        memmove(sheet + place + 1, sheet + place, len - place);
        sheet[place] = take(source);
        return len + 1;
    default:
        return place;
    }
}

/* All bytes that are left, and none of the stream. */
static size_t raw_bytes(struct source *source, uint8_t *sheet, size_t most)
{
    size_t len = source->left < most ? source->left : most;
    memcpy(sheet, source->next, len);
    source->next += len;
    source->left -= len;
    return len;
}

/* A sheet of bytes that are left over, with a trailer that fits them. */
static size_t raw_names(struct source *source, uint8_t *sheet)
{
    size_t n = 3 + below(source, 6), at = raw_bytes(source, sheet, 21000), offset = at;
    memset(sheet + at, 0, n * (n - 1));
    at += n * (n - 1);
    write_number(sheet, &at, (uint32_t)n, 2);
    write_number(sheet, &at, (uint32_t)offset, 4);
    write_number(sheet, &at, 0x5451, 2);
    return at;
}

size_t draw_sheet(struct source *source, uint8_t *sheet)
{
    static struct parts parts;
    uint8_t kind = take(source);
    size_t n, len;
    if (kind >= 240)
        return raw_bytes(source, sheet, MOST_SHEET_BYTES);
    if (kind >= 224)
        return raw_names(source, sheet);
    n = draw_leaf_count(source);
    parts.n = fitted(n) ? n : 3 + n % 6;
    parts.leaf_count = (uint16_t)n;
    parts.left_over = 0;
    parts.offset_shift = 0;
    parts.ending[0] = 0x51;
    parts.ending[1] = 0x54;
    draw_names(source, &parts);
    draw_sheet_cells(source, &parts);
    for (unsigned left = draw_damages(source); left > 0; left--)
        damage_parts(source, &parts);
    len = write_parts(source, &parts, sheet);
    if (take(source) >= 232)
        len = damage_bytes(source, sheet, len);
    return len;
}

size_t draw_leaf(struct source *source, size_t n)
{
    const size_t refused[] = {n, n + 1, n + 256, 256, 65536, (size_t)1 << 32, SIZE_MAX};
    if (take(source) >= 224)
        return refused[below(source, LENGTH(refused))];
    return below(source, n);
}

/* 1 to 2n-3; after the greatest number comes 0. */
size_t draw_edge(struct source *source, size_t n)
{
    return draw_leaf(source, 2 * n - 3) + 1;
}

/* ---- Texts ------------------------------------------------------------------------------------------------------- */

size_t draw_sheet_for_text(struct source *source, uint8_t *sheet)
{
    static struct parts parts;
    if (take(source) >= 208)
        return draw_sheet(source, sheet);
    parts.n = draw_leaf_count(source);
    parts.n = parts.n >= QUARTREE_LEAST_LEAVES && parts.n <= QUARTREE_MOST_LEAVES ? parts.n : 5;
    parts.leaf_count = (uint16_t)parts.n;
    parts.left_over = 0;
    parts.offset_shift = 0;
    parts.ending[0] = 0x51;
    parts.ending[1] = 0x54;
    parts.cells = parts.n * (parts.n - 1) / 2;
    memset(parts.cell, 0, sizeof parts.cell);
    draw_names(source, &parts);
    return write_parts(source, &parts, sheet);
}

/* A text as it is written: with blanks once in so many places, and lengths; 0 for never. */
struct pen {
    struct source *source;
    unsigned blanks, lengths;
    uint8_t *text;
    size_t len;
};

/* A byte is dropped where the text is as long as it can be, less what closes it and damage adds. */
static void put_byte(struct pen *pen, uint8_t byte)
{
    if (pen->len < MOST_TEXT_BYTES - 2 * SLACK)
        pen->text[pen->len++] = byte;
}

static bool happens(struct pen *pen, unsigned times)
{
    return times > 0 && take(pen->source) % times == 0;
}

static void put_blanks(struct pen *pen)
{
    static const char blanks[] = "\t\n\r ";
    while (happens(pen, pen->blanks) && pen->len % 8 != 0)
        put_byte(pen, (uint8_t)blanks[below(pen->source, 4)]);
}

static void put_length(struct pen *pen)
{
    static const char bytes[] = "0123456789.+-eE";
    put_blanks(pen);
    if (!happens(pen, pen->lengths))
        return;
    put_byte(pen, ':');
    for (size_t left = 1 + below(pen->source, 6); left > 0; left--)
        put_byte(pen, (uint8_t)bytes[below(pen->source, sizeof bytes - 1)]);
    put_blanks(pen);
}

/* The names of a sheet, as far as they stand in it; the others are letters. */
struct written_names {
    const uint8_t *name[FITTED_LEAVES];
    size_t len[FITTED_LEAVES];
};

static void find_names(const uint8_t *sheet, size_t sheet_len, size_t n, struct written_names *names)
{
    size_t at = 0;
    for (size_t leaf = 0; leaf < n; leaf++) {
        bool stands = at < sheet_len && at + 1 + sheet[at] <= sheet_len && sheet[at] > 0;
        names->name[leaf] = stands ? sheet + at + 1 : (const uint8_t *)letters + leaf % 64;
        names->len[leaf] = stands ? sheet[at] : 1;
        at += stands ? 1 + (size_t)sheet[at] : 0;
    }
}

/* A drawing of the subtree v: a leaf, or a node with two parts. */
static void put_drawing(struct pen *pen, const struct written_names *names, size_t n, uint16_t (*parts)[2], size_t v)
{
    put_blanks(pen);
    if (v < n) {
        for (size_t byte = 0; byte < names->len[v]; byte++)
            put_byte(pen, names->name[v][byte]);
    } else {
        put_byte(pen, '(');
        put_drawing(pen, names, n, parts, parts[v - n][0]);
        put_byte(pen, ',');
        put_drawing(pen, names, n, parts, parts[v - n][1]);
        put_byte(pen, ')');
    }
    put_length(pen);
}

/* A drawing of all leaves, mostly with a top of two or three parts. */
static void put_top(struct pen *pen, const uint8_t *sheet, size_t sheet_len, size_t n)
{
    static struct written_names names;
    uint16_t open[FITTED_LEAVES], parts[FITTED_LEAVES][2];
    uint8_t kind = take(pen->source);
    size_t count = n, top = kind < 216 ? 2 + kind % 2 : 1 + kind % 6;
    find_names(sheet, sheet_len, n, &names);
    for (size_t leaf = 0; leaf < n; leaf++)
        open[leaf] = (uint16_t)leaf;
    for (size_t node = 0; count > top; node++) {
        for (size_t side = 0; side < 2; side++) {
            size_t choice = below(pen->source, count);
            parts[node][side] = open[choice];
            open[choice] = open[--count];
        }
        open[count++] = (uint16_t)(n + node);
    }
    put_blanks(pen);
    for (size_t part = 0; part < count; part++) {
        put_byte(pen, part == 0 ? '(' : ',');
        put_drawing(pen, &names, n, parts, open[part]);
    }
    put_byte(pen, ')');
    put_length(pen);
    put_byte(pen, ';');
    put_blanks(pen);
}

size_t draw_text(struct source *source, const uint8_t *sheet, size_t sheet_len, size_t n, uint8_t *text)
{
    static const uint8_t times[] = {0, 0, 1, 2, 9};
    struct pen pen = {source, 0, 0, text, 0};
    if (take(source) >= 128)
        return raw_bytes(source, text, MOST_TEXT_BYTES);
    pen.blanks = times[below(source, LENGTH(times))];
    pen.lengths = times[below(source, LENGTH(times))];
    put_top(&pen, sheet, sheet_len, n);
    for (unsigned left = draw_damages(source); left > 0 && pen.len > 0; left--)
        pen.len = damage_bytes(source, text, pen.len);
    return pen.len;
}

/* ---- Leaf sets --------------------------------------------------------------------------------------------------- */

/* Puts a leaf in or takes it out. */
static void turn_leaf(uint8_t *set, size_t leaf)
{
    set[leaf / 8] ^= (uint8_t)(1 << leaf % 8);
}

void draw_set(struct source *source, uint8_t *set)
{
    uint8_t kind = take(source);
    for (size_t byte = 0; byte < QUARTREE_SET_BYTES; byte++)
        set[byte] = kind < 160 ? take(source) : kind < 208 ? 0 : 0xFF;
    if (kind >= 160 && kind % 4 > 0)
        turn_leaf(set, below(source, 8 * QUARTREE_SET_BYTES));
}

void draw_other_set(struct source *source, const uint8_t *set, uint8_t *other)
{
    size_t kind = below(source, 8), leaf;
    draw_set(source, other);
    leaf = below(source, 8 * QUARTREE_SET_BYTES);
    for (size_t byte = 0; byte < QUARTREE_SET_BYTES; byte++)
        switch (kind) {
        case 0: /* the same */
        case 1: /* one leaf more or fewer */
            other[byte] = set[byte];
            break;
        case 2: /* a part of it */
            other[byte] &= set[byte];
            break;
        case 3: /* all of it and more */
            other[byte] |= set[byte];
            break;
        case 4: /* other leaves alone */
            other[byte] &= (uint8_t)~set[byte];
            break;
        case 5: /* the same bytes, from another on */
            other[byte] = set[(byte + leaf) % QUARTREE_SET_BYTES];
            break;
        default: /* any other */
            break;
        }
    if (kind == 1)
        turn_leaf(other, leaf);
}

size_t damage_set(struct source *source, uint8_t *set)
{
    size_t length = draw_length(source, QUARTREE_SET_BYTES);
    for (size_t byte = QUARTREE_SET_BYTES; byte < length; byte++)
        set[byte] = take(source);
    return length;
}
