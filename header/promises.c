/* Holds quartree.h against the scope and the archive: the numbers, sizes and figures that the header names stand here
   once more, as the scope has them, and every call is made through the header.

   Each call is accepted at its least leaf count, at 5 and at its most, with lengths that the macros say; a call that
   takes a table with one of counts and with a poll's, and the guess besides with tables that no tree has; a graft, a
   prune and a look besides at every edge and leaf of trees by chance; a call that takes leaf sets besides with every
   two bits, and with the splits of trees by chance. At 5 leaves it is refused in every way that its comment names: by
   one fault alone, and by that fault with all that are judged after it. An accepted call has to write its result and
   nothing else; a refused one nothing. The tree is a comb: at 5 leaves that of the scope's sheet and text. It is C and
   C++. The first claim that fails is printed and ends the program. */
#include "quartree.h"
#include "quartree.h"
#include <stdio.h>
#include <stdlib.h>
#include <string.h>

/* ---- Without a call -------------------------------------------------------------------------------------------------

   What the scope says of numbers and sizes; the sizes are worked out by hand. A claim that fails is not compiled. */

#define HOLDS(name, claim) typedef char name[(claim) ? 1 : -1]

HOLDS(refusal_0, QUARTREE_ACCEPTED == 0);
HOLDS(refusal_1, QUARTREE_REFUSED_LEAF_COUNT == 1);
HOLDS(refusal_2, QUARTREE_REFUSED_INPUT_LENGTH == 2);
HOLDS(refusal_3, QUARTREE_REFUSED_OUTPUT_ROOM == 3);
HOLDS(refusal_4, QUARTREE_REFUSED_DIAGONAL == 4);
HOLDS(refusal_5, QUARTREE_REFUSED_HALVES == 5);
HOLDS(refusal_6, QUARTREE_REFUSED_NO_TREE == 6);
HOLDS(refusal_7, QUARTREE_REFUSED_CHILD == 7);
HOLDS(refusal_8, QUARTREE_REFUSED_NAMED_BEFORE == 8);
HOLDS(refusal_9, QUARTREE_REFUSED_QUESTION == 9);
HOLDS(refusal_10, QUARTREE_REFUSED_RECORD == 10);
HOLDS(refusal_11, QUARTREE_REFUSED_PAIRING_CODE == 11);
HOLDS(refusal_12, QUARTREE_REFUSED_PROPOSAL == 12);
HOLDS(refusal_13, QUARTREE_REFUSED_SHEET_ENDS == 13);
HOLDS(refusal_14, QUARTREE_REFUSED_SHEET_LENGTH == 14);
HOLDS(refusal_15, QUARTREE_REFUSED_NAME == 15);
HOLDS(refusal_16, QUARTREE_REFUSED_SAME_NAME == 16);
HOLDS(refusal_17, QUARTREE_REFUSED_GRAMMAR == 17);
HOLDS(refusal_18, QUARTREE_REFUSED_NOT_BINARY == 18);
HOLDS(refusal_19, QUARTREE_REFUSED_UNMATCHED == 19);
HOLDS(refusal_20, QUARTREE_REFUSED_NOT_OWN == 20);

HOLDS(leaves, QUARTREE_LEAST_LEAVES == 3 && QUARTREE_MOST_LEAVES == 128);
HOLDS(poll_leaves, QUARTREE_POLL_LEAST_LEAVES == 4 && QUARTREE_POLL_MOST_LEAVES == 32);
HOLDS(words_for_a_table, QUARTREE_COUNTS == 0 && QUARTREE_POLL != 0);
HOLDS(origins_of_lent_trees, QUARTREE_LISTED == 1 && QUARTREE_IMPORTED == 2);
HOLDS(origins_of_tables, QUARTREE_REBUILT == 0 && QUARTREE_GUESSED == 3);
HOLDS(origin_of_later, QUARTREE_GRAFTED == 4);
HOLDS(stack_bytes, QUARTREE_GUESS_STACK_BYTES > QUARTREE_STACK_BYTES);
HOLDS(sheet_bytes, QUARTREE_SHEET_MOST_BYTES == 21512 && 128 * 41 + 128 * 127 + 8 == 21512);
HOLDS(listing_numbers, QUARTREE_LISTING_NUMBERS(3) == 2 && QUARTREE_LISTING_NUMBERS(128) == 252);
HOLDS(listing_bytes, QUARTREE_LISTING_BYTES(3) == 4 && QUARTREE_LISTING_BYTES(128) == 504);
HOLDS(table_cells, QUARTREE_TABLE_CELLS(3) == 9 && QUARTREE_TABLE_CELLS(128) == 16384);
HOLDS(edges, QUARTREE_EDGES(3) == 3 && QUARTREE_EDGES(128) == 253);
HOLDS(set_bytes, QUARTREE_SET_BYTES == 16);
HOLDS(split_bytes, QUARTREE_SPLIT_BYTES(3) == 0 && QUARTREE_SPLIT_BYTES(128) == 2000);
HOLDS(text_bytes, QUARTREE_TEXT_BYTES(3) == 125 && QUARTREE_TEXT_BYTES(128) == 5500 && 128 * 40 + 3 * 128 - 4 == 5500);
HOLDS(merges, QUARTREE_MERGES(3) == 2 && QUARTREE_MERGES(128) == 127);
HOLDS(merge_numbers, QUARTREE_MERGE_NUMBERS(3) == 4 && QUARTREE_MERGE_NUMBERS(128) == 254);
HOLDS(poll_records, QUARTREE_POLL_RECORDS(4) == 1 && QUARTREE_POLL_RECORDS(32) == 35960);

HOLDS(record_bytes, sizeof(struct quartree_record) == 5);
HOLDS(record_leaves, offsetof(struct quartree_record, a) == 0 && offsetof(struct quartree_record, b) == 1
                         && offsetof(struct quartree_record, c) == 2 && offsetof(struct quartree_record, d) == 3);
HOLDS(record_code, offsetof(struct quartree_record, code) == 4);

HOLDS(number_of_reply, QUARTREE_NUMBER(0x12345678905) == 5 && QUARTREE_NUMBER(0x123456789FF) == 255);
HOLDS(figure_of_reply, QUARTREE_FIGURE(0x12345678905) == 0x123456789);
HOLDS(figures_of_reply, QUARTREE_FIGURE_X(0x12345678905) == 0x1234567 && QUARTREE_FIGURE_Y(0x12345678905) == 0x89);
HOLDS(figures_of_guess,
      QUARTREE_GUESS_TOTAL(0x12345678905) == 0x1234567 && QUARTREE_GUESS_ORIGIN(0x12345678905) == 0x89);
HOLDS(figures_of_name, QUARTREE_NAME_OFFSET(0x12345678905) == 0x1234567 && QUARTREE_NAME_LENGTH(0x12345678905) == 0x89);
HOLDS(widths_of_figures, sizeof QUARTREE_GUESS_TOTAL(0) == 8 && sizeof QUARTREE_GUESS_ORIGIN(0) == 4
                             && sizeof QUARTREE_NAME_OFFSET(0) == sizeof(size_t)
                             && sizeof QUARTREE_NAME_LENGTH(0) == sizeof(size_t));
HOLDS(version_number, QUARTREE_VERSION_NUMBER == QUARTREE_VERSION_MAJOR * 0x10000 + QUARTREE_VERSION_MINOR * 0x100
                                                     + QUARTREE_VERSION_PATCH);

/* Words of each number's text that no other text has. */
static const char *const words[] = {
    "accepted", "leaf count is outside", "(a leaf set: 16 bytes)", "output", "diagonal", "mirror", "no binary tree",
    "earlier row", "named before", "question", "record", "pairing code", "proposal", "51 54", "n(n-1) + 8",
    "a bad length", "equals an earlier one", "grammar", "three-way top", "each once", "not its own"
};

enum { REFUSALS = 20 };

/* The word for each origin's number. */
static const char *const origin_words[] = {"rebuilt", "listed", "imported", "guessed", "grafted"};
enum { ORIGINS = 5 };

/* ---- What is lent ------------------------------------------------------------------------------------------------ */

/* Every buffer, one element longer than it ever has to be, so that one that is too long can be lent. */
struct lent {
    uint16_t listing[QUARTREE_LISTING_NUMBERS(128) + 1], question[5], merges[QUARTREE_MERGE_NUMBERS(128) + 1];
    uint32_t table[QUARTREE_TABLE_CELLS(128) + 1], new_table[QUARTREE_TABLE_CELLS(128) + 1];
    struct quartree_record records[QUARTREE_POLL_RECORDS(32) + 1];
    uint8_t sheet[QUARTREE_SHEET_MOST_BYTES + 1], text[QUARTREE_TEXT_BYTES(128) + 1];
    uint8_t a[QUARTREE_SET_BYTES + 1], b[QUARTREE_SET_BYTES + 1];
    union {
        uint8_t bytes[QUARTREE_TEXT_BYTES(128) + 1];
        uint16_t numbers[QUARTREE_LISTING_NUMBERS(128) + 1];
        uint32_t cells[QUARTREE_TABLE_CELLS(128) + 1];
        int64_t gaps[QUARTREE_TABLE_CELLS(128) + 1];
        uint64_t totals[QUARTREE_EDGES(127) + 1];
    } out;
    uint32_t out_table[QUARTREE_TABLE_CELLS(128) + 1];
};

static struct lent lent, before;

/* The numbers that go with them: leaf count, word for the table, a record's origin, lengths, room, and the leaf that is
   asked for or pruned and the edge that is grafted on or looked at. */
static uint32_t word, origin;
static size_t n, listing_len, question_len, cells, new_cells, merges_len, count, sheet_len, text_len, a_len, b_len;
static size_t room, table_room, leaf, edge;

/* The results that are due. No gap is left between a tree and its own table. A graft and a prune have a tree and a
   table due of one leaf more or less. */
static uint16_t standard[QUARTREE_LISTING_NUMBERS(128)], changed[QUARTREE_LISTING_NUMBERS(128)];
static uint32_t changed_table[QUARTREE_TABLE_CELLS(128)];
static uint8_t splits[QUARTREE_SPLIT_BYTES(128)], listing_bytes_due[QUARTREE_LISTING_BYTES(128)];
static uint8_t text[QUARTREE_TEXT_BYTES(128)], joined[QUARTREE_SET_BYTES], common[QUARTREE_SET_BYTES];
static uint32_t table[QUARTREE_TABLE_CELLS(128)], sixths[QUARTREE_TABLE_CELLS(128)];
static uint64_t totals[QUARTREE_EDGES(127)];
static const int64_t gaps[QUARTREE_TABLE_CELLS(128)] = {0};

/* The scope's sheet of five strains, and the standard listing of its tree. */
static const uint8_t five_strains[] = {
    0x01, 0x61, 0x01, 0x62, 0x01, 0x63, 0x01, 0x64, 0x01, 0x65, 0x03, 0x00, 0x01, 0x00, 0x00, 0x00, 0x00, 0x00, 0x01,
    0x00, 0x00, 0x00, 0x00, 0x00, 0x01, 0x00, 0x01, 0x00, 0x03, 0x00, 0x05, 0x00, 0x0A, 0x00, 0x00, 0x00, 0x51, 0x54
};
static const uint16_t five_standard[] = {3, 4, 2, 5, 1, 6};
static const char five_text[] = "(a,b,(c,(d,e)));";

static size_t pairs_of(size_t k) { return k < 2 ? 0 : k * (k - 1) / 2; }

/* Writes a number low byte first. */
static void put(uint8_t *at, size_t bytes, size_t number)
{
    for (size_t byte = 0; byte < bytes; byte++)
        at[byte] = (uint8_t)(number >> (8 * byte));
}

/* Leaf k of a set. */
static int has_leaf(const uint8_t *set, size_t k) { return set[k / 8] >> k % 8 & 1; }
static void add_leaf(uint8_t *set, size_t k) { set[k / 8] |= (uint8_t)(1u << k % 8); }

/* The comb in which leaves 0, 1, 2 and so on leave one after the other. Its quartet a < b < c < d pairs a with b, so
   cell (i,j) counts the pairs of leaves below i and those of leaves above j. */
static void comb(size_t leaves, uint16_t *rows, uint32_t *of)
{
    for (size_t row = 0; row < leaves - 2; row++) {
        rows[2 * row] = (uint16_t)(leaves - 2 - row);
        rows[2 * row + 1] = (uint16_t)(row == 0 ? leaves - 1 : leaves + row - 1);
    }
    for (size_t i = 0; i < leaves; i++)
        for (size_t j = i; j < leaves; j++)
            of[leaves * i + j] = of[leaves * j + i]
                = (uint32_t)(i == j ? 0 : pairs_of(i) + pairs_of(leaves - 1 - j));
}

/* The comb, with its listing naming greater leaves first. */
static void fill_tree(size_t leaves)
{
    comb(leaves, standard, table);
    memset(splits, 0, sizeof splits);
    for (size_t row = 0; row < leaves - 2; row++) {
        lent.listing[2 * row] = standard[2 * row + 1];
        lent.listing[2 * row + 1] = standard[2 * row];
        for (size_t k = standard[2 * row]; row + 1 < leaves - 2 && k < leaves; k++)
            add_leaf(splits + QUARTREE_SET_BYTES * row, k);
    }
    for (size_t place = 0; place < QUARTREE_LISTING_NUMBERS(leaves); place++)
        put(listing_bytes_due + 2 * place, 2, standard[place]);
    for (size_t place = 0; place < QUARTREE_TABLE_CELLS(leaves); place++)
        sixths[place] = 6 * table[place];
    memcpy(lent.table, table, QUARTREE_TABLE_CELLS(leaves) * sizeof *table);
    for (size_t step = 0; step < QUARTREE_MERGES(leaves); step++) {
        lent.merges[2 * step] = (uint16_t)(leaves - 1 - step);
        lent.merges[2 * step + 1] = (uint16_t)(leaves - 2 - step);
    }
}

/* A poll in which the comb's pairings are told. */
static void fill_poll(size_t leaves)
{
    size_t record = 0;
    for (size_t a = 0; a < leaves; a++)
        for (size_t b = a + 1; b < leaves; b++)
            for (size_t c = b + 1; c < leaves; c++)
                for (size_t d = c + 1; d < leaves; d++, record++) {
                    struct quartree_record due = {(uint8_t)a, (uint8_t)b, (uint8_t)c, (uint8_t)d, 0};
                    lent.records[record] = due;
                }
}

/* A sheet with the comb's table. Names are one letter, or 40 bytes where the leaves are too many for letters. */
static void fill_sheet(size_t leaves)
{
    size_t at = 0, offset, name_len = leaves <= 26 ? 1 : 40;
    for (size_t k = 0; k < leaves; k++) {
        lent.sheet[at] = (uint8_t)name_len;
        memset(lent.sheet + at + 1, '-', name_len);
        lent.sheet[at + name_len] = (uint8_t)('a' + k % 26);
        if (name_len > 1)
            lent.sheet[at + 1] = (uint8_t)('A' + k / 26);
        at += 1 + name_len;
    }
    offset = at;
    for (size_t i = 0; i < leaves; i++)
        for (size_t j = i + 1; j < leaves; j++, at += 2)
            put(lent.sheet + at, 2, table[leaves * i + j]);
    put(lent.sheet + at, 2, leaves);
    put(lent.sheet + at + 2, 4, offset);
    put(lent.sheet + at + 6, 2, 0x5451);
    sheet_len = at + 8;
}

/* The comb's text with the sheet's names: a comma before every leaf but the first, brackets before the first and from
   leaf 2 to the last but one. */
static void fill_text(size_t leaves)
{
    size_t at = 0, name_len = lent.sheet[0];
    for (size_t k = 0; k < leaves; k++) {
        if (k > 0)
            text[at++] = ',';
        if (k == 0 || (k >= 2 && k + 1 < leaves))
            text[at++] = '(';
        memcpy(text + at, lent.sheet + k * (name_len + 1) + 1, name_len);
        at += name_len;
    }
    for (size_t k = 0; k < leaves - 2; k++)
        text[at++] = ')';
    text[at++] = ';';
    text_len = at;
    memcpy(lent.text, text, text_len);
}

enum { SET_BITS = 8 * QUARTREE_SET_BYTES };

/* The leaves that are in either of two sets, and those that are in both. */
static void fill_due(const uint8_t *a, const uint8_t *b, uint8_t *either, uint8_t *both)
{
    memset(either, 0, QUARTREE_SET_BYTES);
    memset(both, 0, QUARTREE_SET_BYTES);
    for (size_t k = 0; k < SET_BITS; k++) {
        if (has_leaf(a, k) || has_leaf(b, k))
            add_leaf(either, k);
        if (has_leaf(a, k) && has_leaf(b, k))
            add_leaf(both, k);
    }
}

/* Every second leaf, and every third; of the bits that are no leaves every third, and every second. */
static void fill_sets(size_t leaves)
{
    memset(lent.a, 0, QUARTREE_SET_BYTES);
    memset(lent.b, 0, QUARTREE_SET_BYTES);
    for (size_t k = 0; k < SET_BITS; k++) {
        if (k % (k < leaves ? 2 : 3) == 0)
            add_leaf(lent.a, k);
        if (k % (k < leaves ? 3 : 2) == 0)
            add_leaf(lent.b, k);
    }
    fill_due(lent.a, lent.b, joined, common);
}

/* Everything anew, for so many leaves, with nothing wrong; the outputs hold something. */
static void fill(size_t leaves)
{
    memset(&lent, 0xA5, sizeof lent);
    fill_tree(leaves);
    fill_sets(leaves);
    if (leaves <= QUARTREE_POLL_MOST_LEAVES)
        fill_poll(leaves);
    fill_sheet(leaves);
    fill_text(leaves);
    lent.question[0] = 0;
    lent.question[1] = (uint16_t)(leaves - 1);
    lent.question[2] = 1;
    lent.question[3] = (uint16_t)(leaves - 2);
    n = leaves;
    listing_len = QUARTREE_LISTING_NUMBERS(leaves);
    question_len = 4;
    cells = QUARTREE_TABLE_CELLS(leaves);
    new_cells = QUARTREE_TABLE_CELLS(leaves + 1);
    merges_len = QUARTREE_MERGE_NUMBERS(leaves);
    count = QUARTREE_POLL_RECORDS(leaves);
    a_len = b_len = QUARTREE_SET_BYTES;
    leaf = edge = leaves - 1;
    origin = 4;
}

/* ---- The calls --------------------------------------------------------------------------------------------------- */

static uint64_t check(void) { return quartree_check(n, lent.listing, listing_len); }
static uint64_t standardise(void)
{
    return quartree_standardise(n, lent.listing, listing_len, lent.out.numbers, room);
}
static uint64_t restandardise(void)
{
    return quartree_restandardise(n, origin, lent.listing, listing_len, lent.out.numbers, room);
}
static uint64_t list_splits(void) { return quartree_splits(n, lent.listing, listing_len, lent.out.bytes, room); }
static uint64_t pairing(void)
{
    return quartree_pairing(n, lent.listing, listing_len, lent.question, question_len);
}
static uint64_t set_join(void) { return quartree_set_join(lent.a, a_len, lent.b, b_len, lent.out.bytes, room); }
static uint64_t set_intersect(void)
{
    return quartree_set_intersect(lent.a, a_len, lent.b, b_len, lent.out.bytes, room);
}
static uint64_t set_equal(void) { return quartree_set_equal(lent.a, a_len, lent.b, b_len); }
static uint64_t write_table(void) { return quartree_table(n, lent.listing, listing_len, lent.out.cells, room); }
static uint64_t gap(void)
{
    return quartree_gap(n, word, lent.table, cells, lent.listing, listing_len, lent.out.gaps, room);
}
static uint64_t rebuild(void) { return quartree_rebuild(n, word, lent.table, cells, lent.out.numbers, room); }
static uint64_t guess(void) { return quartree_guess(n, word, lent.table, cells, lent.out.numbers, room); }
static uint64_t guided(void)
{
    return quartree_rebuild_guided(n, word, lent.table, cells, lent.merges, merges_len, lent.out.numbers, room);
}
static uint64_t graft(void)
{
    return quartree_graft(n, lent.listing, listing_len, lent.table, cells, edge, lent.out.numbers, room, lent.out_table,
                          table_room);
}
static uint64_t prune(void)
{
    return quartree_prune(n, lent.listing, listing_len, lent.table, cells, leaf, lent.out.numbers, room, lent.out_table,
                          table_room);
}
/* The looks, of exactly these types. */
static uint64_t (*const look_at)(size_t, uint32_t, const uint16_t *, size_t, const uint32_t *, size_t, size_t,
                                 const uint32_t *, size_t) = quartree_look;
static uint64_t (*const look_at_all)(size_t, uint32_t, const uint16_t *, size_t, const uint32_t *, size_t,
                                     const uint32_t *, size_t, uint64_t *, size_t) = quartree_look_all;
static uint64_t look(void)
{
    return look_at(n, word, lent.listing, listing_len, lent.table, cells, edge, lent.new_table, new_cells);
}
static uint64_t look_all(void)
{
    return look_at_all(n, word, lent.listing, listing_len, lent.table, cells, lent.new_table, new_cells,
                       lent.out.totals, room);
}
static uint64_t poll(void) { return quartree_poll(n, lent.records, count, lent.out.cells, room); }
static uint64_t check_sheet(void) { return quartree_check_sheet(lent.sheet, sheet_len); }
static uint64_t sheet_table(void) { return quartree_sheet_table(lent.sheet, sheet_len, lent.out.cells, room); }
static uint64_t sheet_name(void) { return quartree_sheet_name(lent.sheet, sheet_len, leaf); }
static uint64_t rebuild_sheet(void)
{
    return quartree_rebuild_sheet(lent.sheet, sheet_len, lent.out.bytes, room);
}
static uint64_t export_text(void)
{
    return quartree_export(lent.sheet, sheet_len, lent.listing, listing_len, lent.out.bytes, room);
}
static uint64_t import_text(void)
{
    return quartree_import(lent.sheet, sheet_len, lent.text, text_len, lent.out.numbers, room);
}

/* How many elements a result has. */
static size_t no_cells(size_t leaves) { return 0 * leaves; }
static size_t of_listing(size_t leaves) { return QUARTREE_LISTING_NUMBERS(leaves); }
static size_t of_grafted(size_t leaves) { return QUARTREE_LISTING_NUMBERS(leaves + 1); }
static size_t of_pruned(size_t leaves) { return QUARTREE_LISTING_NUMBERS(leaves - 1); }
static size_t of_splits(size_t leaves) { return QUARTREE_SPLIT_BYTES(leaves); }
static size_t of_set(size_t leaves) { return QUARTREE_SET_BYTES + 0 * leaves; }
static size_t of_table(size_t leaves) { return QUARTREE_TABLE_CELLS(leaves); }
static size_t of_edges(size_t leaves) { return QUARTREE_EDGES(leaves); }
static size_t of_bytes(size_t leaves) { return QUARTREE_LISTING_BYTES(leaves); }
static size_t of_text(size_t leaves) { return leaves * lent.sheet[0] + 3 * leaves - 4; }

/* The figure of an accepted call. Of the question's leaves 0, n-1, 1, n-2 the first is paired with the third. */
static uint64_t nothing(void) { return 0; }
static uint64_t third(void) { return 1; }
static uint64_t equal(void) { return 1; }
static uint64_t rebuilt(void) { return 0; }
static uint64_t imported(void) { return 2; }
static uint64_t grafted(void) { return 4; }
static uint64_t leaf_count(void) { return n; }
/* A table of zeros is off from a tree's by the tree's own cells, which total twice the quartets, and it has the comb as
   its guess. */
static uint64_t total_of_tree(size_t leaves)
{
    return (word == QUARTREE_COUNTS ? 2 : 12) * QUARTREE_POLL_RECORDS(leaves);
}
static uint64_t guessed_comb(void) { return 256 * total_of_tree(n) + 3; }
static uint64_t total_of_grafted(void) { return total_of_tree(n + 1); }
static uint64_t length_of_text(void) { return text_len; }
static uint64_t place_of_last_name(void)
{
    size_t name_len = lent.sheet[0], place = n * (name_len + 1) - name_len;
    return 256 * place + name_len;
}

/* What a call takes. KEPT is a table that has to be the tree's own, GROWN a leaf count that one leaf is added to, and
   OUT_TABLE an output for a table beside that for a tree. */
enum {
    COUNT = 1, POLL_COUNT = 2, LISTING = 4, QUESTION = 8, TABLE = 16, MERGES = 32, RECORDS = 64, SHEET = 128,
    LEAF = 256, OUTPUT = 512, TEXT = 1024, POLL_TABLE = 2048, ZEROS = 4096, EDGE = 8192, PRUNED = 16384, SETS = 32768,
    SAME = 65536, KEPT = 1 << 17, GROWN = 1 << 18, OUT_TABLE = 1 << 19, NEW_TABLE = 1 << 20, NEW_POLL = 1 << 21,
    TREE = COUNT | LISTING | TABLE | KEPT, LOOK = TREE | GROWN | NEW_TABLE, POLL_LOOK = LOOK | NEW_POLL
};

/* Added to a refusal's number where the new table is judged, which is last of all. */
enum { NEW = 64 };

struct entry {
    const char *name;
    uint64_t (*call)(void);
    unsigned takes;
    size_t least, most;             /* leaf counts */
    unsigned char refused[11];      /* by these numbers, in this order; 0 ends them */
    uint64_t (*figure)(void);       /* of an accepted call */
    size_t (*result_cells)(size_t); /* what an accepted call writes */
    const void *result;
    size_t cell_bytes;
};

static const struct entry entries[] = {
    {"check", check, COUNT | LISTING, 3, 128, {1, 2, 7, 8}, nothing, no_cells, standard, 1},
    {"standardise", standardise, COUNT | LISTING | OUTPUT, 3, 128, {1, 2, 3, 7, 8}, nothing, of_listing, standard, 2},
    {"restandardise", restandardise, COUNT | LISTING | OUTPUT, 3, 128, {1, 2, 3, 7, 8}, grafted, of_listing, standard,
     2},
    {"splits", list_splits, COUNT | LISTING | OUTPUT, 3, 128, {1, 2, 3, 7, 8}, nothing, of_splits, splits, 1},
    {"pairing", pairing, COUNT | LISTING | QUESTION, 4, 128, {1, 2, 7, 8, 9}, third, no_cells, standard, 1},
    {"set_join", set_join, SETS | OUTPUT, 3, 128, {2, 3}, nothing, of_set, joined, 1},
    {"set_intersect", set_intersect, SETS | OUTPUT, 3, 128, {2, 3}, nothing, of_set, common, 1},
    {"set_equal", set_equal, SETS, 3, 128, {2}, nothing, no_cells, standard, 1},
    {"set_equal of equal sets", set_equal, SETS | SAME, 3, 128, {2}, equal, no_cells, standard, 1},
    {"table", write_table, COUNT | LISTING | OUTPUT, 3, 128, {1, 2, 3, 7, 8}, nothing, of_table, table, 4},
    {"gap", gap, COUNT | LISTING | TABLE | OUTPUT, 3, 128, {1, 2, 3, 7, 8, 4, 5}, nothing, of_table, gaps, 8},
    {"rebuild", rebuild, COUNT | TABLE | OUTPUT, 3, 128, {1, 2, 3, 4, 5, 6}, rebuilt, of_listing, standard, 2},
    {"guess", guess, COUNT | TABLE | OUTPUT, 3, 128, {1, 2, 3, 4, 5}, rebuilt, of_listing, standard, 2},
    {"guess of zeros", guess, COUNT | TABLE | ZEROS | OUTPUT, 4, 128, {1, 2, 3, 4, 5}, guessed_comb, of_listing,
     standard, 2},
    {"rebuild_guided", guided, COUNT | TABLE | MERGES | OUTPUT, 3, 128, {1, 2, 3, 4, 5, 12}, rebuilt, of_listing,
     standard, 2},
    {"graft", graft, TREE | GROWN | EDGE | OUTPUT | OUT_TABLE, 3, 127, {1, 2, 3, 7, 8, 4, 5, 20}, grafted, of_grafted,
     changed, 2},
    {"look", look, LOOK | EDGE, 3, 127, {1, 2, 7, 8, 4, 5, 20, NEW + 4, NEW + 5}, nothing, no_cells, standard, 1},
    {"look at zeros", look, LOOK | EDGE | ZEROS, 3, 127, {1, 2, 7, 8, 4, 5, 20, NEW + 4, NEW + 5}, total_of_grafted,
     no_cells, standard, 1},
    {"look_all at zeros", look_all, LOOK | ZEROS | OUTPUT, 3, 127, {1, 2, 3, 7, 8, 4, 5, 20, NEW + 4, NEW + 5}, nothing,
     of_edges, totals, 8},
    {"prune", prune, TREE | PRUNED | OUTPUT | OUT_TABLE, 4, 128, {1, 2, 3, 7, 8, 4, 5, 20}, grafted, of_pruned,
     changed, 2},
    {"gap of a poll", gap, POLL_COUNT | LISTING | TABLE | POLL_TABLE | OUTPUT, 4, 32, {1, 2, 3, 7, 8, 4, 5}, nothing,
     of_table, gaps, 8},
    {"rebuild of a poll", rebuild, POLL_COUNT | TABLE | POLL_TABLE | OUTPUT, 4, 32, {1, 2, 3, 4, 5, 6}, rebuilt,
     of_listing, standard, 2},
    {"guess of a poll", guess, POLL_COUNT | TABLE | POLL_TABLE | OUTPUT, 4, 32, {1, 2, 3, 4, 5}, rebuilt, of_listing,
     standard, 2},
    {"guess of a poll's zeros", guess, POLL_COUNT | TABLE | POLL_TABLE | ZEROS | OUTPUT, 4, 32, {1, 2, 3, 4, 5},
     guessed_comb, of_listing, standard, 2},
    {"rebuild_guided of a poll", guided, POLL_COUNT | TABLE | POLL_TABLE | MERGES | OUTPUT, 4, 32, {1, 2, 3, 4, 5, 12},
     rebuilt, of_listing, standard, 2},
    {"look at a poll", look, POLL_LOOK | EDGE, 3, 31, {1, 2, 7, 8, 4, 5, 20, NEW + 4, NEW + 5}, nothing, no_cells,
     standard, 1},
    {"look at a poll's zeros", look, POLL_LOOK | EDGE | ZEROS, 3, 31, {1, 2, 7, 8, 4, 5, 20, NEW + 4, NEW + 5},
     total_of_grafted, no_cells, standard, 1},
    {"look_all at a poll's zeros", look_all, POLL_LOOK | ZEROS | OUTPUT, 3, 31,
     {1, 2, 3, 7, 8, 4, 5, 20, NEW + 4, NEW + 5}, nothing, of_edges, totals, 8},
    {"poll", poll, POLL_COUNT | RECORDS | OUTPUT, 4, 32, {1, 2, 3, 10, 11}, nothing, of_table, sixths, 4},
    {"check_sheet", check_sheet, SHEET, 3, 128, {13, 1, 14, 15, 16}, leaf_count, no_cells, standard, 1},
    {"sheet_table", sheet_table, SHEET | OUTPUT, 3, 128, {13, 1, 14, 3, 15, 16}, leaf_count, of_table, table, 4},
    {"sheet_name", sheet_name, SHEET | LEAF, 3, 128, {13, 1, 14, 15, 16, 9}, place_of_last_name, no_cells, standard, 1},
    {"rebuild_sheet", rebuild_sheet, SHEET | OUTPUT, 3, 128, {13, 1, 14, 3, 15, 16, 6}, nothing, of_bytes,
     listing_bytes_due, 1},
    {"export", export_text, SHEET | LISTING | OUTPUT, 3, 128, {13, 1, 2, 14, 7, 8, 15, 16, 3}, length_of_text, of_text,
     text, 1},
    {"import", import_text, SHEET | TEXT | OUTPUT, 3, 128, {13, 1, 14, 3, 15, 16, 17, 18, 19}, imported, of_listing,
     standard, 2},
};
enum { ENTRIES = sizeof entries / sizeof *entries };

/* ---- The faults, at 5 leaves ------------------------------------------------------------------------------------- */

static void leaves_2(void) { n = 2; }
static void leaves_129(void) { n = 129; }
static void leaves_3(void) { n = 3; }
static void leaves_32(void) { n = 32; }
static void leaves_128(void) { n = 128; }
static void most_leaves(void) { n = SIZE_MAX; }
static void poll_of_3(void) { n = 3; }
static void poll_of_33(void) { n = 33; }
static void sheet_of_2(void) { put(lent.sheet + sheet_len - 8, 2, 2); }
static void sheet_of_129(void) { put(lent.sheet + sheet_len - 8, 2, 129); }
static void listing_longer(void) { listing_len++; }
static void listing_shorter(void) { listing_len--; }
static void question_longer(void) { question_len++; }
static void question_shorter(void) { question_len--; }
static void table_longer(void) { cells++; }
static void table_shorter(void) { cells--; }
static void new_table_longer(void) { new_cells++; }
static void new_table_shorter(void) { new_cells--; }
static void merges_longer(void) { merges_len++; }
static void merges_shorter(void) { merges_len--; }
static void poll_longer(void) { count++; }
static void poll_shorter(void) { count--; }
static void a_longer(void) { a_len++; }
static void a_shorter(void) { a_len--; }
static void b_longer(void) { b_len++; }
static void b_shorter(void) { b_len--; }
static void room_shorter(void) { room--; }
static void table_room_shorter(void) { table_room--; }
static void diagonal_filled(void) { lent.table[5 * 3 + 3] = 1; }
static void halves_unequal(void) { lent.table[5 * 1 + 3] ^= 1; }
static void new_diagonal_filled(void) { lent.new_table[6 * 5 + 5] = 1; }
static void new_halves_unequal(void) { lent.new_table[6 * 2 + 5] ^= 1; }
static void cells_off_by_1(void)
{
    lent.table[n * 1 + 2]++;
    lent.table[n * 2 + 1]++;
}
static void table_of_poll(void) { memcpy(lent.table, sixths, cells * sizeof *sixths); }
static void table_of_zeros(void) { memset(lent.table, 0, cells * sizeof *lent.table); }
static void new_table_of_zeros(void) { memset(lent.new_table, 0, new_cells * sizeof *lent.new_table); }
static void sheet_of_zeros(void) { memset(lent.sheet + 10, 0, 20); }
static void leaf_0_a_child(void) { lent.listing[2] = 0; }
static void own_node_a_child(void) { lent.listing[2] = 6; }
static void child_again(void) { lent.listing[3] = lent.listing[0]; }
static void leaf_5_asked(void) { lent.question[2] = 5; }
static void leaf_asked_again(void) { lent.question[3] = lent.question[0]; }
static void leaf_5_named(void) { leaf = 5; }
static void edge_0(void) { edge = 0; }
static void edge_8(void) { edge = 8; }
static void edge_257(void) { edge = 257; }
static void leaf_256(void) { leaf = 256; }
static void greatest_edge(void) { edge = SIZE_MAX; }
static void greatest_leaf(void) { leaf = SIZE_MAX; }
/* What is left of them in 16 or 32 bits is there. */
static void edge_1_above_16(void) { edge = 65536 + 1; }
static void leaf_0_above_16(void) { leaf = 65536; }
static void edge_1_above_half(void) { edge = SIZE_MAX / 2 + 2; }
static void leaf_0_above_half(void) { leaf = SIZE_MAX / 2 + 1; }
static void record_not_due(void) { lent.records[2].d--; }
static void code_7(void) { lent.records[3].code = 7; }
static void proposals_from_0_2(void)
{
    lent.merges[0] = 0;
    lent.merges[1] = 2;
}
static void leaf_5_proposed(void) { lent.merges[4] = 5; }
static void subtree_twice(void) { lent.merges[7] = lent.merges[0]; }
static void seven_bytes(void)
{
    memmove(lent.sheet, lent.sheet + sheet_len - 7, 7);
    sheet_len = 7;
}
static void sheet_too_long(void) { sheet_len = 21513; }
static void other_ending(void) { lent.sheet[sheet_len - 1] ^= 1; }
static void other_ending_before(void) { lent.sheet[sheet_len - 2] ^= 1; }
static void offset_11(void) { put(lent.sheet + sheet_len - 6, 4, 11); }
static void empty_name(void) { lent.sheet[2] = 0; }
static void name_past_offset(void) { lent.sheet[8] = 2; }
static void underscore(void) { lent.sheet[5] = '_'; }
static void byte_left_over(void)
{
    memmove(lent.sheet + 11, lent.sheet + 10, sheet_len - 10);
    sheet_len++;
    offset_11();
}
static void name_again(void) { lent.sheet[7] = lent.sheet[3]; }
/* The text is (a,b,(c,(d,e)));. */
static void no_text(void) { text_len = 0; }
static void no_semicolon(void) { text_len--; }
static void quote_for_a(void) { lent.text[1] = '\''; }
static void null_for_c(void) { lent.text[6] = '\0'; }
static void label_for_bracket(void) { lent.text[13] = 'x'; }
static void one_byte_behind(void) { lent.text[text_len++] = 'x'; }
static void brackets_128_deep(void)
{
    memset(lent.text, '(', 128);
    text_len = 128;
}
static void node_of_three(void) { lent.text[8] = lent.text[12] = ' '; }
static void node_of_one(void) { lent.text[9] = lent.text[10] = '\t'; }
static void top_of_four(void) { lent.text[5] = lent.text[13] = '\n'; }
static void x_for_a(void) { lent.text[1] = 'x'; }
static void a_again_for_b(void) { lent.text[3] = 'a'; }
static void no_e(void)
{
    memcpy(lent.text, "(a,b,(c,d));", 12);
    text_len = 12;
}

struct fault {
    unsigned number;  /* the refusal's */
    unsigned scope;   /* the same, as the scope has it, and NEW more where the new table is judged last */
    uint64_t figure;
    unsigned in;      /* what has the fault: of those that a call takes */
    void (*make)(void);
    int alone;        /* it is tried alone: it is judged after every other fault of a sheet, or is the whole text or
                         table, or another number for what is named */
};

static const struct fault faults[] = {
    {QUARTREE_REFUSED_LEAF_COUNT, 1, 0, COUNT, leaves_2, 0},
    {QUARTREE_REFUSED_LEAF_COUNT, 1, 0, COUNT, leaves_129, 0},
    {QUARTREE_REFUSED_LEAF_COUNT, 1, 0, GROWN, leaves_128, 0},
    {QUARTREE_REFUSED_LEAF_COUNT, 1, 0, GROWN, most_leaves, 0},
    {QUARTREE_REFUSED_LEAF_COUNT, 1, 0, NEW_POLL, leaves_32, 0},
    {QUARTREE_REFUSED_LEAF_COUNT, 1, 0, PRUNED, leaves_3, 0},
    {QUARTREE_REFUSED_LEAF_COUNT, 1, 0, POLL_COUNT, poll_of_3, 0},
    {QUARTREE_REFUSED_LEAF_COUNT, 1, 0, POLL_COUNT, poll_of_33, 0},
    {QUARTREE_REFUSED_LEAF_COUNT, 1, 0, SHEET, sheet_of_2, 0},
    {QUARTREE_REFUSED_LEAF_COUNT, 1, 0, SHEET, sheet_of_129, 0},
    {QUARTREE_REFUSED_INPUT_LENGTH, 2, 0, LISTING, listing_longer, 0},
    {QUARTREE_REFUSED_INPUT_LENGTH, 2, 0, LISTING, listing_shorter, 0},
    {QUARTREE_REFUSED_INPUT_LENGTH, 2, 0, QUESTION, question_longer, 0},
    {QUARTREE_REFUSED_INPUT_LENGTH, 2, 0, QUESTION, question_shorter, 0},
    {QUARTREE_REFUSED_INPUT_LENGTH, 2, 0, TABLE, table_longer, 0},
    {QUARTREE_REFUSED_INPUT_LENGTH, 2, 0, TABLE, table_shorter, 0},
    {QUARTREE_REFUSED_INPUT_LENGTH, 2, 0, NEW_TABLE, new_table_longer, 0},
    {QUARTREE_REFUSED_INPUT_LENGTH, 2, 0, NEW_TABLE, new_table_shorter, 0},
    {QUARTREE_REFUSED_INPUT_LENGTH, 2, 0, MERGES, merges_longer, 0},
    {QUARTREE_REFUSED_INPUT_LENGTH, 2, 0, MERGES, merges_shorter, 0},
    {QUARTREE_REFUSED_INPUT_LENGTH, 2, 0, RECORDS, poll_longer, 0},
    {QUARTREE_REFUSED_INPUT_LENGTH, 2, 0, RECORDS, poll_shorter, 0},
    {QUARTREE_REFUSED_INPUT_LENGTH, 2, 0, SETS, a_longer, 0},
    {QUARTREE_REFUSED_INPUT_LENGTH, 2, 0, SETS, a_shorter, 0},
    {QUARTREE_REFUSED_INPUT_LENGTH, 2, 0, SETS, b_longer, 0},
    {QUARTREE_REFUSED_INPUT_LENGTH, 2, 0, SETS, b_shorter, 0},
    {QUARTREE_REFUSED_OUTPUT_ROOM, 3, 0, OUTPUT, room_shorter, 0},
    {QUARTREE_REFUSED_OUTPUT_ROOM, 3, 0, OUT_TABLE, table_room_shorter, 0},
    {QUARTREE_REFUSED_DIAGONAL, 4, 3, TABLE, diagonal_filled, 0},
    {QUARTREE_REFUSED_HALVES, 5, 256 * 1 + 3, TABLE, halves_unequal, 0},
    {QUARTREE_REFUSED_DIAGONAL, NEW + 4, 5, NEW_TABLE, new_diagonal_filled, 0},
    {QUARTREE_REFUSED_HALVES, NEW + 5, 256 * 2 + 5, NEW_TABLE, new_halves_unequal, 0},
    {QUARTREE_REFUSED_NO_TREE, 6, 0, TABLE, table_of_zeros, 0},
    {QUARTREE_REFUSED_NO_TREE, 6, 0, SHEET, sheet_of_zeros, 0},
    {QUARTREE_REFUSED_CHILD, 7, 2, LISTING, leaf_0_a_child, 0},
    {QUARTREE_REFUSED_CHILD, 7, 2, LISTING, own_node_a_child, 0},
    {QUARTREE_REFUSED_NAMED_BEFORE, 8, 3, LISTING, child_again, 0},
    {QUARTREE_REFUSED_QUESTION, 9, 2, QUESTION, leaf_5_asked, 0},
    {QUARTREE_REFUSED_QUESTION, 9, 3, QUESTION, leaf_asked_again, 0},
    {QUARTREE_REFUSED_QUESTION, 9, 0, LEAF, leaf_5_named, 0},
    {QUARTREE_REFUSED_RECORD, 10, 2, RECORDS, record_not_due, 0},
    {QUARTREE_REFUSED_PAIRING_CODE, 11, 3, RECORDS, code_7, 0},
    {QUARTREE_REFUSED_PROPOSAL, 12, 0, MERGES, proposals_from_0_2, 0},
    {QUARTREE_REFUSED_PROPOSAL, 12, 2, MERGES, leaf_5_proposed, 0},
    {QUARTREE_REFUSED_PROPOSAL, 12, 3, MERGES, subtree_twice, 0},
    {QUARTREE_REFUSED_SHEET_ENDS, 13, 0, SHEET, seven_bytes, 0},
    {QUARTREE_REFUSED_SHEET_ENDS, 13, 0, SHEET, sheet_too_long, 0},
    {QUARTREE_REFUSED_SHEET_ENDS, 13, 0, SHEET, other_ending, 0},
    {QUARTREE_REFUSED_SHEET_ENDS, 13, 0, SHEET, other_ending_before, 0},
    {QUARTREE_REFUSED_SHEET_LENGTH, 14, 0, SHEET, offset_11, 0},
    {QUARTREE_REFUSED_NAME, 15, 1, SHEET, empty_name, 0},
    {QUARTREE_REFUSED_NAME, 15, 2, SHEET, underscore, 0},
    {QUARTREE_REFUSED_NAME, 15, 4, SHEET, name_past_offset, 1},
    {QUARTREE_REFUSED_NAME, 15, 5, SHEET, byte_left_over, 1},
    {QUARTREE_REFUSED_SAME_NAME, 16, 3, SHEET, name_again, 0},
    {QUARTREE_REFUSED_GRAMMAR, 17, 0, TEXT, no_text, 1},
    {QUARTREE_REFUSED_GRAMMAR, 17, 15, TEXT, no_semicolon, 0},
    {QUARTREE_REFUSED_GRAMMAR, 17, 1, TEXT, quote_for_a, 0},
    {QUARTREE_REFUSED_GRAMMAR, 17, 6, TEXT, null_for_c, 1},
    {QUARTREE_REFUSED_GRAMMAR, 17, 13, TEXT, label_for_bracket, 1},
    {QUARTREE_REFUSED_GRAMMAR, 17, 16, TEXT, one_byte_behind, 1},
    {QUARTREE_REFUSED_GRAMMAR, 17, 127, TEXT, brackets_128_deep, 1},
    {QUARTREE_REFUSED_NOT_BINARY, 18, 0, TEXT, node_of_three, 0},
    {QUARTREE_REFUSED_NOT_BINARY, 18, 0, TEXT, node_of_one, 1},
    {QUARTREE_REFUSED_NOT_BINARY, 18, 0, TEXT, top_of_four, 1},
    {QUARTREE_REFUSED_UNMATCHED, 19, 0, TEXT, x_for_a, 0},
    {QUARTREE_REFUSED_UNMATCHED, 19, 0, TEXT, a_again_for_b, 0},
    {QUARTREE_REFUSED_UNMATCHED, 19, 0, TEXT, no_e, 1},
    {QUARTREE_REFUSED_NOT_OWN, 20, 0, KEPT, cells_off_by_1, 0},
    {QUARTREE_REFUSED_NOT_OWN, 20, 0, KEPT, table_of_poll, 1},
    {QUARTREE_REFUSED_NOT_OWN, 20, 0, KEPT, table_of_zeros, 1},
    {QUARTREE_REFUSED_NOT_OWN, 20, 0, EDGE, edge_0, 1},
    {QUARTREE_REFUSED_NOT_OWN, 20, 0, EDGE, edge_8, 0},
    {QUARTREE_REFUSED_NOT_OWN, 20, 0, EDGE, edge_257, 1},
    {QUARTREE_REFUSED_NOT_OWN, 20, 0, EDGE, edge_1_above_16, 1},
    {QUARTREE_REFUSED_NOT_OWN, 20, 0, EDGE, edge_1_above_half, 1},
    {QUARTREE_REFUSED_NOT_OWN, 20, 0, EDGE, greatest_edge, 1},
    {QUARTREE_REFUSED_NOT_OWN, 20, 0, PRUNED, leaf_5_named, 0},
    {QUARTREE_REFUSED_NOT_OWN, 20, 0, PRUNED, leaf_256, 1},
    {QUARTREE_REFUSED_NOT_OWN, 20, 0, PRUNED, leaf_0_above_16, 1},
    {QUARTREE_REFUSED_NOT_OWN, 20, 0, PRUNED, leaf_0_above_half, 1},
    {QUARTREE_REFUSED_NOT_OWN, 20, 0, PRUNED, greatest_leaf, 1},
};
enum { FAULTS = sizeof faults / sizeof *faults };

/* ---- Making the calls -------------------------------------------------------------------------------------------- */

static unsigned calls;

static void claim(int holds, const char *entry, const char *what, unsigned number)
{
    if (holds)
        return;
    printf("header: quartree_%s: %s (%u leaves lent, refusal %u due)\n", entry, what, (unsigned)n, number);
    exit(1);
}

/* How many leaves a graft or a prune leaves. */
static size_t leaves_left(const struct entry *entry, size_t leaves)
{
    return (entry->takes & GROWN) != 0 ? leaves + 1 : leaves - 1;
}

/* The table of the comb with a leaf more, which is what a graft on edge n-1 makes; six times it for a poll's. */
static void fill_new(int is_poll)
{
    comb(n + 1, changed, lent.new_table);
    for (size_t place = 0; is_poll && place < new_cells; place++)
        lent.new_table[place] *= 6;
}

static void fill_for(const struct entry *entry, size_t leaves)
{
    fill(leaves);
    room = entry->result_cells(leaves);
    word = (entry->takes & (POLL_TABLE | NEW_POLL)) != 0 ? QUARTREE_POLL : QUARTREE_COUNTS;
    if ((entry->takes & POLL_TABLE) != 0)
        table_of_poll();
    if ((entry->takes & NEW_TABLE) != 0) {
        fill_new(word == QUARTREE_POLL);
        for (size_t k = 0; k < QUARTREE_EDGES(leaves); k++)
            totals[k] = total_of_grafted();
    }
    if ((entry->takes & ZEROS) != 0)
        ((entry->takes & NEW_TABLE) != 0 ? new_table_of_zeros : table_of_zeros)();
    if ((entry->takes & SAME) != 0)
        memcpy(lent.b, lent.a, QUARTREE_SET_BYTES);
    if ((entry->takes & OUT_TABLE) != 0) {
        comb(leaves_left(entry, leaves), changed, changed_table);
        table_room = QUARTREE_TABLE_CELLS(leaves_left(entry, leaves));
    }
}

static uint64_t make(const struct entry *entry)
{
    calls++;
    memcpy(&before, &lent, sizeof lent);
    return entry->call();
}

/* The call is accepted, and writes its result and nothing else. */
static void accept(const struct entry *entry)
{
    uint64_t reply = make(entry);
    claim(QUARTREE_NUMBER(reply) == (unsigned)QUARTREE_ACCEPTED, entry->name, "is refused", 0);
    claim(QUARTREE_FIGURE(reply) == entry->figure(), entry->name, "has another figure", 0);
    memcpy(&before.out, entry->result, entry->result_cells(n) * entry->cell_bytes);
    if ((entry->takes & OUT_TABLE) != 0)
        memcpy(before.out_table, changed_table,
               QUARTREE_TABLE_CELLS(leaves_left(entry, n)) * sizeof *changed_table);
    claim(memcmp(&before, &lent, sizeof lent) == 0, entry->name, "leaves something else in a buffer", 0);
}

/* The call is refused by this fault, and changes nothing. quartree_rebuild_sheet alone tells no figure. */
static void refuse(const struct entry *entry, const struct fault *fault)
{
    uint64_t reply = make(entry), figure = entry->call == rebuild_sheet ? 0 : fault->figure;
    unsigned due = fault->scope % NEW;
    claim(fault->number == due, entry->name, "the header numbers the refusal otherwise", due);
    claim(QUARTREE_NUMBER(reply) == due, entry->name, "has another number", due);
    claim(QUARTREE_FIGURE(reply) == figure, entry->name, "has another figure", due);
    claim(memcmp(&before, &lent, sizeof lent) == 0, entry->name, "is refused and changes a buffer", due);
}

/* Can the call have this fault? */
static int can_have(const struct entry *entry, const struct fault *fault, unsigned number)
{
    return fault->scope == number && (fault->in & entry->takes) != 0;
}

/* The faults of a call's refusals from this place on. */
static void make_faults(const struct entry *entry, size_t place)
{
    for (; entry->refused[place] != 0; place++)
        for (size_t f = 0; f < FAULTS; f++)
            if (can_have(entry, &faults[f], entry->refused[place]) && !faults[f].alone)
                faults[f].make();
}

/* Every fault by itself, and with all that are judged after it. */
static unsigned try_faults(const struct entry *entry)
{
    unsigned met = 0;
    for (size_t place = 0; entry->refused[place] != 0; place++) {
        unsigned earlier = calls;
        for (size_t f = 0; f < FAULTS; f++)
            if (can_have(entry, &faults[f], entry->refused[place])) {
                fill_for(entry, 5);
                faults[f].make();
                refuse(entry, &faults[f]);
                met |= 1u << faults[f].number;
                if (faults[f].alone)
                    continue;
                fill_for(entry, 5);
                make_faults(entry, place + 1);
                faults[f].make();
                refuse(entry, &faults[f]);
            }
        claim(calls > earlier, entry->name, "no fault is tried", entry->refused[place] % NEW);
    }
    return met;
}

/* At the least and the most leaves the lengths and the room that the macros say are right, and one less or more is
   not. */
static void try_sizes(const struct entry *entry, size_t leaves)
{
    fill_for(entry, leaves);
    accept(entry);
    room++;
    table_room++;
    accept(entry);
    for (size_t f = 0; f < FAULTS; f++)
        if (can_have(entry, &faults[f], 2) || can_have(entry, &faults[f], 3)) {
            fill_for(entry, leaves);
            if (faults[f].scope == 3 && room == 0)
                continue;
            faults[f].make();
            refuse(entry, &faults[f]);
        }
}

/* The gap of the table of zeros at (0,1). */
static int64_t lower_end(size_t leaves, uint32_t said)
{
    fill(leaves);
    room = cells;
    word = said;
    memset(lent.table, 0, sizeof lent.table);
    return gap() == 0 ? lent.out.gaps[1] : 0;
}

/* The scope's gaps: of the table of zeros -3 at (0,1) and 0 at (0,3), and the greatest and least there are. */
static void try_gaps(void)
{
    claim(lower_end(128, QUARTREE_COUNTS) == -7875 && lower_end(32, QUARTREE_POLL) == -2610
              && lower_end(5, QUARTREE_POLL) == -18,
          "gap", "has another lower end", 0);
    fill(5);
    room = cells;
    word = QUARTREE_COUNTS;
    memset(lent.table, 0, sizeof lent.table);
    lent.table[5 * 0 + 3] = lent.table[5 * 3 + 0] = UINT32_MAX;
    claim(gap() == 0 && lent.out.gaps[5 * 0 + 1] == -3 && lent.out.gaps[5 * 0 + 3] == 4294967295, "gap",
          "has other numbers", 0);
    lent.table[5 * 0 + 3] = lent.table[5 * 3 + 0] = 0;
    claim(gap() == 0 && lent.out.gaps[5 * 0 + 3] == 0, "gap", "has other numbers", 0);
}

/* A table of counts is the tree's where the word for it is 0, and six times it where the word is any other number. */
static void try_words(void)
{
    static const uint32_t said[] = {QUARTREE_COUNTS, QUARTREE_POLL, 2, 6, 77, 256, 65536, 1u << 31, UINT32_MAX};
    for (size_t w = 0; w < sizeof said / sizeof *said; w++)
        for (uint32_t is_poll = 0; is_poll < 2; is_poll++) {
            int right = (said[w] != 0) == (is_poll != 0);
            fill(5);
            memcpy(lent.table, is_poll != 0 ? sixths : table, cells * sizeof *table);
            word = said[w];
            room = listing_len;
            claim((rebuild() == QUARTREE_ACCEPTED) == right, "rebuild", "takes another word for a table", 6);
            claim((guided() == QUARTREE_ACCEPTED) == right, "rebuild_guided", "takes another word for a table", 12);
            claim((guess() == QUARTREE_ACCEPTED) == right, "guess", "takes another word for a table", 0);
            room = cells;
            claim(gap() == QUARTREE_ACCEPTED && (memcmp(lent.out.gaps, gaps, cells * sizeof *gaps) == 0) == right,
                  "gap", "takes another word for a table", 0);
            memcpy(lent.table, table, cells * sizeof *table);
            fill_new(is_poll != 0);
            claim((look() == QUARTREE_ACCEPTED) == right, "look", "takes another word for a table", 0);
            claim(look_all() == QUARTREE_ACCEPTED && (lent.out.totals[edge - 1] == 0) == right, "look_all",
                  "takes another word for a table", 0);
        }
}

/* Tables that no tree has, by their cells above the diagonal, with the tree and the total gap that are due. Those of
   six leaves have another tree where sums are compared and not means, where of equal means the last pair is taken,
   where m grows by a subtree's own size, and where the word for the table is the other; the first and the last of them
   also where means are cut to whole numbers. */
static const struct {
    size_t leaves;
    uint32_t said, above[15];
    uint16_t due[8];
    uint64_t total;
} rough[] = {
    {3, 0, {1, 0, 4294967295}, {1, 2}, 4294967296},
    {4, 0, {0, 1, 0, 1, 0, 0}, {1, 3, 4, 2}, 2},
    {6, 0, {2, 1, 6, 6, 5, 1, 6, 1, 3, 1, 5, 4, 3, 3, 0}, {1, 4, 6, 2, 7, 5, 8, 3}, 33},
    {6, 1, {27, 18, 30, 33, 9, 18, 15, 6, 3, 33, 24, 0, 33, 18, 18}, {3, 5, 1, 6, 7, 2, 8, 4}, 195},
    {6, 65536, {1, 7, 36, 1, 12, 12, 14, 26, 11, 33, 4, 6, 15, 32, 8}, {2, 5, 1, 6, 7, 4, 8, 3}, 178},
};
enum { ROUGH = sizeof rough / sizeof *rough };

/* Puts a number into a cell of a table of so many leaves, and into its mirror cell. */
static void put_cell(uint32_t *to, size_t leaves, size_t i, size_t j, uint32_t cell)
{
    to[leaves * i + j] = to[leaves * j + i] = cell;
}

/* The total gap of a table from a tree, by a call that writes their gaps. */
static uint64_t total_of(uint64_t reply, size_t leaves)
{
    uint64_t total = 0;
    claim(reply == QUARTREE_ACCEPTED, "gap", "is refused", 0);
    for (size_t i = 0; i < leaves; i++)
        for (size_t j = i + 1; j < leaves; j++)
            total += (uint64_t)llabs(lent.out.gaps[leaves * i + j]);
    return total;
}

/* The total gap of the table from the tree of the listing lent. */
static uint64_t total_gap(void)
{
    room = cells;
    return total_of(gap(), n);
}

/* What the header says of the guess of every table: marked rebuilt and answered as by the rebuild, or marked guessed
   where that says 6; listed in the standard form; with the total gap, which is 0 where it is rebuilt alone. Its tree is
   left as the listing that is lent. */
static void try_guess(void)
{
    uint16_t exact[QUARTREE_LISTING_NUMBERS(128)];
    size_t bytes = listing_len * sizeof *exact;
    uint64_t of_rebuild, reply, total;
    room = listing_len;
    memset(&lent.out, 0xA5, sizeof lent.out);
    of_rebuild = rebuild();
    memcpy(exact, lent.out.numbers, bytes);
    reply = guess();
    claim(QUARTREE_NUMBER(reply) == (unsigned)QUARTREE_ACCEPTED, "guess", "is refused", 0);
    if (of_rebuild == QUARTREE_ACCEPTED)
        claim(reply == of_rebuild && memcmp(lent.out.numbers, exact, bytes) == 0, "guess", "answers otherwise", 0);
    else
        claim(of_rebuild == QUARTREE_REFUSED_NO_TREE && QUARTREE_FIGURE_Y(reply) == QUARTREE_GUESSED, "guess",
              "has another origin", 6);
    memcpy(lent.listing, lent.out.numbers, bytes);
    claim(standardise() == QUARTREE_ACCEPTED && memcmp(lent.listing, lent.out.numbers, bytes) == 0, "guess",
          "has a listing that is not standard", 0);
    total = total_gap();
    claim(QUARTREE_FIGURE_X(reply) == total && total >> 45 == 0, "guess", "has another total", 0);
    claim((total == 0) == (QUARTREE_FIGURE_Y(reply) == QUARTREE_REBUILT), "guess", "has another origin", 0);
}

/* The rough tables; that a tree may be nearer than the guess; and that a sheet is guessed by two calls. */
static void try_rough(void)
{
    static const uint16_t nearer[] = {1, 3, 2, 4, 6, 7, 8, 5};
    for (size_t r = 0; r < ROUGH; r++) {
        const uint32_t *next = rough[r].above;
        fill(rough[r].leaves);
        word = rough[r].said;
        for (size_t i = 0; i < n; i++)
            for (size_t j = i + 1; j < n; j++)
                put_cell(lent.table, n, i, j, *next++);
        room = listing_len;
        claim(guess() == 256 * 3 + 65536 * rough[r].total, "guess", "has another figure for a rough table", 0);
        claim(memcmp(lent.out.numbers, rough[r].due, listing_len * sizeof *rough[r].due) == 0, "guess",
              "has another tree for a rough table", 0);
        try_guess();
        if (r == 2) {
            memcpy(lent.listing, nearer, sizeof nearer);
            claim(total_gap() == 23, "guess", "is as near as any tree", 0);
        }
    }
    fill(5);
    word = QUARTREE_COUNTS;
    sheet_of_zeros();
    room = cells;
    claim(sheet_table() == 256 * 5, "sheet_table", "refuses a rough sheet", 0);
    memcpy(lent.table, lent.out.cells, cells * sizeof *lent.table);
    room = listing_len;
    claim(guess() == 256 * 3 + 65536 * 10, "guess", "has another figure for a sheet", 0);
}

static uint32_t any_number(void)
{
    static uint64_t state = 1;
    state = state * 6364136223846793005u + 1442695040888963407u;
    return (uint32_t)(state >> 32);
}

/* The kinds of tables that are made of a tree's: with a few cells changed or none, with cells by chance within a tree's
   or of any size, and with the greatest. */
enum { CHANGED, SMALL, ANY, GREATEST, KINDS };

static void change_cells(uint32_t *of, size_t leaves, int kind)
{
    uint32_t most = (uint32_t)pairs_of(leaves) * (word == QUARTREE_POLL ? 6 : 1);
    for (size_t i = 0; i < leaves; i++)
        for (size_t j = i + 1; j < leaves; j++)
            if (kind == GREATEST)
                put_cell(of, leaves, i, j, UINT32_MAX);
            else if (kind == ANY)
                put_cell(of, leaves, i, j, any_number());
            else if (kind == SMALL || any_number() % (2 * leaves) == 0)
                put_cell(of, leaves, i, j, any_number() % (most + 1));
}

/* Can a table of so many leaves be lent with this word? */
static int goes_with(uint32_t said, size_t leaves)
{
    return said == QUARTREE_COUNTS || (leaves >= QUARTREE_POLL_LEAST_LEAVES && leaves <= QUARTREE_POLL_MOST_LEAVES);
}

/* The comb's table and what is made of it, from the least leaves to the most. */
static void try_tables(void)
{
    static const size_t sizes[] = {3, 4, 5, 6, 7, 8, 16, 32, 128};
    for (size_t s = 0; s < sizeof sizes / sizeof *sizes; s++)
        for (int kind = CHANGED; kind < KINDS; kind++)
            for (uint32_t said = QUARTREE_COUNTS; said <= QUARTREE_POLL && goes_with(said, sizes[s]); said++) {
                fill(sizes[s]);
                word = said;
                if (said == QUARTREE_POLL)
                    table_of_poll();
                change_cells(lent.table, n, kind);
                try_guess();
            }
}

/* ---- Trees that change ------------------------------------------------------------------------------------------- */

struct tree {
    size_t leaves;
    uint16_t rows[QUARTREE_LISTING_NUMBERS(128)];
    uint32_t cells[QUARTREE_TABLE_CELLS(128)];
};

static int same(const struct tree *tree, const struct tree *other)
{
    return tree->leaves == other->leaves
           && memcmp(tree->rows, other->rows, QUARTREE_LISTING_NUMBERS(tree->leaves) * sizeof *tree->rows) == 0
           && memcmp(tree->cells, other->cells, QUARTREE_TABLE_CELLS(tree->leaves) * sizeof *tree->cells) == 0;
}

/* Lends a tree and its table, and room for a tree of so many leaves. The listing is far from standard: again and again
   the rows are gone through from the last to the first, and those come next whose children are there; and the children
   of some are exchanged. */
static void lend(const struct tree *tree, size_t leaves)
{
    uint16_t number[QUARTREE_EDGES(128) + 1] = {0};
    size_t rows = 0;
    n = tree->leaves;
    listing_len = QUARTREE_LISTING_NUMBERS(n);
    cells = QUARTREE_TABLE_CELLS(n);
    new_cells = QUARTREE_TABLE_CELLS(n + 1);
    room = QUARTREE_LISTING_NUMBERS(leaves);
    table_room = QUARTREE_TABLE_CELLS(leaves);
    memcpy(lent.table, tree->cells, cells * sizeof *lent.table);
    for (size_t k = 1; k < n; k++)
        number[k] = (uint16_t)k;
    while (rows < n - 2)
        for (size_t row = n - 2; row-- > 0;) {
            size_t first = number[tree->rows[2 * row]], second = number[tree->rows[2 * row + 1]];
            size_t turned = any_number() & 1;
            if (number[n + row] != 0 || first == 0 || second == 0)
                continue;
            lent.listing[2 * rows + turned] = (uint16_t)first;
            lent.listing[2 * rows + 1 - turned] = (uint16_t)second;
            number[n + row] = (uint16_t)(n + rows++);
        }
}

/* Takes what was written: a standard listing and its tree's table. */
static void take(uint64_t reply, struct tree *tree, size_t leaves, const char *name)
{
    size_t numbers = QUARTREE_LISTING_NUMBERS(leaves), many = QUARTREE_TABLE_CELLS(leaves);
    static uint16_t rows[QUARTREE_LISTING_NUMBERS(128)];
    static uint32_t counted[QUARTREE_TABLE_CELLS(128)];
    claim(reply == 256 * QUARTREE_GRAFTED, name, "has another reply", 0);
    tree->leaves = leaves;
    memcpy(tree->rows, lent.out.numbers, numbers * sizeof *tree->rows);
    memcpy(tree->cells, lent.out_table, many * sizeof *tree->cells);
    claim(quartree_standardise(leaves, tree->rows, numbers, rows, numbers) == QUARTREE_ACCEPTED
              && memcmp(rows, tree->rows, numbers * sizeof *rows) == 0,
          name, "writes a listing that is not standard", 0);
    claim(quartree_table(leaves, tree->rows, numbers, counted, many) == QUARTREE_ACCEPTED
              && memcmp(counted, tree->cells, many * sizeof *counted) == 0,
          name, "writes another table than is counted afresh", 0);
}

static void graft_on(const struct tree *tree, size_t on, struct tree *to)
{
    lend(tree, tree->leaves + 1);
    edge = on;
    take(graft(), to, tree->leaves + 1, "graft");
}

static void prune_off(const struct tree *tree, size_t off, struct tree *to)
{
    lend(tree, tree->leaves - 1);
    leaf = off;
    take(prune(), to, tree->leaves - 1, "prune");
}

/* A tree by chance, with its table. */
static void draw(struct tree *tree, size_t leaves)
{
    uint16_t open[128];
    size_t many = leaves - 1, numbers = QUARTREE_LISTING_NUMBERS(leaves);
    fill(leaves);
    for (size_t k = 0; k < many; k++)
        open[k] = (uint16_t)(k + 1);
    for (size_t row = 0; row < leaves - 2; row++) {
        for (size_t child = 0; child < 2; child++) {
            size_t k = any_number() % many;
            lent.listing[2 * row + child] = open[k];
            open[k] = open[--many];
        }
        open[many++] = (uint16_t)(leaves + row);
    }
    tree->leaves = leaves;
    claim(quartree_standardise(leaves, lent.listing, numbers, tree->rows, numbers) == QUARTREE_ACCEPTED
              && quartree_table(leaves, tree->rows, numbers, tree->cells, QUARTREE_TABLE_CELLS(leaves))
                     == QUARTREE_ACCEPTED,
          "table", "refuses a tree", 0);
}

static uint64_t pairs(const struct tree *tree, const uint16_t *of)
{
    uint64_t reply = quartree_pairing(tree->leaves, tree->rows, QUARTREE_LISTING_NUMBERS(tree->leaves), of, 4);
    claim(QUARTREE_NUMBER(reply) == (unsigned)QUARTREE_ACCEPTED, "pairing", "refuses four leaves", 0);
    return reply;
}

/* Four leaves that stay are paired as before, where leaf `gone`, if there is one, is taken away and higher ones move
   down: fifty times four by chance. */
static void keeps_pairings(const struct tree *tree, const struct tree *to, size_t gone, const char *name)
{
    if ((tree->leaves < to->leaves ? tree->leaves : to->leaves) < 4)
        return;
    for (int time = 0; time < 50; time++) {
        uint16_t of[4], now[4];
        for (size_t k = 0; k < 4;) {
            int again = 0;
            of[k] = (uint16_t)(any_number() % tree->leaves);
            for (size_t e = 0; e < k; e++)
                again |= of[e] == of[k];
            now[k] = (uint16_t)(of[k] > gone ? of[k] - 1 : of[k]);
            k += !again && of[k] != gone;
        }
        claim(pairs(tree, of) == pairs(to, now), name, "pairs four leaves otherwise", 0);
    }
}

/* The leaves under a number of a listing, a bit each. */
static void set_under(const struct tree *tree, size_t number, uint8_t *set)
{
    if (number < tree->leaves) {
        add_leaf(set, number);
        return;
    }
    set_under(tree, tree->rows[2 * (number - tree->leaves)], set);
    set_under(tree, tree->rows[2 * (number - tree->leaves) + 1], set);
}

/* Beside leaf n, in the grafted tree, are the leaves that were under the edge. */
static int stands_on(const struct tree *tree, size_t on, const struct tree *to)
{
    uint8_t under[QUARTREE_SET_BYTES] = {0}, beside[QUARTREE_SET_BYTES] = {0};
    size_t place = 1;
    while (to->rows[place] != tree->leaves)
        place += 2;
    set_under(tree, on, under);
    set_under(to, to->rows[place - 1], beside);
    return memcmp(under, beside, sizeof under) == 0;
}

/* Of large trees some edges and leaves are taken; the first and the last are. */
static int passed_over(size_t k, size_t first, size_t last)
{
    return last > 64 && k != first && k != last && any_number() % 16 != 0;
}

/* What the header says of grafts and prunes, of one tree: at every edge and every leaf. */
static void try_edges(const struct tree *tree)
{
    static uint16_t made[QUARTREE_EDGES(127)][QUARTREE_LISTING_NUMBERS(128)];
    static struct tree to, back;
    size_t many = 0, bytes = QUARTREE_LISTING_NUMBERS(tree->leaves + 1) * sizeof **made;
    for (size_t on = 1; on <= QUARTREE_EDGES(tree->leaves); on++) {
        if (passed_over(on, 1, QUARTREE_EDGES(tree->leaves)))
            continue;
        graft_on(tree, on, &to);
        claim(stands_on(tree, on, &to), "graft", "takes another edge", 0);
        keeps_pairings(tree, &to, tree->leaves, "graft");
        for (size_t other = 0; other < many; other++)
            claim(memcmp(made[other], to.rows, bytes) != 0, "graft", "makes one tree on two edges", 0);
        memcpy(made[many++], to.rows, bytes);
        prune_off(&to, tree->leaves, &back);
        claim(same(tree, &back), "prune", "does not give back what was grafted on", 0);
    }
}

static void try_leaves(const struct tree *tree)
{
    static struct tree to, again;
    size_t made = 0;
    for (size_t off = 0; off < tree->leaves; off++)
        if (!passed_over(off, 0, tree->leaves - 1)) {
            prune_off(tree, off, &to);
            keeps_pairings(tree, &to, off, "prune");
        }
    for (size_t on = 1; tree->leaves <= 16 && on <= QUARTREE_EDGES(to.leaves); on++) {
        graft_on(&to, on, &again);
        made += (size_t)same(tree, &again);
    }
    claim(tree->leaves > 16 || made == 1, "graft", "does not make a tree of what pruning its last leaf leaves", 0);
}

/* What looking comes to without a look: a copy is grafted, and its gaps from the new table are added up. */
static uint64_t total_by_graft(const struct tree *tree, size_t on)
{
    static struct tree to;
    graft_on(tree, on, &to);
    return total_of(quartree_gap(to.leaves, word, lent.new_table, new_cells, to.rows,
                                 QUARTREE_LISTING_NUMBERS(to.leaves), lent.out.gaps, new_cells),
                    to.leaves);
}

/* What the header says of looks, of one tree and the new table lent: at every edge. Told is the edge whose total is 0,
   or 0 where there is none. */
static size_t try_look(const struct tree *tree)
{
    static uint64_t all[QUARTREE_EDGES(127)];
    size_t exact = 0;
    lend(tree, tree->leaves);
    room = QUARTREE_EDGES(n);
    claim(look_all() == QUARTREE_ACCEPTED, "look_all", "is refused", 0);
    memcpy(all, lent.out.totals, QUARTREE_EDGES(n) * sizeof *all);
    for (size_t on = 1; on <= QUARTREE_EDGES(n); on++) {
        edge = on;
        claim(look() == 256 * all[on - 1] && all[on - 1] >> 45 == 0, "look_all", "tells another total", 0);
        claim(all[on - 1] != 0 || exact == 0, "look", "has a total of 0 on two edges", 0);
        if (all[on - 1] == 0)
            exact = on;
        if (!passed_over(on, 1, QUARTREE_EDGES(n)))
            claim(total_by_graft(tree, on) == all[on - 1], "look", "tells another total than a graft has", 0);
    }
    return exact;
}

/* A tree and a new table: that of the tree grafted on an edge, from which that edge alone has a total of 0; and what is
   made of it. */
static void try_looks(const struct tree *tree)
{
    static struct tree to;
    for (word = QUARTREE_COUNTS; word <= QUARTREE_POLL && goes_with(word, tree->leaves + 1); word++) {
        size_t right = 1 + any_number() % QUARTREE_EDGES(tree->leaves);
        graft_on(tree, right, &to);
        for (size_t place = 0; place < new_cells; place++)
            lent.new_table[place] = (word == QUARTREE_POLL ? 6 : 1) * to.cells[place];
        claim(try_look(tree) == right, "look", "has no total of 0 where the grafted tree has the table", 0);
        for (int kind = CHANGED; kind < KINDS; kind++) {
            change_cells(lent.new_table, to.leaves, kind);
            try_look(tree);
        }
    }
}

/* A look is refused where the graft is, with the same reply, but for 3: by every fault that a graft can have, and every
   two; of these some undo each other. One table may be lent as the table kept and as the new one. */
static void try_refused_looks(void)
{
    static const uint16_t three[] = {1, 2};
    static const uint32_t zeros[QUARTREE_TABLE_CELLS(4)] = {0};
    unsigned grafts = TREE | GROWN | EDGE;
    uint64_t reply;
    for (size_t f = 0; f < FAULTS; f++)
        for (size_t g = 0; g <= f; g++) {
            if ((faults[f].in & grafts) == 0 || (faults[g].in & grafts) == 0)
                continue;
            fill(5);
            word = QUARTREE_COUNTS;
            fill_new(0);
            room = QUARTREE_LISTING_NUMBERS(6);
            table_room = QUARTREE_TABLE_CELLS(6);
            faults[f].make();
            if (g != f)
                faults[g].make();
            reply = graft();
            if (reply == 256 * QUARTREE_GRAFTED)
                reply = QUARTREE_ACCEPTED;
            claim(look() == reply, "look", "is not refused as the graft is", QUARTREE_NUMBER(reply));
        }
    for (word = QUARTREE_COUNTS; word <= QUARTREE_POLL; word++)
        claim(look_at(3, word, three, 2, zeros, 9, 1, zeros, 16) == 256 * total_of_tree(4), "look",
              "does not take one table for two", 0);
}

/* Grafts from the least leaves to the most and prunes back, each handed what the one before it made. */
static void try_chain(void)
{
    static struct tree tree, to;
    draw(&tree, 3);
    for (; tree.leaves < 128; tree = to)
        graft_on(&tree, 1 + any_number() % QUARTREE_EDGES(tree.leaves), &to);
    lend(&tree, 128);
    edge = 1;
    claim(graft() == QUARTREE_REFUSED_LEAF_COUNT && look() == QUARTREE_REFUSED_LEAF_COUNT, "graft", "takes 128 leaves",
          1);
    for (; tree.leaves > 3; tree = to)
        prune_off(&tree, any_number() % tree.leaves, &to);
    lend(&tree, 3);
    leaf = 0;
    claim(prune() == QUARTREE_REFUSED_LEAF_COUNT, "prune", "takes 3 leaves", 1);
}

/* A tree that was guessed is changed and looked at with its own table, and not with the rough one. */
static void try_guessed(void)
{
    static struct tree tree, to;
    draw(&tree, 8);
    lend(&tree, 9);
    cells_off_by_1();
    word = QUARTREE_COUNTS;
    claim(QUARTREE_FIGURE_Y(guess()) == QUARTREE_GUESSED, "guess", "takes a rough table for a tree's", 0);
    memcpy(tree.rows, lent.out.numbers, listing_len * sizeof *tree.rows);
    memcpy(lent.listing, tree.rows, listing_len * sizeof *tree.rows);
    edge = leaf = 1;
    claim(graft() == QUARTREE_REFUSED_NOT_OWN && prune() == QUARTREE_REFUSED_NOT_OWN
              && look() == QUARTREE_REFUSED_NOT_OWN && look_all() == QUARTREE_REFUSED_NOT_OWN,
          "graft", "takes a rough table", 20);
    claim(quartree_table(n, tree.rows, listing_len, tree.cells, cells) == QUARTREE_ACCEPTED, "table",
          "refuses a guess", 0);
    graft_on(&tree, 1, &to);
    prune_off(&tree, 1, &to);
}

static void try_changes(void)
{
    static const size_t sizes[] = {3, 4, 5, 6, 7, 8, 9, 16, 31, 127, 128};
    static struct tree tree;
    for (size_t s = 0; s < sizeof sizes / sizeof *sizes; s++)
        for (int time = 0; time < (sizes[s] < 16 ? 3 : 1); time++) {
            draw(&tree, sizes[s]);
            if (tree.leaves < 128) {
                try_edges(&tree);
                try_looks(&tree);
            }
            if (tree.leaves > 3)
                try_leaves(&tree);
        }
    try_refused_looks();
    try_chain();
    try_guessed();
}

/* ---- Leaf sets --------------------------------------------------------------------------------------------------- */

enum { FILLED = 0xA5, WIDE = 65536 + QUARTREE_SET_BYTES };

/* The calls, of exactly these types. */
static const struct {
    const char *name;
    uint64_t (*call)(const uint8_t *, size_t, const uint8_t *, size_t, uint8_t *, size_t);
} makes_set[] = {{"set_join", quartree_set_join}, {"set_intersect", quartree_set_intersect}};
static uint64_t (*const compare)(const uint8_t *, size_t, const uint8_t *, size_t) = quartree_set_equal;

static int same_set(const uint8_t *a, const uint8_t *b)
{
    uint64_t reply = compare(a, QUARTREE_SET_BYTES, b, QUARTREE_SET_BYTES);
    claim(reply == 0 || reply == 256, "set_equal", "has another reply", 0);
    return reply != 0;
}

/* The calls with two sets: what is written is due bit by bit, at every address in turns, and nothing beside it is
   written; and the sets are equal where their bytes are. */
static void try_pair(const uint8_t *a, const uint8_t *b)
{
    static size_t at;
    uint8_t due[2][QUARTREE_SET_BYTES], out[3 * QUARTREE_SET_BYTES], all[sizeof out];
    fill_due(a, b, due[0], due[1]);
    for (size_t m = 0; m < 2; m++) {
        at = (at + 1) % QUARTREE_SET_BYTES;
        memset(out, FILLED, sizeof out);
        memset(all, FILLED, sizeof all);
        memcpy(all + at, due[m], QUARTREE_SET_BYTES);
        claim(makes_set[m].call(a, QUARTREE_SET_BYTES, b, QUARTREE_SET_BYTES, out + at, sizeof out - at)
                  == QUARTREE_ACCEPTED,
              makes_set[m].name, "is refused", 0);
        claim(memcmp(out, all, sizeof out) == 0, makes_set[m].name, "writes something else", 0);
    }
    claim(same_set(a, b) == (memcmp(a, b, QUARTREE_SET_BYTES) == 0), "set_equal", "has another figure", 0);
}

/* Takes a leaf from a set, or adds it. */
static void turn_leaf(uint8_t *set, size_t k) { set[k / 8] ^= (uint8_t)(1u << k % 8); }

/* Every two sets of one bit, and every two that lack one; sets beside themselves with one bit turned, in either order;
   and sets by chance at every address, overlapping and one and the same among them. */
static void try_pairs(void)
{
    uint8_t a[QUARTREE_SET_BYTES], b[QUARTREE_SET_BYTES], bytes[4 * QUARTREE_SET_BYTES];
    for (int byte = 0; byte <= 0xFF; byte += 0xFF) {
        memset(a, byte, sizeof a);
        memset(b, byte, sizeof b);
        for (size_t i = 0; i < SET_BITS; i++) {
            turn_leaf(a, i);
            try_pair(a, b);
            try_pair(b, a);
            for (size_t j = 0; j < SET_BITS; j++) {
                turn_leaf(b, j);
                try_pair(a, b);
                turn_leaf(b, j);
            }
            turn_leaf(a, i);
        }
    }
    for (size_t k = 0; k < sizeof bytes; k++)
        bytes[k] = (uint8_t)any_number();
    for (size_t i = 0; i <= sizeof bytes - sizeof a; i++) {
        memcpy(a, bytes + i, sizeof a);
        try_pair(a, bytes + i);
        for (size_t k = 0; k < SET_BITS; k++) {
            turn_leaf(a, k);
            try_pair(a, bytes + i);
            try_pair(bytes + i, a);
            turn_leaf(a, k);
        }
        for (size_t j = 0; j <= sizeof bytes - sizeof b; j++)
            try_pair(bytes + i, bytes + j);
    }
}

/* Inputs of other lengths and every room, and what is left then in a wide output. */
static void try_lengths(void)
{
    static const size_t sizes[] = {0, 1, 8, 15, 16, 17, 24, 32, 128, 256, 256 + 16, 65536, 65536 + 16};
    enum { SIZES = sizeof sizes / sizeof *sizes };
    static uint8_t a[WIDE], b[WIDE], out[WIDE], due[WIDE];
    memset(a, 0x0F, sizeof a);
    memset(b, 0x33, sizeof b);
    for (size_t s = 0; s < SIZES * SIZES * SIZES; s++) {
        size_t first = sizes[s % SIZES], second = sizes[s / SIZES % SIZES], lent_room = sizes[s / SIZES / SIZES];
        unsigned number = first != 16 || second != 16 ? 2 : lent_room < 16 ? 3 : 0;
        claim(compare(a, first, b, second) == (number == 2 ? 2 : 0), "set_equal", "has another reply", number);
        for (size_t m = 0; m < 2; m++) {
            memset(out, FILLED, lent_room);
            memset(due, FILLED, lent_room);
            if (number == 0)
                memset(due, m == 0 ? 0x3F : 0x03, 16);
            claim(makes_set[m].call(a, first, b, second, out, lent_room) == number, makes_set[m].name,
                  "has another reply", number);
            claim(memcmp(out, due, lent_room) == 0, makes_set[m].name, "leaves something else", number);
        }
    }
}

/* Of a tree by chance: the sets of a node's children, joined, are its split, and no leaf is in both; different nodes
   have different splits, and of two splits one is in the other, or no leaf is in both. */
static void try_tree(size_t leaves)
{
    static const uint8_t empty[QUARTREE_SET_BYTES] = {0};
    static struct tree tree;
    static uint8_t sets[QUARTREE_EDGES(128) + 1][QUARTREE_SET_BYTES], listed[QUARTREE_SPLIT_BYTES(128)];
    uint8_t of[2][QUARTREE_SET_BYTES];
    draw(&tree, leaves);
    claim(quartree_splits(leaves, tree.rows, QUARTREE_LISTING_NUMBERS(leaves), listed, sizeof listed)
              == QUARTREE_ACCEPTED,
          "splits", "refuses a tree", 0);
    memset(sets, 0, sizeof sets);
    for (size_t k = 1; k < leaves; k++)
        add_leaf(sets[k], k);
    for (size_t row = 0; row < leaves - 3; row++)
        memcpy(sets[leaves + row], listed + QUARTREE_SET_BYTES * row, QUARTREE_SET_BYTES);
    for (size_t row = 0; row < leaves - 3; row++) {
        const uint8_t *first = sets[tree.rows[2 * row]], *second = sets[tree.rows[2 * row + 1]];
        for (size_t m = 0; m < 2; m++)
            claim(makes_set[m].call(first, QUARTREE_SET_BYTES, second, QUARTREE_SET_BYTES, of[m], QUARTREE_SET_BYTES)
                      == QUARTREE_ACCEPTED,
                  makes_set[m].name, "is refused", 0);
        claim(same_set(of[0], sets[leaves + row]), "set_join", "makes another split of two children's", 0);
        claim(same_set(of[1], empty), "set_intersect", "finds a leaf under two children", 0);
        for (size_t other = 0; other < row; other++) {
            first = sets[leaves + row];
            second = sets[leaves + other];
            try_pair(first, second);
            claim(!same_set(first, second), "set_equal", "takes two splits for one", 0);
            claim(quartree_set_intersect(first, QUARTREE_SET_BYTES, second, QUARTREE_SET_BYTES, of[1],
                                         QUARTREE_SET_BYTES) == QUARTREE_ACCEPTED,
                  "set_intersect", "is refused", 0);
            claim(same_set(of[1], empty) || same_set(of[1], first) || same_set(of[1], second), "set_intersect",
                  "has splits of one tree that do not fit together", 0);
        }
    }
}

static void try_sets(void)
{
    static const size_t sizes[] = {3, 4, 5, 8, 9, 16, 63, 64, 65, 66, 127, 128};
    try_pairs();
    try_lengths();
    for (size_t s = 0; s < sizeof sizes / sizeof *sizes; s++)
        try_tree(sizes[s]);
}

/* What each code adds to the cells (0,1), (0,2), (0,3), (1,2), (1,3) and (2,3) of four leaves; and the total of a poll
   with every code. */
static void try_codes(void)
{
    static const uint32_t added[7][6] = {{6, 0, 0, 0, 0, 6}, {0, 6, 0, 0, 6, 0}, {0, 0, 6, 6, 0, 0},
                                         {2, 2, 2, 2, 2, 2}, {3, 3, 0, 0, 3, 3}, {3, 0, 3, 3, 0, 3},
                                         {0, 3, 3, 3, 3, 0}};
    uint32_t total = 0;
    for (unsigned code = 0; code < 7; code++) {
        size_t place = 0;
        fill(4);
        room = cells;
        lent.records[0].code = (uint8_t)code;
        claim(poll() == QUARTREE_ACCEPTED, "poll", "refuses a code", 0);
        for (size_t i = 0; i < n; i++)
            for (size_t j = i + 1; j < n; j++, place++) {
                claim(lent.out.cells[n * i + j] == added[code][place], "poll", "adds something else", 0);
                claim(lent.out.cells[n * j + i] == added[code][place], "poll", "adds something else", 0);
            }
    }
    fill(32);
    room = cells;
    for (size_t record = 0; record < count; record++)
        lent.records[record].code = (uint8_t)(record % 7);
    claim(poll() == QUARTREE_ACCEPTED, "poll", "refuses a code", 0);
    for (size_t i = 0; i < n; i++)
        for (size_t j = i + 1; j < n; j++)
            total += lent.out.cells[n * i + j];
    claim(total == 12 * count, "poll", "has another total", 0);
    fill(4);
    room = cells;
    lent.records[0].code = 255;
    claim(poll() == QUARTREE_REFUSED_PAIRING_CODE, "poll", "takes code 255", 11);
}

/* A record keeps its origin, and every number above 4 is taken as listed. */
static void try_origins(void)
{
    static const uint32_t said[] = {0, 1, 2, 3, 4, 5, 6, 7, 8, 255, 256, 257, 258, 65536, 1u << 31, UINT32_MAX};
    for (size_t s = 0; s < sizeof said / sizeof *said; s++) {
        fill(5);
        room = listing_len;
        origin = said[s];
        claim(restandardise() == 256 * (said[s] < ORIGINS ? (uint64_t)said[s] : 1), "restandardise",
              "tells another origin", 0);
    }
}

/* Restandardises what the last call wrote, a tree of five leaves, with each row's children exchanged; twice. */
static uint64_t restandardise_twice(uint32_t marked)
{
    uint64_t reply = 0;
    room = listing_len;
    origin = marked;
    for (int time = 0; time < 2; time++) {
        for (size_t place = 0; place < listing_len; place++)
            lent.listing[place] = lent.out.numbers[place ^ 1];
        reply = restandardise();
        origin = (uint32_t)QUARTREE_FIGURE(reply);
    }
    return reply;
}

/* Has the tree that the last call wrote the table lent, by the word for it? */
static int has_table(void)
{
    memcpy(lent.listing, lent.out.numbers, listing_len * sizeof *lent.listing);
    room = cells;
    return gap() == QUARTREE_ACCEPTED && memcmp(lent.out.gaps, gaps, cells * sizeof *gaps) == 0;
}

/* A record that is marked rebuilt has the table that the rebuild was given, also when it was restandardised: by either
   rebuild, of counts and of a poll's table. A listing that was checked stays listed, what was imported imported, and
   what was guessed guessed; the whole figure of a guess is no origin. */
static void try_records(void)
{
    static uint64_t (*const rebuilds[])(void) = {rebuild, guided};
    for (uint32_t is_poll = 0; is_poll < 2; is_poll++)
        for (size_t r = 0; r < 2; r++) {
            uint64_t reply;
            fill(5);
            room = listing_len;
            word = is_poll;
            memcpy(lent.table, is_poll != 0 ? sixths : table, cells * sizeof *table);
            reply = rebuilds[r]();
            claim(reply == 256 * QUARTREE_REBUILT, "rebuild", "tells another origin", 0);
            claim(restandardise_twice((uint32_t)QUARTREE_FIGURE(reply)) == 256 * QUARTREE_REBUILT && has_table(),
                  "restandardise", "makes another record of one that is rebuilt", 0);
        }
    fill(5);
    claim(check() == QUARTREE_ACCEPTED, "check", "refuses a listing", 0);
    memcpy(lent.out.numbers, lent.listing, listing_len * sizeof *lent.listing);
    claim(restandardise_twice(QUARTREE_LISTED) == 256 * QUARTREE_LISTED, "restandardise", "has another origin", 0);
    fill(5);
    room = listing_len;
    word = QUARTREE_COUNTS;
    table_of_zeros();
    origin = (uint32_t)QUARTREE_FIGURE_Y(guess());
    claim(restandardise_twice(origin) == 256 * QUARTREE_GUESSED, "restandardise", "has another origin", 0);
    claim(restandardise_twice((uint32_t)QUARTREE_FIGURE(guess())) == 256 * QUARTREE_LISTED, "restandardise",
          "takes a total gap for an origin", 0);
    fill(5);
    room = listing_len;
    claim(import_text() == 256 * QUARTREE_IMPORTED && restandardise_twice(QUARTREE_IMPORTED) == 256 * QUARTREE_IMPORTED,
          "import", "tells another origin", 0);
}

/* Each number has a text of its own, and numbers of no refusal have another; so it is with origins. */
static void try_texts(void)
{
    const char *none = quartree_refusal_text(REFUSALS + 1);
    for (unsigned number = 0; number <= REFUSALS; number++)
        for (unsigned other = 0; other <= REFUSALS; other++)
            claim((strstr(quartree_refusal_text(other), words[number]) != NULL) == (number == other), "refusal_text",
                  "has another text", number);
    for (unsigned number = 0; number <= REFUSALS; number++)
        claim(strcmp(none, quartree_refusal_text(number)) != 0, "refusal_text", "has the text of no refusal", number);
    claim(none[0] != '\0' && strcmp(none, quartree_refusal_text(255)) == 0
              && strcmp(none, quartree_refusal_text((unsigned)-1)) == 0,
          "refusal_text", "has no text for other numbers", 0);
    none = quartree_origin_text(ORIGINS);
    for (uint32_t number = 0; number < ORIGINS; number++) {
        const char *due = origin_words[number];
        claim(strcmp(quartree_origin_text(number), due) == 0, "origin_text", "has another text", 0);
        claim(strcmp(none, due) != 0, "origin_text", "has the text of no origin", 0);
    }
    claim(none[0] != '\0' && strcmp(none, quartree_origin_text(256)) == 0
              && strcmp(none, quartree_origin_text(UINT32_MAX)) == 0,
          "origin_text", "has no text for other numbers", 0);
}

/* The version is made of its parts, and is the archive's. */
static void try_version(void)
{
    char due[40];
    snprintf(due, sizeof due, "%d.%d.%d", QUARTREE_VERSION_MAJOR, QUARTREE_VERSION_MINOR, QUARTREE_VERSION_PATCH);
    claim(strcmp(QUARTREE_VERSION, due) == 0, "*", "the header's version is not that of its parts", 0);
    claim(quartree_version() == QUARTREE_VERSION_NUMBER, "version", "is not the header's", 0);
}

int main(void)
{
    unsigned met = 0;
    fill(5);
    claim(sheet_len == sizeof five_strains && memcmp(lent.sheet, five_strains, sheet_len) == 0
              && memcmp(standard, five_standard, sizeof five_standard) == 0,
          "rebuild_sheet", "the sheet is not the scope's", 0);
    claim(text_len == strlen(five_text) && memcmp(text, five_text, text_len) == 0, "export",
          "the text is not the scope's", 0);
    for (size_t e = 0; e < ENTRIES; e++) {
        try_sizes(&entries[e], entries[e].least);
        try_sizes(&entries[e], 5);
        try_sizes(&entries[e], entries[e].most);
        met |= try_faults(&entries[e]);
    }
    for (unsigned number = 1; number <= REFUSALS; number++)
        claim((met >> number & 1) != 0, "*", "no call is refused", number);
    try_gaps();
    try_words();
    try_rough();
    try_tables();
    try_changes();
    try_sets();
    try_codes();
    try_origins();
    try_records();
    try_texts();
    try_version();
    printf("header: %u calls, every refusal met\n", calls);
    return 0;
}
