/* Wrong C entries, each around the archive's own, which stands here under the name real_.... FAULT chooses one; the
   comment over it names the wrong program. reference/entry_faults builds them and demands that each is found. */
#include "quartree.h"
#include <string.h>

#define NUMBER(reply) QUARTREE_NUMBER(reply)

uint64_t real_check(size_t n, const uint16_t *listing, size_t len);
uint64_t real_standardise(size_t n, const uint16_t *listing, size_t len, uint16_t *out, size_t room);
uint64_t real_restandardise(size_t n, uint32_t origin, const uint16_t *listing, size_t len, uint16_t *out, size_t room);
uint64_t real_splits(size_t n, const uint16_t *listing, size_t len, uint8_t *out, size_t room);
uint64_t real_pairing(size_t n, const uint16_t *listing, size_t len, const uint16_t *question, size_t question_len);
uint64_t real_table(size_t n, const uint16_t *listing, size_t len, uint32_t *out, size_t room);
uint64_t real_gap(size_t n, uint32_t poll, const uint32_t *table, size_t cells, const uint16_t *listing, size_t len,
                  int64_t *out, size_t room);
uint64_t real_rebuild(size_t n, uint32_t poll, const uint32_t *table, size_t cells, uint16_t *out, size_t room);
uint64_t real_rebuild_guided(size_t n, uint32_t poll, const uint32_t *table, size_t cells, const uint16_t *merges,
                             size_t len, uint16_t *out, size_t room);
uint64_t real_guess(size_t n, uint32_t poll, const uint32_t *table, size_t cells, uint16_t *out, size_t room);
uint64_t real_poll(size_t n, const struct quartree_record *records, size_t count, uint32_t *out, size_t room);
uint64_t real_check_sheet(const uint8_t *sheet, size_t len);
uint64_t real_sheet_table(const uint8_t *sheet, size_t len, uint32_t *out, size_t room);
uint64_t real_sheet_name(const uint8_t *sheet, size_t len, size_t leaf);
uint32_t real_rebuild_sheet(const uint8_t *sheet, size_t sheet_len, uint8_t *listing, size_t listing_len);
uint64_t real_export(const uint8_t *sheet, size_t sheet_len, const uint16_t *listing, size_t len, uint8_t *text,
                     size_t room);
uint64_t real_import(const uint8_t *sheet, size_t sheet_len, const uint8_t *text, size_t text_len, uint16_t *out,
                     size_t room);

/* An entry that changes a tree kept with its table. */
#define CHANGE(entry, named) \
    uint64_t entry(size_t n, const uint16_t *listing, size_t len, const uint32_t *table, size_t cells, size_t named, \
                   uint16_t *out, size_t room, uint32_t *out_table, size_t table_room)

CHANGE(real_graft, edge);
CHANGE(real_prune, leaf);

/* An entry that makes a set of two, and one that compares two. */
#define SET_OF_TWO(entry) \
    uint64_t entry(const uint8_t *a, size_t a_len, const uint8_t *b, size_t b_len, uint8_t *out, size_t room)
#define SET_TEST(entry) uint64_t entry(const uint8_t *a, size_t a_len, const uint8_t *b, size_t b_len)

SET_OF_TWO(real_set_join);
SET_OF_TWO(real_set_intersect);
SET_TEST(real_set_equal);

/* An entry that looks at an edge before grafting, and one that looks at all. */
#define LOOK(entry) \
    uint64_t entry(size_t n, uint32_t poll, const uint16_t *listing, size_t len, const uint32_t *table, size_t cells, \
                   size_t edge, const uint32_t *new_table, size_t new_cells)
#define LOOK_ALL(entry) \
    uint64_t entry(size_t n, uint32_t poll, const uint16_t *listing, size_t len, const uint32_t *table, size_t cells, \
                   const uint32_t *new_table, size_t new_cells, uint64_t *totals, size_t room)

LOOK(real_look);
LOOK_ALL(real_look_all);

#if FAULT == 1 /* check: the position counted from 1 */
uint64_t quartree_check(size_t n, const uint16_t *listing, size_t len)
{
    uint64_t reply = real_check(n, listing, len);
    return NUMBER(reply) == QUARTREE_REFUSED_NAMED_BEFORE ? reply + 256 : reply;
}

#elif FAULT == 2 /* check: the leaf count in 32 bits */
uint64_t quartree_check(size_t n, const uint16_t *listing, size_t len)
{
    return real_check((uint32_t)n, listing, len);
}

#elif FAULT == 3 /* standardise: the last row's children exchanged */
uint64_t quartree_standardise(size_t n, const uint16_t *listing, size_t len, uint16_t *out, size_t room)
{
    uint64_t reply = real_standardise(n, listing, len, out, room);
    if (NUMBER(reply) == QUARTREE_ACCEPTED) {
        uint16_t first = out[len - 2];
        out[len - 2] = out[len - 1];
        out[len - 1] = first;
    }
    return reply;
}

#elif FAULT == 4 /* standardise: the room judged as an input, which has to be exact */
uint64_t quartree_standardise(size_t n, const uint16_t *listing, size_t len, uint16_t *out, size_t room)
{
    return real_standardise(n, listing, len, out, room > len ? 0 : room);
}

#elif FAULT == 5 /* splits: the byte behind the result cleared */
uint64_t quartree_splits(size_t n, const uint16_t *listing, size_t len, uint8_t *out, size_t room)
{
    uint64_t reply = real_splits(n, listing, len, out, room);
    if (NUMBER(reply) == QUARTREE_ACCEPTED && room > QUARTREE_SPLIT_BYTES(n))
        out[QUARTREE_SPLIT_BYTES(n)] = 0;
    return reply;
}

#elif FAULT == 6 /* splits: leaf 127 forgotten */
uint64_t quartree_splits(size_t n, const uint16_t *listing, size_t len, uint8_t *out, size_t room)
{
    uint64_t reply = real_splits(n, listing, len, out, room);
    if (NUMBER(reply) == QUARTREE_ACCEPTED)
        for (size_t at = 15; at < QUARTREE_SPLIT_BYTES(n); at += 16)
            out[at] &= 0x7F;
    return reply;
}

#elif FAULT == 7 /* pairing: the answer in the number's place */
uint64_t quartree_pairing(size_t n, const uint16_t *listing, size_t len, const uint16_t *question, size_t question_len)
{
    uint64_t reply = real_pairing(n, listing, len, question, question_len);
    return NUMBER(reply) == QUARTREE_ACCEPTED ? QUARTREE_FIGURE(reply) : reply;
}

#elif FAULT == 8 /* pairing: the question sorted in the caller's buffer */
uint64_t quartree_pairing(size_t n, const uint16_t *listing, size_t len, const uint16_t *question, size_t question_len)
{
    uint64_t reply = real_pairing(n, listing, len, question, question_len);
    if (question_len == 4 && question[0] > question[1]) {
        uint16_t *lent = (uint16_t *)(uintptr_t)question, first = lent[0];
        lent[0] = lent[1];
        lent[1] = first;
    }
    return reply;
}

#elif FAULT == 9 /* table: the first cell cleared before the judgement */
uint64_t quartree_table(size_t n, const uint16_t *listing, size_t len, uint32_t *out, size_t room)
{
    if (room > 0)
        out[0] = 0;
    return real_table(n, listing, len, out, room);
}

#elif FAULT == 10 /* table: the last cell of the largest table off by one */
uint64_t quartree_table(size_t n, const uint16_t *listing, size_t len, uint32_t *out, size_t room)
{
    uint64_t reply = real_table(n, listing, len, out, room);
    if (NUMBER(reply) == QUARTREE_ACCEPTED && n == QUARTREE_MOST_LEAVES)
        out[QUARTREE_TABLE_CELLS(n) - 2]++;
    return reply;
}

#elif FAULT == 11 /* gap: in 32 bits */
uint64_t quartree_gap(size_t n, uint32_t poll, const uint32_t *table, size_t cells, const uint16_t *listing, size_t len,
                      int64_t *out, size_t room)
{
    uint64_t reply = real_gap(n, poll, table, cells, listing, len, out, room);
    if (NUMBER(reply) == QUARTREE_ACCEPTED)
        for (size_t cell = 0; cell < cells; cell++)
            out[cell] = (int32_t)out[cell];
    return reply;
}

#elif FAULT == 12 /* gap: the pair of unequal halves told as j, i */
uint64_t quartree_gap(size_t n, uint32_t poll, const uint32_t *table, size_t cells, const uint16_t *listing, size_t len,
                      int64_t *out, size_t room)
{
    uint64_t reply = real_gap(n, poll, table, cells, listing, len, out, room);
    uint64_t turned = QUARTREE_FIGURE_Y(reply) << 16 | QUARTREE_FIGURE_X(reply) << 8 | NUMBER(reply);
    return NUMBER(reply) == QUARTREE_REFUSED_HALVES ? turned : reply;
}

#elif FAULT == 13 /* rebuild: how many cells are lent, told at 6 */
uint64_t quartree_rebuild(size_t n, uint32_t poll, const uint32_t *table, size_t cells, uint16_t *out, size_t room)
{
    uint64_t reply = real_rebuild(n, poll, table, cells, out, room);
    return NUMBER(reply) == QUARTREE_REFUSED_NO_TREE ? reply | (uint64_t)cells << 8 : reply;
}

#elif FAULT == 14 /* rebuild: no listing where there is room for more */
uint64_t quartree_rebuild(size_t n, uint32_t poll, const uint32_t *table, size_t cells, uint16_t *out, size_t room)
{
    uint16_t spare[QUARTREE_LISTING_NUMBERS(QUARTREE_MOST_LEAVES)];
    size_t most = sizeof spare / sizeof spare[0];
    return n <= QUARTREE_MOST_LEAVES && n >= 3 && room > QUARTREE_LISTING_NUMBERS(n)
               ? real_rebuild(n, poll, table, cells, spare, room < most ? room : most)
               : real_rebuild(n, poll, table, cells, out, room);
}

#elif FAULT == 15 /* guided: refused always at step 0 */
uint64_t quartree_rebuild_guided(size_t n, uint32_t poll, const uint32_t *table, size_t cells, const uint16_t *merges,
                                 size_t len, uint16_t *out, size_t room)
{
    uint64_t reply = real_rebuild_guided(n, poll, table, cells, merges, len, out, room);
    return NUMBER(reply) == QUARTREE_REFUSED_PROPOSAL ? QUARTREE_REFUSED_PROPOSAL : reply;
}

#elif FAULT == 16 /* guided: our own merges in the place of the proposed */
uint64_t quartree_rebuild_guided(size_t n, uint32_t poll, const uint32_t *table, size_t cells, const uint16_t *merges,
                                 size_t len, uint16_t *out, size_t room)
{
    uint64_t reply = real_rebuild_guided(n, poll, table, cells, merges, len, out, room);
    return NUMBER(reply) == QUARTREE_REFUSED_PROPOSAL ? real_rebuild(n, poll, table, cells, out, room) : reply;
}

#elif FAULT == 17 /* poll: the record in 15 bits */
uint64_t quartree_poll(size_t n, const struct quartree_record *records, size_t count, uint32_t *out, size_t room)
{
    return real_poll(n, records, count, out, room) & 0x7FFFFF;
}

#elif FAULT == 18 /* poll: the last cell's mirror forgotten */
uint64_t quartree_poll(size_t n, const struct quartree_record *records, size_t count, uint32_t *out, size_t room)
{
    uint64_t reply = real_poll(n, records, count, out, room);
    if (NUMBER(reply) == QUARTREE_ACCEPTED)
        out[QUARTREE_TABLE_CELLS(n) - 2] = 0;
    return reply;
}

#elif FAULT == 19 /* sheet_table: the leaf count not told */
uint64_t quartree_sheet_table(const uint8_t *sheet, size_t len, uint32_t *out, size_t room)
{
    return NUMBER(real_sheet_table(sheet, len, out, room));
}

#elif FAULT == 20 /* sheet_table: the length in 16 bits */
uint64_t quartree_sheet_table(const uint8_t *sheet, size_t len, uint32_t *out, size_t room)
{
    return real_sheet_table(sheet, (uint16_t)len, out, room);
}

#elif FAULT == 21 /* sheet_name: the length byte shown with the name */
uint64_t quartree_sheet_name(const uint8_t *sheet, size_t len, size_t leaf)
{
    uint64_t reply = real_sheet_name(sheet, len, leaf);
    return NUMBER(reply) == QUARTREE_ACCEPTED ? reply - (1 << 16) + (1 << 8) : reply;
}

#elif FAULT == 22 /* sheet_name: leaf n refused as a name */
uint64_t quartree_sheet_name(const uint8_t *sheet, size_t len, size_t leaf)
{
    uint64_t reply = real_sheet_name(sheet, len, leaf);
    return NUMBER(reply) == QUARTREE_REFUSED_QUESTION ? QUARTREE_REFUSED_NAME | (uint64_t)leaf << 8 : reply;
}

#elif FAULT == 23 /* rebuild_sheet: no tree told as accepted */
uint32_t quartree_rebuild_sheet(const uint8_t *sheet, size_t sheet_len, uint8_t *listing, size_t listing_len)
{
    uint32_t number = real_rebuild_sheet(sheet, sheet_len, listing, listing_len);
    return number == QUARTREE_REFUSED_NO_TREE ? QUARTREE_ACCEPTED : number;
}

#elif FAULT == 24 /* rebuild_sheet: high byte first */
uint32_t quartree_rebuild_sheet(const uint8_t *sheet, size_t sheet_len, uint8_t *listing, size_t listing_len)
{
    uint32_t number = real_rebuild_sheet(sheet, sheet_len, listing, listing_len);
    size_t n = number == QUARTREE_ACCEPTED ? sheet[sheet_len - 8] : 2;
    for (size_t at = 0; at < QUARTREE_LISTING_BYTES(n); at += 2) {
        uint8_t low = listing[at];
        listing[at] = listing[at + 1];
        listing[at + 1] = low;
    }
    return number;
}

#elif FAULT == 25 /* check: the length in 16 bits */
uint64_t quartree_check(size_t n, const uint16_t *listing, size_t len)
{
    return real_check(n, listing, (uint16_t)len);
}

#elif FAULT == 26 /* rebuild: the room in 16 bits */
uint64_t quartree_rebuild(size_t n, uint32_t poll, const uint32_t *table, size_t cells, uint16_t *out, size_t room)
{
    return real_rebuild(n, poll, table, cells, out, (uint16_t)room);
}

#elif FAULT == 27 /* check_sheet: the leaf count not told */
uint64_t quartree_check_sheet(const uint8_t *sheet, size_t len)
{
    uint64_t reply = real_check_sheet(sheet, len);
    return NUMBER(reply) == QUARTREE_ACCEPTED ? QUARTREE_ACCEPTED : reply;
}

#elif FAULT == 28 /* check_sheet: equal names let pass */
uint64_t quartree_check_sheet(const uint8_t *sheet, size_t len)
{
    uint64_t reply = real_check_sheet(sheet, len);
    return NUMBER(reply) == QUARTREE_REFUSED_SAME_NAME ? (uint64_t)sheet[len - 8] << 8 : reply;
}

#elif FAULT == 29 /* export: the length of the text not told */
uint64_t quartree_export(const uint8_t *sheet, size_t sheet_len, const uint16_t *listing, size_t len, uint8_t *text,
                         size_t room)
{
    uint64_t reply = real_export(sheet, sheet_len, listing, len, text, room);
    return NUMBER(reply) == QUARTREE_ACCEPTED ? QUARTREE_ACCEPTED : reply;
}

#elif FAULT == 30 /* export: a 0 byte behind the text */
uint64_t quartree_export(const uint8_t *sheet, size_t sheet_len, const uint16_t *listing, size_t len, uint8_t *text,
                         size_t room)
{
    uint64_t reply = real_export(sheet, sheet_len, listing, len, text, room);
    if (NUMBER(reply) == QUARTREE_ACCEPTED && QUARTREE_FIGURE(reply) < room)
        text[QUARTREE_FIGURE(reply)] = 0;
    return reply;
}

#elif FAULT == 31 /* export: a blank for the semicolon */
uint64_t quartree_export(const uint8_t *sheet, size_t sheet_len, const uint16_t *listing, size_t len, uint8_t *text,
                         size_t room)
{
    uint64_t reply = real_export(sheet, sheet_len, listing, len, text, room);
    if (NUMBER(reply) == QUARTREE_ACCEPTED)
        text[QUARTREE_FIGURE(reply) - 1] = ' ';
    return reply;
}

#elif FAULT == 32 /* export: the room in 16 bits */
uint64_t quartree_export(const uint8_t *sheet, size_t sheet_len, const uint16_t *listing, size_t len, uint8_t *text,
                         size_t room)
{
    return real_export(sheet, sheet_len, listing, len, text, (uint16_t)room);
}

#elif FAULT == 33 /* export: the length of the listing in 16 bits */
uint64_t quartree_export(const uint8_t *sheet, size_t sheet_len, const uint16_t *listing, size_t len, uint8_t *text,
                         size_t room)
{
    return real_export(sheet, sheet_len, listing, (uint16_t)len, text, room);
}

#elif FAULT == 34 /* export: a short output before the rest */
uint64_t quartree_export(const uint8_t *sheet, size_t sheet_len, const uint16_t *listing, size_t len, uint8_t *text,
                         size_t room)
{
    return room < 8 ? QUARTREE_REFUSED_OUTPUT_ROOM : real_export(sheet, sheet_len, listing, len, text, room);
}

#elif FAULT == 35 /* import: the offset counted from 1 */
uint64_t quartree_import(const uint8_t *sheet, size_t sheet_len, const uint8_t *text, size_t text_len, uint16_t *out,
                         size_t room)
{
    uint64_t reply = real_import(sheet, sheet_len, text, text_len, out, room);
    return NUMBER(reply) == QUARTREE_REFUSED_GRAMMAR ? reply + 256 : reply;
}

#elif FAULT == 36 /* import: the offset in 16 bits */
uint64_t quartree_import(const uint8_t *sheet, size_t sheet_len, const uint8_t *text, size_t text_len, uint16_t *out,
                         size_t room)
{
    uint64_t reply = real_import(sheet, sheet_len, text, text_len, out, room);
    return NUMBER(reply) == QUARTREE_REFUSED_GRAMMAR ? reply & 0xFFFFFF : reply;
}

#elif FAULT == 37 /* import: the text ends at a 0 byte */
uint64_t quartree_import(const uint8_t *sheet, size_t sheet_len, const uint8_t *text, size_t text_len, uint16_t *out,
                         size_t room)
{
    size_t end = 0;
    while (end < text_len && text[end] != 0)
        end++;
    return real_import(sheet, sheet_len, text, end, out, room);
}

#elif FAULT == 38 /* import: the length of the text in 16 bits */
uint64_t quartree_import(const uint8_t *sheet, size_t sheet_len, const uint8_t *text, size_t text_len, uint16_t *out,
                         size_t room)
{
    return real_import(sheet, sheet_len, text, (uint16_t)text_len, out, room);
}

#elif FAULT == 39 /* import: a blank at the end of the text refused */
uint64_t quartree_import(const uint8_t *sheet, size_t sheet_len, const uint8_t *text, size_t text_len, uint16_t *out,
                         size_t room)
{
    uint64_t reply = real_import(sheet, sheet_len, text, text_len, out, room);
    int blank = NUMBER(reply) == QUARTREE_ACCEPTED && text[text_len - 1] != ';';
    return blank ? QUARTREE_REFUSED_GRAMMAR + 256 * (uint64_t)(text_len - 1) : reply;
}

#elif FAULT == 40 /* import: 18 told as 19 */
uint64_t quartree_import(const uint8_t *sheet, size_t sheet_len, const uint8_t *text, size_t text_len, uint16_t *out,
                         size_t room)
{
    uint64_t reply = real_import(sheet, sheet_len, text, text_len, out, room);
    return reply == QUARTREE_REFUSED_NOT_BINARY ? QUARTREE_REFUSED_UNMATCHED : reply;
}

#elif FAULT == 41 /* import: other names let pass */
uint64_t quartree_import(const uint8_t *sheet, size_t sheet_len, const uint8_t *text, size_t text_len, uint16_t *out,
                         size_t room)
{
    uint64_t reply = real_import(sheet, sheet_len, text, text_len, out, room);
    return reply == QUARTREE_REFUSED_UNMATCHED ? QUARTREE_ACCEPTED : reply;
}

#elif FAULT == 42 /* import: writes the output although the text is broken */
uint64_t quartree_import(const uint8_t *sheet, size_t sheet_len, const uint8_t *text, size_t text_len, uint16_t *out,
                         size_t room)
{
    uint64_t reply = real_import(sheet, sheet_len, text, text_len, out, room);
    if (NUMBER(reply) == QUARTREE_REFUSED_GRAMMAR)
        out[0] = 1;
    return reply;
}

#elif FAULT == 43 /* import: the last row's children exchanged */
uint64_t quartree_import(const uint8_t *sheet, size_t sheet_len, const uint8_t *text, size_t text_len, uint16_t *out,
                         size_t room)
{
    uint64_t reply = real_import(sheet, sheet_len, text, text_len, out, room);
    size_t n = NUMBER(reply) == QUARTREE_ACCEPTED ? sheet[sheet_len - 8] : 0;
    if (n > 0) {
        uint16_t last = out[2 * n - 5];
        out[2 * n - 5] = out[2 * n - 6];
        out[2 * n - 6] = last;
    }
    return reply;
}

#elif FAULT == 44 /* gap: the word for the table ignored */
uint64_t quartree_gap(size_t n, uint32_t poll, const uint32_t *table, size_t cells, const uint16_t *listing, size_t len,
                      int64_t *out, size_t room)
{
    (void)poll;
    return real_gap(n, QUARTREE_COUNTS, table, cells, listing, len, out, room);
}

#elif FAULT == 45 /* gap: the word for the table turned round */
uint64_t quartree_gap(size_t n, uint32_t poll, const uint32_t *table, size_t cells, const uint16_t *listing, size_t len,
                      int64_t *out, size_t room)
{
    return real_gap(n, poll == 0, table, cells, listing, len, out, room);
}

#elif FAULT == 46 /* gap: a poll's for 1 only */
uint64_t quartree_gap(size_t n, uint32_t poll, const uint32_t *table, size_t cells, const uint16_t *listing, size_t len,
                      int64_t *out, size_t room)
{
    return real_gap(n, poll == QUARTREE_POLL, table, cells, listing, len, out, room);
}

#elif FAULT == 47 /* gap: the word for the table in 16 bits */
uint64_t quartree_gap(size_t n, uint32_t poll, const uint32_t *table, size_t cells, const uint16_t *listing, size_t len,
                      int64_t *out, size_t room)
{
    return real_gap(n, (uint16_t)poll, table, cells, listing, len, out, room);
}

#elif FAULT == 48 /* rebuild: the word for the table ignored */
uint64_t quartree_rebuild(size_t n, uint32_t poll, const uint32_t *table, size_t cells, uint16_t *out, size_t room)
{
    (void)poll;
    return real_rebuild(n, QUARTREE_COUNTS, table, cells, out, room);
}

#elif FAULT == 49 /* rebuild: every table taken for a poll's */
uint64_t quartree_rebuild(size_t n, uint32_t poll, const uint32_t *table, size_t cells, uint16_t *out, size_t room)
{
    (void)poll;
    return real_rebuild(n, QUARTREE_POLL, table, cells, out, room);
}

#elif FAULT == 50 /* rebuild: the word for the table in 8 bits */
uint64_t quartree_rebuild(size_t n, uint32_t poll, const uint32_t *table, size_t cells, uint16_t *out, size_t room)
{
    return real_rebuild(n, (uint8_t)poll, table, cells, out, room);
}

#elif FAULT == 51 /* rebuild: a poll's for 1 only */
uint64_t quartree_rebuild(size_t n, uint32_t poll, const uint32_t *table, size_t cells, uint16_t *out, size_t room)
{
    return real_rebuild(n, poll == QUARTREE_POLL, table, cells, out, room);
}

#elif FAULT == 52 /* rebuild: the word for the table as an int above 0 */
uint64_t quartree_rebuild(size_t n, uint32_t poll, const uint32_t *table, size_t cells, uint16_t *out, size_t room)
{
    return real_rebuild(n, (int32_t)poll > 0, table, cells, out, room);
}

#elif FAULT == 53 /* guided: the word for the table ignored */
uint64_t quartree_rebuild_guided(size_t n, uint32_t poll, const uint32_t *table, size_t cells, const uint16_t *merges,
                                 size_t len, uint16_t *out, size_t room)
{
    (void)poll;
    return real_rebuild_guided(n, QUARTREE_COUNTS, table, cells, merges, len, out, room);
}

#elif FAULT == 54 /* guided: the word for the table turned round */
uint64_t quartree_rebuild_guided(size_t n, uint32_t poll, const uint32_t *table, size_t cells, const uint16_t *merges,
                                 size_t len, uint16_t *out, size_t room)
{
    return real_rebuild_guided(n, poll == 0, table, cells, merges, len, out, room);
}

#elif FAULT == 55 /* guided: a poll's for odd numbers only */
uint64_t quartree_rebuild_guided(size_t n, uint32_t poll, const uint32_t *table, size_t cells, const uint16_t *merges,
                                 size_t len, uint16_t *out, size_t room)
{
    return real_rebuild_guided(n, poll & 1, table, cells, merges, len, out, room);
}

#elif FAULT == 56 /* rebuild: the limits of counts for a poll's table */
uint64_t quartree_rebuild(size_t n, uint32_t poll, const uint32_t *table, size_t cells, uint16_t *out, size_t room)
{
    uint64_t reply = real_rebuild(n, poll, table, cells, out, room);
    return poll != 0 && (n < 4 || n > 32) ? real_rebuild(n, QUARTREE_COUNTS, table, cells, out, room) : reply;
}

#elif FAULT == 57 /* guided: the length judged before the limits of a poll's table */
uint64_t quartree_rebuild_guided(size_t n, uint32_t poll, const uint32_t *table, size_t cells, const uint16_t *merges,
                                 size_t len, uint16_t *out, size_t room)
{
    uint64_t counts = real_rebuild_guided(n, QUARTREE_COUNTS, table, cells, merges, len, out, 0);
    return NUMBER(counts) == QUARTREE_REFUSED_INPUT_LENGTH
               ? counts
               : real_rebuild_guided(n, poll, table, cells, merges, len, out, room);
}

#elif FAULT == 58 /* gap: of a poll's table from the tree's cells once */
uint64_t quartree_gap(size_t n, uint32_t poll, const uint32_t *table, size_t cells, const uint16_t *listing, size_t len,
                      int64_t *out, size_t room)
{
    uint64_t reply = real_gap(n, poll, table, cells, listing, len, out, room);
    return NUMBER(reply) == QUARTREE_ACCEPTED ? real_gap(n, QUARTREE_COUNTS, table, cells, listing, len, out, room)
                                              : reply;
}

#elif FAULT == 59 /* poll: in ones */
uint64_t quartree_poll(size_t n, const struct quartree_record *records, size_t count, uint32_t *out, size_t room)
{
    uint64_t reply = real_poll(n, records, count, out, room);
    for (size_t cell = 0; NUMBER(reply) == QUARTREE_ACCEPTED && cell < QUARTREE_TABLE_CELLS(n); cell++)
        out[cell] /= 6;
    return reply;
}

#elif FAULT == 60 /* poll: no code above 3 */
uint64_t quartree_poll(size_t n, const struct quartree_record *records, size_t count, uint32_t *out, size_t room)
{
    uint64_t reply = real_poll(n, records, count, out, 0);
    for (size_t record = 0; NUMBER(reply) == QUARTREE_REFUSED_OUTPUT_ROOM && record < count; record++)
        if (records[record].code > 3)
            return QUARTREE_REFUSED_PAIRING_CODE | (uint64_t)record << 8;
    return real_poll(n, records, count, out, room);
}

#elif FAULT == 61 /* rebuild: its tree told as listed */
uint64_t quartree_rebuild(size_t n, uint32_t poll, const uint32_t *table, size_t cells, uint16_t *out, size_t room)
{
    uint64_t reply = real_rebuild(n, poll, table, cells, out, room);
    return NUMBER(reply) == QUARTREE_ACCEPTED ? 256 * QUARTREE_LISTED : reply;
}

#elif FAULT == 62 /* guided: a poll's tree told as guessed */
uint64_t quartree_rebuild_guided(size_t n, uint32_t poll, const uint32_t *table, size_t cells, const uint16_t *merges,
                                 size_t len, uint16_t *out, size_t room)
{
    uint64_t reply = real_rebuild_guided(n, poll, table, cells, merges, len, out, room);
    return NUMBER(reply) == QUARTREE_ACCEPTED && poll != 0 ? 256 * QUARTREE_GUESSED : reply;
}

#elif FAULT == 63 /* import: no origin told, which reads as rebuilt */
uint64_t quartree_import(const uint8_t *sheet, size_t sheet_len, const uint8_t *text, size_t text_len, uint16_t *out,
                         size_t room)
{
    uint64_t reply = real_import(sheet, sheet_len, text, text_len, out, room);
    return NUMBER(reply) == QUARTREE_ACCEPTED ? QUARTREE_ACCEPTED : reply;
}

#elif FAULT == 64 /* import: its tree told as listed */
uint64_t quartree_import(const uint8_t *sheet, size_t sheet_len, const uint8_t *text, size_t text_len, uint16_t *out,
                         size_t room)
{
    uint64_t reply = real_import(sheet, sheet_len, text, text_len, out, room);
    return NUMBER(reply) == QUARTREE_ACCEPTED ? 256 * QUARTREE_LISTED : reply;
}

#elif FAULT == 65 /* restandardise: a number above 4 passed on */
uint64_t quartree_restandardise(size_t n, uint32_t origin, const uint16_t *listing, size_t len, uint16_t *out,
                                size_t room)
{
    uint64_t reply = real_restandardise(n, origin, listing, len, out, room);
    return NUMBER(reply) == QUARTREE_ACCEPTED ? (uint64_t)origin << 8 : reply;
}

#elif FAULT == 66 /* restandardise: a number above 4 taken as rebuilt */
uint64_t quartree_restandardise(size_t n, uint32_t origin, const uint16_t *listing, size_t len, uint16_t *out,
                                size_t room)
{
    return real_restandardise(n, origin > QUARTREE_GRAFTED ? QUARTREE_REBUILT : origin, listing, len, out, room);
}

#elif FAULT == 67 /* restandardise: the origin in 3 bits */
uint64_t quartree_restandardise(size_t n, uint32_t origin, const uint16_t *listing, size_t len, uint16_t *out,
                                size_t room)
{
    return real_restandardise(n, origin & 7, listing, len, out, room);
}

#elif FAULT == 68 /* restandardise: the origin in 8 bits */
uint64_t quartree_restandardise(size_t n, uint32_t origin, const uint16_t *listing, size_t len, uint16_t *out,
                                size_t room)
{
    return real_restandardise(n, (uint8_t)origin, listing, len, out, room);
}

#elif FAULT == 69 /* restandardise: a number that is negative as an int taken as rebuilt */
uint64_t quartree_restandardise(size_t n, uint32_t origin, const uint16_t *listing, size_t len, uint16_t *out,
                                size_t room)
{
    return real_restandardise(n, (int32_t)origin < 0 ? QUARTREE_REBUILT : origin, listing, len, out, room);
}

#elif FAULT == 70 /* restandardise: always rebuilt */
uint64_t quartree_restandardise(size_t n, uint32_t origin, const uint16_t *listing, size_t len, uint16_t *out,
                                size_t room)
{
    (void)origin;
    return real_restandardise(n, QUARTREE_REBUILT, listing, len, out, room);
}

#elif FAULT == 71 /* restandardise: no origin told, as standardise has none */
uint64_t quartree_restandardise(size_t n, uint32_t origin, const uint16_t *listing, size_t len, uint16_t *out,
                                size_t room)
{
    (void)origin;
    return real_standardise(n, listing, len, out, room);
}

#elif FAULT == 72 /* restandardise: the listing as it was lent */
uint64_t quartree_restandardise(size_t n, uint32_t origin, const uint16_t *listing, size_t len, uint16_t *out,
                                size_t room)
{
    uint64_t reply = real_restandardise(n, origin, listing, len, out, room);
    for (size_t place = 0; NUMBER(reply) == QUARTREE_ACCEPTED && place < len; place++)
        out[place] = listing[place];
    return reply;
}

#elif FAULT == 73 /* restandardise: the origin told with a refusal, too */
uint64_t quartree_restandardise(size_t n, uint32_t origin, const uint16_t *listing, size_t len, uint16_t *out,
                                size_t room)
{
    uint64_t reply = real_restandardise(n, origin, listing, len, out, room);
    return reply == QUARTREE_REFUSED_OUTPUT_ROOM ? reply | (uint64_t)origin << 8 : reply;
}

#elif FAULT == 74 /* guess: the origin left out of the figure */
uint64_t quartree_guess(size_t n, uint32_t poll, const uint32_t *table, size_t cells, uint16_t *out, size_t room)
{
    uint64_t reply = real_guess(n, poll, table, cells, out, room);
    return NUMBER(reply) == QUARTREE_ACCEPTED ? QUARTREE_FIGURE_X(reply) << 16 : reply;
}

#elif FAULT == 75 /* guess: the total shifted by 8 bits */
uint64_t quartree_guess(size_t n, uint32_t poll, const uint32_t *table, size_t cells, uint16_t *out, size_t room)
{
    uint64_t reply = real_guess(n, poll, table, cells, out, room);
    uint64_t shifted = (QUARTREE_FIGURE_X(reply) + QUARTREE_FIGURE_Y(reply)) << 8;
    return NUMBER(reply) == QUARTREE_ACCEPTED ? shifted : reply;
}

#elif FAULT == 76 /* guess: the total in 32 bits */
uint64_t quartree_guess(size_t n, uint32_t poll, const uint32_t *table, size_t cells, uint16_t *out, size_t room)
{
    uint64_t reply = real_guess(n, poll, table, cells, out, room);
    return NUMBER(reply) == QUARTREE_ACCEPTED ? reply & 0xFFFFFFFFFFFF : reply;
}

#elif FAULT == 77 /* guess: the total of all cells, each counted twice */
uint64_t quartree_guess(size_t n, uint32_t poll, const uint32_t *table, size_t cells, uint16_t *out, size_t room)
{
    uint64_t reply = real_guess(n, poll, table, cells, out, room);
    return NUMBER(reply) == QUARTREE_ACCEPTED ? reply + (QUARTREE_FIGURE_X(reply) << 16) : reply;
}

#elif FAULT == 78 /* guess: the total told with a tree that has the table, as 1 */
uint64_t quartree_guess(size_t n, uint32_t poll, const uint32_t *table, size_t cells, uint16_t *out, size_t room)
{
    uint64_t reply = real_guess(n, poll, table, cells, out, room);
    return reply == QUARTREE_ACCEPTED ? 1 << 16 : reply;
}

#elif FAULT == 79 /* guess: a tree that has the table told as guessed */
uint64_t quartree_guess(size_t n, uint32_t poll, const uint32_t *table, size_t cells, uint16_t *out, size_t room)
{
    uint64_t reply = real_guess(n, poll, table, cells, out, room);
    return reply == QUARTREE_ACCEPTED ? 256 * QUARTREE_GUESSED : reply;
}

#elif FAULT == 80 /* guess: every tree told as rebuilt */
uint64_t quartree_guess(size_t n, uint32_t poll, const uint32_t *table, size_t cells, uint16_t *out, size_t room)
{
    uint64_t reply = real_guess(n, poll, table, cells, out, room);
    return QUARTREE_FIGURE_Y(reply) == QUARTREE_GUESSED && NUMBER(reply) == QUARTREE_ACCEPTED
               ? reply - 256 * QUARTREE_GUESSED
               : reply;
}

#elif FAULT == 81 /* guess: 6 told with a guess */
uint64_t quartree_guess(size_t n, uint32_t poll, const uint32_t *table, size_t cells, uint16_t *out, size_t room)
{
    uint64_t reply = real_guess(n, poll, table, cells, out, room);
    return NUMBER(reply) == QUARTREE_ACCEPTED && reply > 0 ? QUARTREE_REFUSED_NO_TREE : reply;
}

#elif FAULT == 82 /* guess: rebuild in its place */
uint64_t quartree_guess(size_t n, uint32_t poll, const uint32_t *table, size_t cells, uint16_t *out, size_t room)
{
    return real_rebuild(n, poll, table, cells, out, room);
}

#elif FAULT == 83 /* guess: the output written although the halves are unequal */
uint64_t quartree_guess(size_t n, uint32_t poll, const uint32_t *table, size_t cells, uint16_t *out, size_t room)
{
    uint64_t reply = real_guess(n, poll, table, cells, out, room);
    if (NUMBER(reply) == QUARTREE_REFUSED_HALVES)
        out[0] = 1;
    return reply;
}

#elif FAULT == 84 /* guess: the number behind the result cleared */
uint64_t quartree_guess(size_t n, uint32_t poll, const uint32_t *table, size_t cells, uint16_t *out, size_t room)
{
    uint64_t reply = real_guess(n, poll, table, cells, out, room);
    if (NUMBER(reply) == QUARTREE_ACCEPTED && room > QUARTREE_LISTING_NUMBERS(n))
        out[QUARTREE_LISTING_NUMBERS(n)] = 0;
    return reply;
}

#elif FAULT == 85 /* guess: the first row's children exchanged in a guess */
uint64_t quartree_guess(size_t n, uint32_t poll, const uint32_t *table, size_t cells, uint16_t *out, size_t room)
{
    uint64_t reply = real_guess(n, poll, table, cells, out, room);
    if (NUMBER(reply) == QUARTREE_ACCEPTED && reply > 0) {
        uint16_t first = out[0];
        out[0] = out[1];
        out[1] = first;
    }
    return reply;
}

#elif FAULT == 86 /* guess: the word for the table ignored */
uint64_t quartree_guess(size_t n, uint32_t poll, const uint32_t *table, size_t cells, uint16_t *out, size_t room)
{
    (void)poll;
    return real_guess(n, QUARTREE_COUNTS, table, cells, out, room);
}

#elif FAULT == 87 /* guess: the word for the table in 8 bits */
uint64_t quartree_guess(size_t n, uint32_t poll, const uint32_t *table, size_t cells, uint16_t *out, size_t room)
{
    return real_guess(n, (uint8_t)poll, table, cells, out, room);
}

#elif FAULT == 88 /* guess: the length of the table in 16 bits */
uint64_t quartree_guess(size_t n, uint32_t poll, const uint32_t *table, size_t cells, uint16_t *out, size_t room)
{
    return real_guess(n, poll, table, (uint16_t)cells, out, room);
}

#elif FAULT == 89 /* guess: the room in 16 bits */
uint64_t quartree_guess(size_t n, uint32_t poll, const uint32_t *table, size_t cells, uint16_t *out, size_t room)
{
    return real_guess(n, poll, table, cells, out, (uint16_t)room);
}

#elif FAULT == 90 /* guess: the caller's cells cut to 24 bits */
uint64_t quartree_guess(size_t n, uint32_t poll, const uint32_t *table, size_t cells, uint16_t *out, size_t room)
{
    uint64_t reply = real_guess(n, poll, table, cells, out, room);
    uint32_t *lent = (uint32_t *)(uintptr_t)table;
    for (size_t cell = 0; NUMBER(reply) == QUARTREE_ACCEPTED && cell < cells; cell++)
        lent[cell] &= 0xFFFFFF;
    return reply;
}

#elif FAULT == 91 /* graft: the origin left out of the figure */
CHANGE(quartree_graft, edge)
{
    uint64_t reply = real_graft(n, listing, len, table, cells, edge, out, room, out_table, table_room);
    return NUMBER(reply) == QUARTREE_ACCEPTED ? QUARTREE_ACCEPTED : reply;
}

#elif FAULT == 92 /* graft: the rooms exchanged */
CHANGE(quartree_graft, edge)
{
    return real_graft(n, listing, len, table, cells, edge, out, table_room, out_table, room);
}

#elif FAULT == 93 /* graft: the edge in 16 bits */
CHANGE(quartree_graft, edge)
{
    return real_graft(n, listing, len, table, cells, (uint16_t)edge, out, room, out_table, table_room);
}

#elif FAULT == 94 /* graft: the edge in 32 bits */
CHANGE(quartree_graft, edge)
{
    return real_graft(n, listing, len, table, cells, (uint32_t)edge, out, room, out_table, table_room);
}

#elif FAULT == 95 /* graft: the edge behind the last taken for leaf 0's */
CHANGE(quartree_graft, edge)
{
    return real_graft(n, listing, len, table, cells, edge - (edge == 2 * n - 2), out, room, out_table, table_room);
}

#elif FAULT == 96 /* graft: edge 0 taken for leaf 0's */
CHANGE(quartree_graft, edge)
{
    return real_graft(n, listing, len, table, cells, edge == 0 ? 2 * n - 3 : edge, out, room, out_table, table_room);
}

#elif FAULT == 97 /* graft: the length of the table in 16 bits */
CHANGE(quartree_graft, edge)
{
    return real_graft(n, listing, len, table, (uint16_t)cells, edge, out, room, out_table, table_room);
}

#elif FAULT == 98 /* graft: the room of the table taken for both */
CHANGE(quartree_graft, edge)
{
    (void)room;
    return real_graft(n, listing, len, table, cells, edge, out, table_room, out_table, table_room);
}

#elif FAULT == 99 /* graft: the table dropped */
CHANGE(quartree_graft, edge)
{
    static uint32_t dropped[QUARTREE_TABLE_CELLS(QUARTREE_MOST_LEAVES)];
    size_t most = QUARTREE_TABLE_CELLS(QUARTREE_MOST_LEAVES);
    (void)out_table;
    return real_graft(n, listing, len, table, cells, edge, out, room, dropped, table_room < most ? table_room : most);
}

#elif FAULT == 100 /* graft: the cell behind the table cleared */
CHANGE(quartree_graft, edge)
{
    uint64_t reply = real_graft(n, listing, len, table, cells, edge, out, room, out_table, table_room);
    if (NUMBER(reply) == QUARTREE_ACCEPTED && table_room > QUARTREE_TABLE_CELLS(n + 1))
        out_table[QUARTREE_TABLE_CELLS(n + 1)] = 0;
    return reply;
}

#elif FAULT == 101 /* graft: the first cells of the caller's table brought up to date, too */
CHANGE(quartree_graft, edge)
{
    uint64_t reply = real_graft(n, listing, len, table, cells, edge, out, room, out_table, table_room);
    uint32_t *lent = (uint32_t *)(uintptr_t)table;
    for (size_t cell = 0; NUMBER(reply) == QUARTREE_ACCEPTED && cell < n; cell++)
        lent[cell] = out_table[cell];
    return reply;
}

#elif FAULT == 102 /* graft: a lent listing that is not standard refused */
CHANGE(quartree_graft, edge)
{
    uint16_t standard[QUARTREE_LISTING_NUMBERS(QUARTREE_MOST_LEAVES)];
    uint64_t reply = real_standardise(n, listing, len, standard, QUARTREE_LISTING_NUMBERS(QUARTREE_MOST_LEAVES));
    for (size_t place = 0; NUMBER(reply) == QUARTREE_ACCEPTED && place < len; place++)
        if (standard[place] != listing[place])
            return QUARTREE_REFUSED_CHILD | (uint64_t)place << 8;
    return real_graft(n, listing, len, table, cells, edge, out, room, out_table, table_room);
}

#elif FAULT == 103 /* prune: its tree told as listed */
CHANGE(quartree_prune, leaf)
{
    uint64_t reply = real_prune(n, listing, len, table, cells, leaf, out, room, out_table, table_room);
    return NUMBER(reply) == QUARTREE_ACCEPTED ? 256 * QUARTREE_LISTED : reply;
}

#elif FAULT == 104 /* prune: the result's leaf count in the origin's place */
CHANGE(quartree_prune, leaf)
{
    uint64_t reply = real_prune(n, listing, len, table, cells, leaf, out, room, out_table, table_room);
    return NUMBER(reply) == QUARTREE_ACCEPTED ? (uint64_t)(n - 1) << 8 : reply;
}

#elif FAULT == 105 /* prune: the leaf in 16 bits */
CHANGE(quartree_prune, leaf)
{
    return real_prune(n, listing, len, table, cells, (uint16_t)leaf, out, room, out_table, table_room);
}

#elif FAULT == 106 /* prune: the leaf in 8 bits */
CHANGE(quartree_prune, leaf)
{
    return real_prune(n, listing, len, table, cells, (uint8_t)leaf, out, room, out_table, table_room);
}

#elif FAULT == 107 /* prune: leaf 0 refused */
CHANGE(quartree_prune, leaf)
{
    return real_prune(n, listing, len, table, cells, leaf == 0 ? n : leaf, out, room, out_table, table_room);
}

#elif FAULT == 108 /* prune: leaf n taken for the last */
CHANGE(quartree_prune, leaf)
{
    return real_prune(n, listing, len, table, cells, leaf - (leaf == n), out, room, out_table, table_room);
}

#elif FAULT == 109 /* prune: the listing dropped */
CHANGE(quartree_prune, leaf)
{
    uint16_t dropped[QUARTREE_LISTING_NUMBERS(QUARTREE_MOST_LEAVES)];
    size_t most = QUARTREE_LISTING_NUMBERS(QUARTREE_MOST_LEAVES);
    (void)out;
    return real_prune(n, listing, len, table, cells, leaf, dropped, room < most ? room : most, out_table, table_room);
}

#elif FAULT == 110 /* prune: the number behind the listing cleared */
CHANGE(quartree_prune, leaf)
{
    uint64_t reply = real_prune(n, listing, len, table, cells, leaf, out, room, out_table, table_room);
    if (NUMBER(reply) == QUARTREE_ACCEPTED && room > QUARTREE_LISTING_NUMBERS(n - 1))
        out[QUARTREE_LISTING_NUMBERS(n - 1)] = 0;
    return reply;
}

#elif FAULT == 111 /* prune: the listing begun although the table has no room */
CHANGE(quartree_prune, leaf)
{
    uint64_t reply = real_prune(n, listing, len, table, cells, leaf, out, room, out_table, table_room);
    if (NUMBER(reply) == QUARTREE_REFUSED_OUTPUT_ROOM && room > 0)
        out[0] = 1;
    return reply;
}

#elif FAULT == 112 /* prune: the room of the listing in 16 bits */
CHANGE(quartree_prune, leaf)
{
    return real_prune(n, listing, len, table, cells, leaf, out, (uint16_t)room, out_table, table_room);
}

#elif FAULT == 113 /* prune: the room of the table in 16 bits */
CHANGE(quartree_prune, leaf)
{
    return real_prune(n, listing, len, table, cells, leaf, out, room, out_table, (uint16_t)table_room);
}

#elif FAULT == 114 /* prune: half a table */
CHANGE(quartree_prune, leaf)
{
    uint64_t reply = real_prune(n, listing, len, table, cells, leaf, out, room, out_table, table_room);
    for (size_t i = 0; NUMBER(reply) == QUARTREE_ACCEPTED && i < n - 1; i++)
        for (size_t j = 0; j < i; j++)
            out_table[(n - 1) * i + j] = 0;
    return reply;
}

#elif FAULT == 115 /* set_join: leaf 63 lost */
SET_OF_TWO(quartree_set_join)
{
    uint64_t reply = real_set_join(a, a_len, b, b_len, out, room);
    if (reply == QUARTREE_ACCEPTED)
        out[7] &= 0x7F;
    return reply;
}

#elif FAULT == 116 /* set_join: the second word of the first set alone */
SET_OF_TWO(quartree_set_join)
{
    uint64_t reply = real_set_join(a, a_len, b, b_len, out, room);
    for (size_t byte = 8; reply == QUARTREE_ACCEPTED && byte < QUARTREE_SET_BYTES; byte++)
        out[byte] = a[byte];
    return reply;
}

#elif FAULT == 117 /* set_join: the words written high byte first */
SET_OF_TWO(quartree_set_join)
{
    uint64_t reply = real_set_join(a, a_len, b, b_len, out, room);
    for (size_t byte = 0; reply == QUARTREE_ACCEPTED && byte < QUARTREE_SET_BYTES; byte++)
        out[byte] = a[byte ^ 7] | b[byte ^ 7];
    return reply;
}

#elif FAULT == 118 /* set_join: the words exchanged */
SET_OF_TWO(quartree_set_join)
{
    uint64_t reply = real_set_join(a, a_len, b, b_len, out, room);
    for (size_t byte = 0; reply == QUARTREE_ACCEPTED && byte < QUARTREE_SET_BYTES; byte++)
        out[byte] = a[byte ^ 8] | b[byte ^ 8];
    return reply;
}

#elif FAULT == 119 /* set_join: leaves of both sets left out */
SET_OF_TWO(quartree_set_join)
{
    uint64_t reply = real_set_join(a, a_len, b, b_len, out, room);
    for (size_t byte = 0; reply == QUARTREE_ACCEPTED && byte < QUARTREE_SET_BYTES; byte++)
        out[byte] = a[byte] ^ b[byte];
    return reply;
}

#elif FAULT == 120 /* set_join: the sets added up as numbers */
SET_OF_TWO(quartree_set_join)
{
    uint64_t reply = real_set_join(a, a_len, b, b_len, out, room);
    unsigned sum = 0;
    for (size_t byte = 0; reply == QUARTREE_ACCEPTED && byte < QUARTREE_SET_BYTES; byte++) {
        sum = a[byte] + b[byte] + sum / 256;
        out[byte] = (uint8_t)sum;
    }
    return reply;
}

#elif FAULT == 121 /* set_join: the length of the second set unlooked */
SET_OF_TWO(quartree_set_join)
{
    (void)b_len;
    return real_set_join(a, a_len, b, QUARTREE_SET_BYTES, out, room);
}

#elif FAULT == 122 /* set_join: the length of the first set in 8 bits */
SET_OF_TWO(quartree_set_join)
{
    return real_set_join(a, (uint8_t)a_len, b, b_len, out, room);
}

#elif FAULT == 123 /* set_join: the room judged as an input, which has to be exact */
SET_OF_TWO(quartree_set_join)
{
    return real_set_join(a, a_len, b, b_len, out, room > QUARTREE_SET_BYTES ? 0 : room);
}

#elif FAULT == 124 /* set_join: a room of 15 bytes filled */
SET_OF_TWO(quartree_set_join)
{
    uint8_t set[QUARTREE_SET_BYTES];
    uint64_t reply = real_set_join(a, a_len, b, b_len, out, room);
    if (reply != QUARTREE_REFUSED_OUTPUT_ROOM || room != QUARTREE_SET_BYTES - 1)
        return reply;
    reply = real_set_join(a, a_len, b, b_len, set, sizeof set);
    for (size_t byte = 0; byte < room; byte++)
        out[byte] = set[byte];
    return reply;
}

#elif FAULT == 125 /* set_join: a short output before the lengths */
SET_OF_TWO(quartree_set_join)
{
    return room < QUARTREE_SET_BYTES ? QUARTREE_REFUSED_OUTPUT_ROOM : real_set_join(a, a_len, b, b_len, out, room);
}

#elif FAULT == 126 /* set_join: the byte behind the set cleared */
SET_OF_TWO(quartree_set_join)
{
    uint64_t reply = real_set_join(a, a_len, b, b_len, out, room);
    if (reply == QUARTREE_ACCEPTED && room > QUARTREE_SET_BYTES)
        out[QUARTREE_SET_BYTES] = 0;
    return reply;
}

#elif FAULT == 127 /* set_join: the first set written before the second is judged */
SET_OF_TWO(quartree_set_join)
{
    for (size_t byte = 0; a_len == QUARTREE_SET_BYTES && room >= a_len && byte < a_len; byte++)
        out[byte] = a[byte];
    return real_set_join(a, a_len, b, b_len, out, room);
}

#elif FAULT == 128 /* set_join: joined in the caller's first set, too */
SET_OF_TWO(quartree_set_join)
{
    uint64_t reply = real_set_join(a, a_len, b, b_len, out, room);
    uint8_t *lent = (uint8_t *)(uintptr_t)a;
    for (size_t byte = 0; reply == QUARTREE_ACCEPTED && byte < QUARTREE_SET_BYTES; byte++)
        lent[byte] |= b[byte];
    return reply;
}

#elif FAULT == 129 /* set_join: how many leaves there are told with it */
SET_OF_TWO(quartree_set_join)
{
    uint64_t reply = real_set_join(a, a_len, b, b_len, out, room), leaves = 0;
    for (size_t byte = 0; reply == QUARTREE_ACCEPTED && byte < QUARTREE_SET_BYTES; byte++)
        leaves += (uint64_t)__builtin_popcount(out[byte]);
    return reply | leaves << 8;
}

#elif FAULT == 130 /* set_intersect: leaf 127 lost */
SET_OF_TWO(quartree_set_intersect)
{
    uint64_t reply = real_set_intersect(a, a_len, b, b_len, out, room);
    if (reply == QUARTREE_ACCEPTED)
        out[QUARTREE_SET_BYTES - 1] &= 0x7F;
    return reply;
}

#elif FAULT == 131 /* set_intersect: leaf 0 left out, as in a split */
SET_OF_TWO(quartree_set_intersect)
{
    uint64_t reply = real_set_intersect(a, a_len, b, b_len, out, room);
    if (reply == QUARTREE_ACCEPTED)
        out[0] &= 0xFE;
    return reply;
}

#elif FAULT == 132 /* set_intersect: join in its place */
SET_OF_TWO(quartree_set_intersect)
{
    return real_set_join(a, a_len, b, b_len, out, room);
}

#elif FAULT == 133 /* set_intersect: the leaves of the first set that the second has not */
SET_OF_TWO(quartree_set_intersect)
{
    uint64_t reply = real_set_intersect(a, a_len, b, b_len, out, room);
    for (size_t byte = 0; reply == QUARTREE_ACCEPTED && byte < QUARTREE_SET_BYTES; byte++)
        out[byte] = a[byte] & (uint8_t)~b[byte];
    return reply;
}

#elif FAULT == 134 /* set_intersect: the highest bit of a byte first */
SET_OF_TWO(quartree_set_intersect)
{
    uint64_t reply = real_set_intersect(a, a_len, b, b_len, out, room);
    for (size_t byte = 0; reply == QUARTREE_ACCEPTED && byte < QUARTREE_SET_BYTES; byte++) {
        uint8_t turned = 0;
        for (unsigned bit = 0; bit < 8; bit++)
            turned |= (uint8_t)((out[byte] >> bit & 1) << (7 - bit));
        out[byte] = turned;
    }
    return reply;
}

#elif FAULT == 135 /* set_intersect: nothing written where the sets have nothing in common */
SET_OF_TWO(quartree_set_intersect)
{
    uint8_t common = 0;
    for (size_t byte = 0; byte < a_len && byte < b_len; byte++)
        common |= a[byte] & b[byte];
    if (a_len == QUARTREE_SET_BYTES && b_len == a_len && room >= a_len && common == 0)
        return QUARTREE_ACCEPTED;
    return real_set_intersect(a, a_len, b, b_len, out, room);
}

#elif FAULT == 136 /* set_intersect: a longer first set taken */
SET_OF_TWO(quartree_set_intersect)
{
    size_t most = a_len < QUARTREE_SET_BYTES ? a_len : QUARTREE_SET_BYTES;
    return real_set_intersect(a, most, b, b_len, out, room);
}

#elif FAULT == 137 /* set_intersect: the room in 16 bits */
SET_OF_TWO(quartree_set_intersect)
{
    return real_set_intersect(a, a_len, b, b_len, out, (uint16_t)room);
}

#elif FAULT == 138 /* set_intersect: a short output told as an input of another length */
SET_OF_TWO(quartree_set_intersect)
{
    uint64_t reply = real_set_intersect(a, a_len, b, b_len, out, room);
    return reply == QUARTREE_REFUSED_OUTPUT_ROOM ? QUARTREE_REFUSED_INPUT_LENGTH : reply;
}

#elif FAULT == 139 /* set_equal: turned round */
SET_TEST(quartree_set_equal)
{
    uint64_t reply = real_set_equal(a, a_len, b, b_len);
    return NUMBER(reply) == QUARTREE_ACCEPTED ? reply ^ 256 : reply;
}

#elif FAULT == 140 /* set_equal: the answer in the number's place */
SET_TEST(quartree_set_equal)
{
    uint64_t reply = real_set_equal(a, a_len, b, b_len);
    return NUMBER(reply) == QUARTREE_ACCEPTED ? QUARTREE_FIGURE(reply) : reply;
}

#elif FAULT == 141 /* set_equal: yes told as all bits */
SET_TEST(quartree_set_equal)
{
    uint64_t reply = real_set_equal(a, a_len, b, b_len);
    return reply == 256 ? (uint64_t)-1 << 8 : reply;
}

#elif FAULT == 142 /* set_equal: the first words alone */
SET_TEST(quartree_set_equal)
{
    uint64_t reply = real_set_equal(a, a_len, b, b_len);
    return NUMBER(reply) == QUARTREE_ACCEPTED && memcmp(a, b, 8) == 0 ? 256 : reply;
}

#elif FAULT == 143 /* set_equal: the last bytes not compared */
SET_TEST(quartree_set_equal)
{
    uint64_t reply = real_set_equal(a, a_len, b, b_len);
    return NUMBER(reply) == QUARTREE_ACCEPTED && memcmp(a, b, QUARTREE_SET_BYTES - 1) == 0 ? 256 : reply;
}

#elif FAULT == 144 /* set_equal: compared as texts, up to a byte of 0 */
SET_TEST(quartree_set_equal)
{
    uint64_t reply = real_set_equal(a, a_len, b, b_len);
    int same = NUMBER(reply) == QUARTREE_ACCEPTED && strncmp((const char *)a, (const char *)b, a_len) == 0;
    return same ? 256 : reply;
}

#elif FAULT == 145 /* set_equal: the numbers of leaves compared */
SET_TEST(quartree_set_equal)
{
    uint64_t reply = real_set_equal(a, a_len, b, b_len);
    int more = 0;
    for (size_t byte = 0; NUMBER(reply) == QUARTREE_ACCEPTED && byte < QUARTREE_SET_BYTES; byte++)
        more += __builtin_popcount(a[byte]) - __builtin_popcount(b[byte]);
    return NUMBER(reply) == QUARTREE_ACCEPTED ? 256 * (uint64_t)(more == 0) : reply;
}

#elif FAULT == 146 /* set_equal: a part of the second set taken for it */
SET_TEST(quartree_set_equal)
{
    uint64_t reply = real_set_equal(a, a_len, b, b_len);
    int more = 0;
    for (size_t byte = 0; NUMBER(reply) == QUARTREE_ACCEPTED && byte < QUARTREE_SET_BYTES; byte++)
        more |= a[byte] & ~b[byte];
    return NUMBER(reply) == QUARTREE_ACCEPTED ? 256 * (uint64_t)(more == 0) : reply;
}

#elif FAULT == 147 /* set_equal: leaf 64 not compared */
SET_TEST(quartree_set_equal)
{
    uint64_t reply = real_set_equal(a, a_len, b, b_len);
    int more = 0;
    for (size_t byte = 0; NUMBER(reply) == QUARTREE_ACCEPTED && byte < QUARTREE_SET_BYTES; byte++)
        more |= (a[byte] ^ b[byte]) & (byte == 8 ? 0xFE : 0xFF);
    return NUMBER(reply) == QUARTREE_ACCEPTED ? 256 * (uint64_t)(more == 0) : reply;
}

#elif FAULT == 148 /* set_equal: empty sets told as unequal */
SET_TEST(quartree_set_equal)
{
    uint64_t reply = real_set_equal(a, a_len, b, b_len);
    int leaves = 0;
    for (size_t byte = 0; reply == 256 && byte < QUARTREE_SET_BYTES; byte++)
        leaves |= a[byte];
    return leaves == 0 && reply == 256 ? QUARTREE_ACCEPTED : reply;
}

#elif FAULT == 149 /* set_equal: sets of any length, if both have it */
SET_TEST(quartree_set_equal)
{
    return a_len == b_len ? 256 * (uint64_t)(memcmp(a, b, a_len) == 0) : real_set_equal(a, a_len, b, b_len);
}

#elif FAULT == 150 /* set_equal: sets of other lengths told as unequal */
SET_TEST(quartree_set_equal)
{
    uint64_t reply = real_set_equal(a, a_len, b, b_len);
    return reply == QUARTREE_REFUSED_INPUT_LENGTH ? QUARTREE_ACCEPTED : reply;
}

#elif FAULT == 151 /* set_equal: the lengths in 16 bits */
SET_TEST(quartree_set_equal)
{
    return real_set_equal(a, (uint16_t)a_len, b, (uint16_t)b_len);
}

#elif FAULT == 152 /* set_equal: which set is refused told with 2 */
SET_TEST(quartree_set_equal)
{
    uint64_t reply = real_set_equal(a, a_len, b, b_len);
    uint64_t second = a_len == QUARTREE_SET_BYTES;
    return NUMBER(reply) == QUARTREE_REFUSED_INPUT_LENGTH ? reply | second << 8 : reply;
}

#elif FAULT == 153 /* look: the origin told with the total, as a guess does */
LOOK(quartree_look)
{
    uint64_t reply = real_look(n, poll, listing, len, table, cells, edge, new_table, new_cells);
    return NUMBER(reply) == QUARTREE_ACCEPTED ? reply << 8 | 256 * QUARTREE_GRAFTED : reply;
}

#elif FAULT == 154 /* look: the total in the number's place */
LOOK(quartree_look)
{
    uint64_t reply = real_look(n, poll, listing, len, table, cells, edge, new_table, new_cells);
    return NUMBER(reply) == QUARTREE_ACCEPTED ? QUARTREE_FIGURE(reply) : reply;
}

#elif FAULT == 155 /* look: the total in 32 bits */
LOOK(quartree_look)
{
    return real_look(n, poll, listing, len, table, cells, edge, new_table, new_cells) & 0xFFFFFFFFFF;
}

#elif FAULT == 156 /* look: the total of all cells, each counted twice */
LOOK(quartree_look)
{
    uint64_t reply = real_look(n, poll, listing, len, table, cells, edge, new_table, new_cells);
    return NUMBER(reply) == QUARTREE_ACCEPTED ? 2 * reply : reply;
}

#elif FAULT == 157 /* look: the cell of the two last leaves left out */
LOOK(quartree_look)
{
    uint64_t reply = real_look(n, poll, listing, len, table, cells, edge, new_table, new_cells);
    uint16_t rows[QUARTREE_LISTING_NUMBERS(QUARTREE_MOST_LEAVES)];
    static uint32_t own[QUARTREE_TABLE_CELLS(QUARTREE_MOST_LEAVES)];
    if (NUMBER(reply) != QUARTREE_ACCEPTED)
        return reply;
    real_graft(n, listing, len, table, cells, edge, rows, QUARTREE_LISTING_NUMBERS(n + 1), own, new_cells);
    int64_t gap = (int64_t)new_table[new_cells - 2] - (poll == 0 ? 1 : 6) * (int64_t)own[new_cells - 2];
    return reply - 256 * (uint64_t)(gap < 0 ? -gap : gap);
}

#elif FAULT == 158 /* look: the word for the table ignored */
LOOK(quartree_look)
{
    (void)poll;
    return real_look(n, QUARTREE_COUNTS, listing, len, table, cells, edge, new_table, new_cells);
}

#elif FAULT == 159 /* look: the leaf count taken for the grafted tree's */
LOOK(quartree_look)
{
    return real_look(n - 1, poll, listing, len, table, cells, edge, new_table, new_cells);
}

#elif FAULT == 160 /* look: the two tables exchanged */
LOOK(quartree_look)
{
    return real_look(n, poll, listing, len, new_table, new_cells, edge, table, cells);
}

#elif FAULT == 161 /* look: the edge in 16 bits */
LOOK(quartree_look)
{
    return real_look(n, poll, listing, len, table, cells, (uint16_t)edge, new_table, new_cells);
}

#elif FAULT == 162 /* look: the edge in 32 bits */
LOOK(quartree_look)
{
    return real_look(n, poll, listing, len, table, cells, (uint32_t)edge, new_table, new_cells);
}

#elif FAULT == 163 /* look: the edge behind the last taken for leaf 0's */
LOOK(quartree_look)
{
    return real_look(n, poll, listing, len, table, cells, edge - (edge == QUARTREE_EDGES(n) + 1), new_table, new_cells);
}

#elif FAULT == 164 /* look: the length of the new table in 16 bits */
LOOK(quartree_look)
{
    return real_look(n, poll, listing, len, table, cells, edge, new_table, (uint16_t)new_cells);
}

#elif FAULT == 165 /* look: the new table's diagonal before 20 */
LOOK(quartree_look)
{
    uint64_t reply = real_look(n, poll, listing, len, table, cells, edge, new_table, new_cells);
    for (size_t leaf = 0; reply == QUARTREE_REFUSED_NOT_OWN && leaf <= n; leaf++)
        if (new_table[(n + 2) * leaf] != 0)
            return QUARTREE_REFUSED_DIAGONAL | (uint64_t)leaf << 8;
    return reply;
}

#elif FAULT == 166 /* look: the total left in the caller's new table */
LOOK(quartree_look)
{
    uint64_t reply = real_look(n, poll, listing, len, table, cells, edge, new_table, new_cells);
    if (NUMBER(reply) == QUARTREE_ACCEPTED)
        *(uint32_t *)(uintptr_t)new_table = (uint32_t)QUARTREE_FIGURE(reply);
    return reply;
}

#elif FAULT == 167 /* look_all: the number of totals told */
LOOK_ALL(quartree_look_all)
{
    uint64_t reply = real_look_all(n, poll, listing, len, table, cells, new_table, new_cells, totals, room);
    return reply == QUARTREE_ACCEPTED ? QUARTREE_EDGES(n) << 8 : reply;
}

#elif FAULT == 168 /* look_all: the totals in 32 bits */
LOOK_ALL(quartree_look_all)
{
    uint64_t reply = real_look_all(n, poll, listing, len, table, cells, new_table, new_cells, totals, room);
    for (size_t place = 0; reply == QUARTREE_ACCEPTED && place < QUARTREE_EDGES(n); place++)
        totals[place] &= 0xFFFFFFFF;
    return reply;
}

#elif FAULT == 169 /* look_all: the totals as replies */
LOOK_ALL(quartree_look_all)
{
    uint64_t reply = real_look_all(n, poll, listing, len, table, cells, new_table, new_cells, totals, room);
    for (size_t place = 0; reply == QUARTREE_ACCEPTED && place < QUARTREE_EDGES(n); place++)
        totals[place] *= 256;
    return reply;
}

#elif FAULT == 170 /* look_all: for leaf 0's edge the total of the one before */
LOOK_ALL(quartree_look_all)
{
    uint64_t reply = real_look_all(n, poll, listing, len, table, cells, new_table, new_cells, totals, room);
    if (reply == QUARTREE_ACCEPTED)
        totals[QUARTREE_EDGES(n) - 1] = totals[QUARTREE_EDGES(n) - 2];
    return reply;
}

#elif FAULT == 171 /* look_all: leaf 0's edge first */
LOOK_ALL(quartree_look_all)
{
    uint64_t reply = real_look_all(n, poll, listing, len, table, cells, new_table, new_cells, totals, room);
    if (reply == QUARTREE_ACCEPTED) {
        uint64_t last = totals[QUARTREE_EDGES(n) - 1];
        memmove(totals + 1, totals, (QUARTREE_EDGES(n) - 1) * sizeof *totals);
        totals[0] = last;
    }
    return reply;
}

#elif FAULT == 172 /* look_all: the total behind the last cleared */
LOOK_ALL(quartree_look_all)
{
    uint64_t reply = real_look_all(n, poll, listing, len, table, cells, new_table, new_cells, totals, room);
    if (reply == QUARTREE_ACCEPTED && room > QUARTREE_EDGES(n))
        totals[QUARTREE_EDGES(n)] = 0;
    return reply;
}

#elif FAULT == 173 /* look_all: the totals cleared before the judgement */
LOOK_ALL(quartree_look_all)
{
    memset(totals, 0, room * sizeof *totals);
    return real_look_all(n, poll, listing, len, table, cells, new_table, new_cells, totals, room);
}

#elif FAULT == 174 /* look_all: the room judged as an input, which has to be exact */
LOOK_ALL(quartree_look_all)
{
    int wide = n >= QUARTREE_LEAST_LEAVES && n <= QUARTREE_MOST_LEAVES && room > QUARTREE_EDGES(n);
    return real_look_all(n, poll, listing, len, table, cells, new_table, new_cells, totals, wide ? 0 : room);
}

#elif FAULT == 175 /* look_all: the room in 16 bits */
LOOK_ALL(quartree_look_all)
{
    return real_look_all(n, poll, listing, len, table, cells, new_table, new_cells, totals, (uint16_t)room);
}

#elif FAULT == 176 /* look_all: a longer new table taken */
LOOK_ALL(quartree_look_all)
{
    size_t due = n <= QUARTREE_MOST_LEAVES ? (n + 1) * (n + 1) : new_cells;
    new_cells = new_cells < due ? new_cells : due;
    return real_look_all(n, poll, listing, len, table, cells, new_table, new_cells, totals, room);
}

#elif FAULT == 177 /* look_all: the word for the table turned round */
LOOK_ALL(quartree_look_all)
{
    return real_look_all(n, poll == 0, listing, len, table, cells, new_table, new_cells, totals, room);
}
#endif
