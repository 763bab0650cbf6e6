/* Plain C for the bench to measure against: of the same algorithms, two textbook ones, and for names and texts the
   fastest that was found. Unless it is said otherwise they take lengths that have been checked. */
#ifndef PLAIN_H
#define PLAIN_H
#include <stddef.h>
#include <stdint.h>

/* 0, or 7 or 8 as the rules of a listing have it. */
int plain_check(size_t n, const uint16_t *listing);
/* The standard listing. */
void plain_standardise(size_t n, const uint16_t *listing, uint16_t *out);
/* The standard listing of a tree record, and the reply as the part's. */
uint64_t plain_restandardise(size_t n, uint32_t origin, const uint16_t *listing, uint16_t *out);
/* The table, by merging the rows' subtrees: n * n. */
void plain_table(size_t n, const uint16_t *listing, uint32_t *out);
/* The table, by counting quartets edge by edge. */
void direct_table(size_t n, const uint16_t *listing, uint32_t *out);
/* 4 or 5 as the rules of a table have it, or 0. */
int plain_wrong_table(size_t n, const uint32_t *table);
/* The gap of a table in which a tree's cell counts so many times: checks 4 and 5, then the table's cells less those.
   0, 4 or 5. */
int plain_gap(size_t n, uint32_t times, const uint32_t *table, const uint16_t *listing, int64_t *out);
/* The rebuild of such a table by eligible merges, n * n: checks 4 and 5, then the standard listing. 0, 4, 5 or 6. */
int plain_rebuild(size_t n, uint32_t times, const uint32_t *table, uint16_t *out);
/* The guided rebuild: checks 4 and 5, the merges, and then the listing by plain_rebuild. 0, 4, 5 or 12. */
int plain_guided(size_t n, uint32_t times, const uint32_t *table, const uint16_t *merges, uint16_t *out);
/* The guess at a tree of such a table: checks 4 and 5, then plain_rebuild, and where that says 6 the merges of the
   least mean sizes of gap (plain_guess.c), which it looks for by bounds. The reply is the part's, 4 or 5 without a
   figure. */
uint64_t plain_guess(size_t n, uint32_t times, const uint32_t *table, uint16_t *out);
/* Leaf n grafted on an edge, and a leaf pruned (plain_graft.c): checks 4, 5 and 20, then the standard listing and the
   table of the changed tree, n * n, by the fastest count that was found. The reply is the part's, 4 and 5 without a
   figure. */
uint64_t plain_graft(size_t n, const uint16_t *listing, const uint32_t *table, size_t edge, uint16_t *out,
                     uint32_t *out_table);
uint64_t plain_prune(size_t n, const uint16_t *listing, const uint32_t *table, size_t leaf, uint16_t *out,
                     uint32_t *out_table);
/* The total gap that the tree would have to a new table, in which a tree's cell counts so many times, if leaf n were
   grafted on an edge; and the same for every edge, written by the edges' numbers (plain_look.c). Checks 7, 8, then 4, 5
   and 20 of the tree's table, then 4 and 5 of the new one. They are the fastest that were found, and write no table of
   the grafted tree. The reply is the part's, 4, 5, 7 and 8 without a figure. */
uint64_t plain_look(size_t n, uint32_t times, const uint16_t *listing, const uint32_t *table, size_t edge,
                    const uint32_t *new_table);
int plain_look_all(size_t n, uint32_t times, const uint16_t *listing, const uint32_t *table, const uint32_t *new_table,
                   uint64_t *totals);
/* Two leaf sets joined, intersected and compared: 2 and 3 judged, and the reply as the part's. By words of 64 bits
   (plain_sets.c); by a loop over the bytes (plain_bytes.c), as gcc -O2 makes it; and by the same loop, kept to one byte
   after the other. The idle ones do nothing: what they take is the call's own time. */
typedef uint64_t set_maker(const uint8_t *a, size_t a_len, const uint8_t *b, size_t b_len, uint8_t *out, size_t room);
typedef uint64_t set_comparer(const uint8_t *a, size_t a_len, const uint8_t *b, size_t b_len);
set_maker plain_join, plain_intersect, bytes_join, bytes_intersect, single_join, single_intersect, idle_maker;
set_comparer plain_equal, bytes_equal, single_equal, idle_comparer;
/* The splits, sixteen bytes each, joined by words and written in the standard listing's order without that listing: the
   fastest that was found. */
void plain_splits(size_t n, const uint16_t *listing, uint8_t *out);
/* 0, 1 or 2: how the tree pairs the four leaves. */
int plain_pairing(size_t n, const uint16_t *listing, const uint16_t question[4]);
/* The sums of a poll of records of five bytes, in sixths: 0, 10 or 11. All is judged before the first write. It is the
   fastest that was found: no branch by the code, and three of a record's six sums kept while its last leaf goes up. */
int plain_poll(size_t n, const uint8_t *records, uint32_t *out);
/* A sheet judged by its trailer: 0, or 13, 1, 14, 15, 16; and where its cells begin. */
int plain_sheet(const uint8_t *sheet, size_t len, size_t *n, size_t *offset);
/* The table of a sheet, and its tree's listing in bytes: 0, or as plain_sheet, or 6. */
int plain_sheet_table(const uint8_t *sheet, size_t len, uint32_t *out);
int plain_rebuild_sheet(const uint8_t *sheet, size_t len, uint8_t *out);
/* 256 times the place of a name's first byte and its length, of a sheet that is accepted; else 0. */
size_t plain_sheet_name(const uint8_t *sheet, size_t len, size_t leaf);
/* The text of a listing's tree, and the tree of a text: all judged, and the reply as the part's. */
uint64_t plain_export(const uint8_t *sheet, size_t sheet_len, const uint16_t *listing, size_t len, uint8_t *text,
                      size_t room);
uint64_t plain_import(const uint8_t *sheet, size_t sheet_len, const uint8_t *text, size_t len, uint16_t *out,
                      size_t room);
/* Textbook neighbour joining, n * n * n, with the counts taken for similarities: the pairs joined, as leaf numbers.
   It makes no listing and refuses nothing. */
void neighbour_joining(size_t n, const uint32_t *table, uint16_t *joined);
#endif
