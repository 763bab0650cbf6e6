/* draw.h: the arguments of a call, drawn from the fuzzer's bytes.

   The bytes decide everything: the leaf count, the tree, the damage done to its listing or table, lengths and rooms.
   Bytes of 0 stand for what is plain and whole, so that most calls pass the first judgements and a few bytes spoil
   them. Every element up to a returned length is drawn; none is left over from an earlier call. */

#ifndef DRAW_H
#define DRAW_H

#include "../include/quartree.h"
#include <stdbool.h>

enum {
    FITTED_LEAVES = 131,     /* the largest leaf count for which inputs of fitting length are drawn; 129 is refused */
    FITTED_POLL_LEAVES = 34, /* the same for polls; 33 is refused */
    SLACK = 40,              /* how many elements more than fit an input or a room may have */
    MOST_NUMBERS = 2 * FITTED_LEAVES + SLACK,
    MOST_CELLS = FITTED_LEAVES * FITTED_LEAVES + SLACK,
    MOST_RECORDS = FITTED_POLL_LEAVES * 33 * 32 * 31 / 24 + SLACK,
    MOST_SHEET_BYTES = 24576,
    MOST_TEXT_BYTES = 24576,
    MOST_SET_BYTES = QUARTREE_SET_BYTES + SLACK
};

/* The fuzzer's bytes, taken one after the other. They go on for ever: after the last one come the bytes of a stream
   that the first two bytes choose, all of them 0 if both are 0. */
struct source {
    const uint8_t *next;
    size_t left;
    uint64_t stream;
};

struct source source_of(const uint8_t *data, size_t size);
uint8_t take(struct source *source);

/* A number from 0 to bound - 1, out of one byte, or out of two if bound is above 256. */
size_t below(struct source *source, size_t bound);

/* Leaf counts: most are small, a few are 128, and some are refused. */
size_t draw_leaf_count(struct source *source);
size_t draw_poll_leaf_count(struct source *source);

/* The leaf count of a tree that is looked at for a new table, by the word for this; a smaller one where all edges are
   looked at, since the reference counts a table for each. */
size_t draw_look_leaf_count(struct source *source, uint32_t word, bool all);

/* The caller's word for a table: mostly that it is one of counts, else any number. */
uint32_t draw_word(struct source *source);

/* The number of a record's origin: mostly a small one, else one that differs from it in one bit, or any number. */
uint32_t draw_origin(struct source *source);

/* The room of an output: mostly the result's length, else less, or more by up to SLACK. */
size_t draw_room(struct source *source, size_t result);

/* Whole inputs. Where no tree has n leaves, or n is above FITTED_LEAVES, these do nothing. A whole list of merges joins
   all leaves and comes from the same free choices as a tree; its table is the one that it leads through. */
void draw_listing(struct source *source, size_t n, uint16_t *listing);
void draw_merges(struct source *source, size_t n, uint16_t *merges);
void merges_of_listing(size_t n, const uint16_t *listing, uint16_t *merges);
void table_of_merges(size_t n, const uint16_t *merges, uint32_t *table);

/* The merges of n leaves become those of n + 1: mostly leaf n is put on an edge of their tree, else they are others. */
void graft_merges(struct source *source, size_t n, uint16_t *merges);

/* Makes a table six times as large where the word for it is that it is a poll's; seldom where it is not. */
void scale_table(struct source *source, size_t n, uint32_t word, uint32_t *table);

/* Makes a whole table rough, in half of the cases: every cell off by a little or by more, or of 0 or the greatest
   value, or of any. */
void roughen_table(struct source *source, size_t n, uint32_t *table);

/* Damage to a whole input, none in most cases: to its elements and then to its length, which is returned. */
size_t damage_listing(struct source *source, size_t n, uint16_t *listing);
size_t damage_merges(struct source *source, size_t n, uint16_t *merges);
size_t damage_table(struct source *source, size_t n, uint32_t *table);

/* A question, a poll and a sheet, damaged or not, and their lengths. */
size_t draw_question(struct source *source, size_t n, uint16_t *question);
size_t draw_poll(struct source *source, size_t n, struct quartree_record *records);
size_t draw_sheet(struct source *source, uint8_t *sheet);

/* The leaf that a sheet of n leaves is asked about or a tree is pruned of, and the edge that one is grafted on: mostly
   one that is there. */
size_t draw_leaf(struct source *source, size_t n);
size_t draw_edge(struct source *source, size_t n);

/* A sheet for a text: mostly whole, with short names and cells of 0. */
size_t draw_sheet_for_text(struct source *source, uint8_t *sheet);

/* A text for a sheet of n leaves: all bytes that are left, or a drawing with the sheet's names, damaged or not. */
size_t draw_text(struct source *source, const uint8_t *sheet, size_t sheet_len, size_t n, uint8_t *text);

/* Two leaf sets: of any leaves, of none or all, or of one or all but one; the second is mostly close to the first. What
   is damaged is their lengths, which are drawn last. */
void draw_set(struct source *source, uint8_t *set);
void draw_other_set(struct source *source, const uint8_t *set, uint8_t *other);
size_t damage_set(struct source *source, uint8_t *set);

#endif
