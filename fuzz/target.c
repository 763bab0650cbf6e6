/* target.c: the fuzzer's target. It reads a call out of the fuzzer's bytes, makes it to the reference and to the
   archive, and stops at any difference.

   Compared are the reply and every byte of every lent buffer, inputs too; and the guard bytes beside the archive's
   buffers must be as they were. At a difference the call is printed and the program aborts. With QUARTREE_FUZZ_SHOW in
   the environment every call is printed before it is made, so that an input that traps can be read as well.

   The bytes of an input: two that choose the stream which goes on after the last byte, then the entry, then the
   arguments in the order in which they are read below. draw.c says what they mean. */

#include "draw.h"
#include "lent.h"
#include <inttypes.h>
#include <stdio.h>
#include <stdlib.h>

enum entry {
    CHECK, STANDARDISE, SPLITS, PAIRING, TABLE, GAP, REBUILD, REBUILD_GUIDED, POLL, SHEET_TABLE, SHEET_NAME,
    REBUILD_SHEET, CHECK_SHEET, EXPORT, IMPORT, RESTANDARDISE, GUESS, GRAFT, PRUNE, SET_JOIN, SET_INTERSECT, SET_EQUAL,
    LOOK, LOOK_ALL, ENTRIES
};

static const char *const entry_name[ENTRIES] = {
    "check", "standardise", "splits", "pairing", "table", "gap", "rebuild", "rebuild_guided", "poll", "sheet_table",
    "sheet_name", "rebuild_sheet", "check_sheet", "export", "import", "restandardise", "guess", "graft", "prune",
    "set_join", "set_intersect", "set_equal", "look", "look_all"
};

/* The reference's entries take what the archive's take. */
extern __typeof__(quartree_check) reference_check;
extern __typeof__(quartree_standardise) reference_standardise;
extern __typeof__(quartree_splits) reference_splits;
extern __typeof__(quartree_pairing) reference_pairing;
extern __typeof__(quartree_table) reference_table;
extern __typeof__(quartree_gap) reference_gap;
extern __typeof__(quartree_rebuild) reference_rebuild;
extern __typeof__(quartree_rebuild_guided) reference_rebuild_guided;
extern __typeof__(quartree_poll) reference_poll;
extern __typeof__(quartree_sheet_table) reference_sheet_table;
extern __typeof__(quartree_sheet_name) reference_sheet_name;
extern __typeof__(quartree_rebuild_sheet) reference_rebuild_sheet;
extern __typeof__(quartree_check_sheet) reference_check_sheet;
extern __typeof__(quartree_export) reference_export;
extern __typeof__(quartree_import) reference_import;
extern __typeof__(quartree_restandardise) reference_restandardise;
extern __typeof__(quartree_guess) reference_guess;
extern __typeof__(quartree_graft) reference_graft;
extern __typeof__(quartree_prune) reference_prune;
extern __typeof__(quartree_set_join) reference_set_join;
extern __typeof__(quartree_set_intersect) reference_set_intersect;
extern __typeof__(quartree_set_equal) reference_set_equal;
extern __typeof__(quartree_look) reference_look;
extern __typeof__(quartree_look_all) reference_look_all;

/* A call: the numbers it is given, and the buffers it is lent, inputs in the order of its arguments and then the
   outputs; but the text of an import, which may be all bytes that are left, is the last. Of a sheet, n is what its
   trailer says and is not an argument; of leaf sets it is 0. */
struct call {
    enum entry entry;
    uint32_t word;   /* for a table */
    uint32_t origin; /* of a record */
    size_t n;
    size_t named; /* a leaf or an edge */
    size_t buffers;
    struct lent lent[MOST_LENT];
};

_Static_assert(sizeof(struct quartree_record) * MOST_RECORDS + GUARD_BYTES <= MEMORY_BYTES, "a poll can be lent");
_Static_assert(sizeof(int64_t) * MOST_CELLS + GUARD_BYTES <= MEMORY_BYTES, "every output can be lent");

/* How often each entry was answered by each number. */
enum { NUMBERS = 21 };
static unsigned long answered[ENTRIES][NUMBERS];

/* What the fuzzer takes for new besides places in the code: an entry with a number at a class of leaf counts, for a
   poll's table another one. */
enum { SIZES = 34, CLASSES = 2 * SIZES };
__attribute__((section("__libfuzzer_extra_counters"))) static uint8_t reached[ENTRIES][NUMBERS][CLASSES];

/* ---- Reading a call ---------------------------------------------------------------------------------------------- */

static void lend_next(struct call *call, const char *name, const void *content, size_t cell_bytes, size_t cells)
{
    lend(&call->lent[call->buffers], call->buffers, name, content, cell_bytes, cells);
    call->buffers++;
}

/* Lends an output whose room is drawn, of any content. */
static void lend_output(struct source *source, struct call *call, size_t cell_bytes, size_t result)
{
    static uint8_t content[8 * MOST_CELLS];
    size_t room = draw_room(source, result);
    uint8_t first = take(source);
    for (size_t byte = 0; byte < cell_bytes * room; byte++)
        content[byte] = (uint8_t)(first + 151 * byte);
    lend_next(call, "output", content, cell_bytes, room);
}

/* The elements of a result; of one that is due for no leaf count, a few. */
static size_t result_of(size_t n, size_t elements)
{
    return n >= QUARTREE_LEAST_LEAVES && n <= FITTED_LEAVES ? elements : 4;
}

/* check, standardise, restandardise, splits, pairing, table */
static void read_listing_call(struct source *source, struct call *call)
{
    static uint16_t listing[MOST_NUMBERS], question[MOST_NUMBERS];
    size_t n = call->n = draw_leaf_count(source), len;
    draw_listing(source, n, listing);
    len = damage_listing(source, n, listing);
    lend_next(call, "listing", listing, sizeof *listing, len);
    if (call->entry == RESTANDARDISE)
        call->origin = draw_origin(source);
    if (call->entry == STANDARDISE || call->entry == RESTANDARDISE)
        lend_output(source, call, sizeof(uint16_t), result_of(n, QUARTREE_LISTING_NUMBERS(n)));
    if (call->entry == SPLITS)
        lend_output(source, call, 1, result_of(n, QUARTREE_SPLIT_BYTES(n)));
    if (call->entry == TABLE)
        lend_output(source, call, sizeof(uint32_t), result_of(n, QUARTREE_TABLE_CELLS(n)));
    if (call->entry == PAIRING) {
        len = draw_question(source, n, question);
        lend_next(call, "question", question, sizeof *question, len);
    }
}

/* The word for a table, and its leaf count. */
static size_t read_word_and_count(struct source *source, struct call *call)
{
    call->word = draw_word(source);
    call->n = call->word == QUARTREE_COUNTS ? draw_leaf_count(source) : draw_poll_leaf_count(source);
    return call->n;
}

/* A listing and a table, with the merges that the table comes from. */
struct kept {
    uint16_t listing[MOST_NUMBERS], merges[MOST_NUMBERS];
    uint32_t table[MOST_CELLS];
    size_t len, cells;
};

/* Draws them, of one tree in so many cases of 256, else of two. */
static void read_kept(struct source *source, const struct call *call, unsigned of_one, struct kept *kept)
{
    draw_listing(source, call->n, kept->listing);
    if (take(source) < of_one)
        merges_of_listing(call->n, kept->listing, kept->merges);
    else
        draw_merges(source, call->n, kept->merges);
    table_of_merges(call->n, kept->merges, kept->table);
    scale_table(source, call->n, call->word, kept->table);
    kept->cells = damage_table(source, call->n, kept->table);
    kept->len = damage_listing(source, call->n, kept->listing);
}

static void read_gap_call(struct source *source, struct call *call)
{
    static struct kept kept;
    size_t n = read_word_and_count(source, call);
    read_kept(source, call, 128, &kept);
    lend_next(call, "table", kept.table, sizeof *kept.table, kept.cells);
    lend_next(call, "listing", kept.listing, sizeof *kept.listing, kept.len);
    lend_output(source, call, sizeof(int64_t), result_of(n, QUARTREE_TABLE_CELLS(n)));
}

/* graft, prune */
static void read_change_call(struct source *source, struct call *call)
{
    static struct kept kept;
    size_t n = call->n = draw_leaf_count(source), fitting = result_of(n, n);
    size_t result = call->entry == GRAFT ? n + 1 : n - 1;
    read_kept(source, call, 240, &kept);
    call->named = call->entry == GRAFT ? draw_edge(source, fitting) : draw_leaf(source, fitting);
    lend_next(call, "listing", kept.listing, sizeof *kept.listing, kept.len);
    lend_next(call, "table", kept.table, sizeof *kept.table, kept.cells);
    lend_output(source, call, sizeof(uint16_t), result_of(n, QUARTREE_LISTING_NUMBERS(result)));
    lend_output(source, call, sizeof(uint32_t), result_of(n, QUARTREE_TABLE_CELLS(result)));
}

/* look, look_all. The table kept is drawn as one of counts, whatever the word for the new table is. */
static void read_look_call(struct source *source, struct call *call)
{
    static struct kept kept;
    static uint32_t new_table[MOST_CELLS];
    uint32_t word = draw_word(source);
    size_t n = call->n = draw_look_leaf_count(source, word, call->entry == LOOK_ALL), new_cells;
    read_kept(source, call, 240, &kept);
    call->word = word;
    graft_merges(source, n, kept.merges);
    table_of_merges(n + 1, kept.merges, new_table);
    scale_table(source, n + 1, word, new_table);
    roughen_table(source, n + 1, new_table);
    new_cells = damage_table(source, n + 1, new_table);
    lend_next(call, "listing", kept.listing, sizeof *kept.listing, kept.len);
    lend_next(call, "table", kept.table, sizeof *kept.table, kept.cells);
    lend_next(call, "new table", new_table, sizeof *new_table, new_cells);
    if (call->entry == LOOK)
        call->named = draw_edge(source, result_of(n, n));
    else
        lend_output(source, call, sizeof(uint64_t), result_of(n, QUARTREE_EDGES(n)));
}

/* rebuild, rebuild_guided, guess */
static void read_rebuild_call(struct source *source, struct call *call)
{
    static uint16_t merges[MOST_NUMBERS];
    static uint32_t table[MOST_CELLS];
    size_t n = read_word_and_count(source, call), len, cells;
    draw_merges(source, n, merges);
    table_of_merges(n, merges, table);
    scale_table(source, n, call->word, table);
    if (call->entry == GUESS)
        roughen_table(source, n, table);
    cells = damage_table(source, n, table);
    lend_next(call, "table", table, sizeof *table, cells);
    if (call->entry == REBUILD_GUIDED) {
        len = damage_merges(source, n, merges);
        lend_next(call, "merges", merges, sizeof *merges, len);
    }
    lend_output(source, call, sizeof(uint16_t), result_of(n, QUARTREE_LISTING_NUMBERS(n)));
}

static void read_poll_call(struct source *source, struct call *call)
{
    static struct quartree_record records[MOST_RECORDS];
    size_t n = call->n = draw_poll_leaf_count(source);
    size_t count = draw_poll(source, n, records);
    lend_next(call, "records", records, sizeof *records, count);
    lend_output(source, call, sizeof(uint32_t), result_of(n, QUARTREE_TABLE_CELLS(n)));
}

/* Lends a sheet. What is returned is its leaf count, or 5 if that is refused. */
static size_t lend_sheet(struct call *call, const uint8_t *sheet, size_t len)
{
    call->n = len < 8 ? 0 : sheet[len - 8] + (size_t)256 * sheet[len - 7];
    lend_next(call, "sheet", sheet, 1, len);
    return call->n >= QUARTREE_LEAST_LEAVES && call->n <= QUARTREE_MOST_LEAVES ? call->n : 5;
}

/* sheet_table, sheet_name, rebuild_sheet, check_sheet */
static void read_sheet_call(struct source *source, struct call *call)
{
    static uint8_t sheet[MOST_SHEET_BYTES];
    size_t len = draw_sheet(source, sheet), n = lend_sheet(call, sheet, len);
    if (call->entry == SHEET_TABLE)
        lend_output(source, call, sizeof(uint32_t), QUARTREE_TABLE_CELLS(n));
    else if (call->entry == REBUILD_SHEET)
        lend_output(source, call, 1, QUARTREE_LISTING_BYTES(n));
    else if (call->entry == SHEET_NAME)
        call->named = draw_leaf(source, n);
}

/* The length of an export with this sheet: a length byte a name stands before the offset, too. */
static size_t export_bytes(const uint8_t *sheet, size_t len, size_t n)
{
    size_t offset = len < 8 ? 0 : sheet[len - 6] + (size_t)256 * sheet[len - 5];
    return offset > 0 && offset < len ? offset + 2 * (n - 2) : 8;
}

/* export, import */
static void read_text_call(struct source *source, struct call *call)
{
    static uint8_t sheet[MOST_SHEET_BYTES], text[MOST_TEXT_BYTES];
    static uint16_t listing[MOST_NUMBERS];
    size_t sheet_len = draw_sheet_for_text(source, sheet), n = lend_sheet(call, sheet, sheet_len), len;
    if (call->entry == EXPORT) {
        draw_listing(source, n, listing);
        len = damage_listing(source, n, listing);
        lend_next(call, "listing", listing, sizeof *listing, len);
        lend_output(source, call, 1, export_bytes(sheet, sheet_len, n));
    } else {
        lend_output(source, call, sizeof(uint16_t), QUARTREE_LISTING_NUMBERS(n));
        len = draw_text(source, sheet, sheet_len, n, text);
        lend_next(call, "text", text, 1, len);
    }
}

/* set_join, set_intersect, set_equal */
static void read_set_call(struct source *source, struct call *call)
{
    static uint8_t set[MOST_SET_BYTES], other[MOST_SET_BYTES];
    size_t len;
    draw_set(source, set);
    draw_other_set(source, set, other);
    len = damage_set(source, set);
    lend_next(call, "first set", set, 1, len);
    len = damage_set(source, other);
    lend_next(call, "second set", other, 1, len);
    if (call->entry != SET_EQUAL)
        lend_output(source, call, 1, QUARTREE_SET_BYTES);
}

static void read_call(struct source *source, struct call *call)
{
    call->entry = (enum entry)below(source, ENTRIES);
    call->buffers = 0;
    call->n = 0;
    call->named = 0;
    call->word = QUARTREE_COUNTS;
    call->origin = QUARTREE_REBUILT;
    switch (call->entry) {
    case GAP:
        read_gap_call(source, call);
        break;
    case REBUILD:
    case REBUILD_GUIDED:
    case GUESS:
        read_rebuild_call(source, call);
        break;
    case GRAFT:
    case PRUNE:
        read_change_call(source, call);
        break;
    case LOOK:
    case LOOK_ALL:
        read_look_call(source, call);
        break;
    case POLL:
        read_poll_call(source, call);
        break;
    case SHEET_TABLE:
    case SHEET_NAME:
    case REBUILD_SHEET:
    case CHECK_SHEET:
        read_sheet_call(source, call);
        break;
    case EXPORT:
    case IMPORT:
        read_text_call(source, call);
        break;
    case SET_JOIN:
    case SET_INTERSECT:
    case SET_EQUAL:
        read_set_call(source, call);
        break;
    default:
        read_listing_call(source, call);
    }
}

/* ---- Making it --------------------------------------------------------------------------------------------------- */

/* The taker's entry, with these arguments. */
#define ASK(name, ...) (taker == REFERENCE ? reference_##name(__VA_ARGS__) : quartree_##name(__VA_ARGS__))

/* A buffer as two arguments, the pointer and its length. */
#define LENT(place) call->lent[place].first[taker], call->lent[place].cells

static uint64_t make_call(const struct call *call, enum taker taker)
{
    switch (call->entry) {
    case CHECK:
        return ASK(check, call->n, LENT(0));
    case STANDARDISE:
        return ASK(standardise, call->n, LENT(0), LENT(1));
    case SPLITS:
        return ASK(splits, call->n, LENT(0), LENT(1));
    case PAIRING:
        return ASK(pairing, call->n, LENT(0), LENT(1));
    case TABLE:
        return ASK(table, call->n, LENT(0), LENT(1));
    case GAP:
        return ASK(gap, call->n, call->word, LENT(0), LENT(1), LENT(2));
    case REBUILD:
        return ASK(rebuild, call->n, call->word, LENT(0), LENT(1));
    case REBUILD_GUIDED:
        return ASK(rebuild_guided, call->n, call->word, LENT(0), LENT(1), LENT(2));
    case POLL:
        return ASK(poll, call->n, LENT(0), LENT(1));
    case SHEET_TABLE:
        return ASK(sheet_table, LENT(0), LENT(1));
    case SHEET_NAME:
        return ASK(sheet_name, LENT(0), call->named);
    case REBUILD_SHEET:
        return ASK(rebuild_sheet, LENT(0), LENT(1));
    case EXPORT:
        return ASK(export, LENT(0), LENT(1), LENT(2));
    case IMPORT:
        return ASK(import, LENT(0), LENT(2), LENT(1));
    case RESTANDARDISE:
        return ASK(restandardise, call->n, call->origin, LENT(0), LENT(1));
    case GUESS:
        return ASK(guess, call->n, call->word, LENT(0), LENT(1));
    case GRAFT:
        return ASK(graft, call->n, LENT(0), LENT(1), call->named, LENT(2), LENT(3));
    case PRUNE:
        return ASK(prune, call->n, LENT(0), LENT(1), call->named, LENT(2), LENT(3));
    case SET_JOIN:
        return ASK(set_join, LENT(0), LENT(1), LENT(2));
    case SET_INTERSECT:
        return ASK(set_intersect, LENT(0), LENT(1), LENT(2));
    case SET_EQUAL:
        return ASK(set_equal, LENT(0), LENT(1));
    case LOOK:
        return ASK(look, call->n, call->word, LENT(0), LENT(1), call->named, LENT(2));
    case LOOK_ALL:
        return ASK(look_all, call->n, call->word, LENT(0), LENT(1), LENT(2), LENT(3));
    default:
        return ASK(check_sheet, LENT(0));
    }
}

static void print_call(const struct call *call)
{
    printf("call: quartree_%s, n = %zu", entry_name[call->entry], call->n);
    if (call->entry == SHEET_NAME || call->entry == PRUNE)
        printf(", leaf = %zu", call->named);
    if (call->entry == GRAFT || call->entry == LOOK)
        printf(", edge = %zu", call->named);
    if (call->entry == GAP || call->entry == REBUILD || call->entry == REBUILD_GUIDED || call->entry == GUESS
        || call->entry == LOOK || call->entry == LOOK_ALL)
        printf(", poll = %" PRIu32, call->word);
    if (call->entry == RESTANDARDISE)
        printf(", origin = %" PRIu32, call->origin);
    putchar('\n');
    for (size_t place = 0; place < call->buffers; place++)
        print_lent(&call->lent[place]);
}

static void print_reply(const char *who, uint64_t reply)
{
    printf("the %s replies %u with %" PRIu64 " (%s)\n", who, QUARTREE_NUMBER(reply), QUARTREE_FIGURE(reply),
           quartree_refusal_text(QUARTREE_NUMBER(reply)));
}

/* Makes the call to the archive. What is not as with the reference is printed, with the call; and then it stops. */
static void compare(const struct call *call, uint64_t due, enum taker taker)
{
    uint64_t reply = make_call(call, taker);
    bool alike = reply == due;
    for (size_t place = 0; place < call->buffers; place++)
        alike = alike && lent_alike(&call->lent[place], taker);
    if (alike)
        return;
    printf("difference\n");
    print_call(call);
    print_reply("archive", reply);
    print_reply("reference", due);
    for (size_t place = 0; place < call->buffers; place++)
        print_lent_difference(&call->lent[place], taker);
    fflush(stdout);
    abort();
}

/* ---- Counting ---------------------------------------------------------------------------------------------------- */

static void print_answered(void)
{
    for (size_t entry = 0; entry < ENTRIES; entry++) {
        printf("%14s  accepted: %lu, refused", entry_name[entry], answered[entry][0]);
        for (size_t number = 1; number < NUMBERS; number++)
            if (answered[entry][number] > 0)
                printf(" %zu: %lu", number, answered[entry][number]);
        putchar('\n');
    }
}

/* The class of a leaf count: 0 for a refused one, one of its own up to 32, and three beyond. */
static size_t class_of(size_t n)
{
    if (n < QUARTREE_LEAST_LEAVES || n > QUARTREE_MOST_LEAVES)
        return 0;
    return n <= 32 ? n - 2 : n <= 64 ? 31 : n < QUARTREE_MOST_LEAVES ? 32 : 33;
}

static void count_answer(const struct call *call, uint64_t reply)
{
    unsigned number = QUARTREE_NUMBER(reply);
    if (number >= NUMBERS)
        return;
    answered[call->entry][number]++;
    reached[call->entry][number][class_of(call->n) + (call->word == QUARTREE_COUNTS ? 0 : SIZES)] = 1;
}

int LLVMFuzzerInitialize(int *argc, char ***argv)
{
    (void)argc;
    (void)argv;
    return atexit(print_answered);
}

int LLVMFuzzerTestOneInput(const uint8_t *data, size_t size)
{
    static struct call call;
    struct source source = source_of(data, size);
    uint64_t due;
    read_call(&source, &call);
    if (getenv("QUARTREE_FUZZ_SHOW") != NULL) {
        print_call(&call);
        fflush(stdout);
    }
    due = make_call(&call, REFERENCE);
    compare(&call, due, PAGE_BEFORE);
    compare(&call, due, PAGE_AFTER);
    count_answer(&call, due);
    return 0;
}
