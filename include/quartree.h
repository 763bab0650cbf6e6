/* quartree.h: count tables and strain trees.

   The part turns a table of quartet counts into the one tree that has it, or refuses; and it goes the other way. Trees
   have no root and no branch lengths. Link with libquartree.a. It takes nothing from the C library but memcpy, memmove,
   memset and memcmp.

   This header is the manual. It has, in this order: the words, the sizes, the reply and the causes of refusal, the
   origins, what a caller owes, what every call promises, and then the calls.

   Job                                               Call
   know which archive is linked                      quartree_version
   check a listing                                   quartree_check
   put a listing into standard form                  quartree_standardise
     .. that of a tree record, with its origin       quartree_restandardise
   list a tree's groupings                           quartree_splits
   join, intersect, compare sets of leaves           quartree_set_join, quartree_set_intersect, quartree_set_equal
   ask how a tree pairs four leaves                  quartree_pairing
   count the table of a tree                         quartree_table
   compare a table with a tree, cell by cell         quartree_gap
   rebuild the tree of a table                       quartree_rebuild
     .. by a list of merges                          quartree_rebuild_guided
     .. or guess one where no tree has the table     quartree_guess
   add a leaf to a tree, take one away               quartree_graft, quartree_prune
   see how well a new leaf fits on an edge, on all   quartree_look, quartree_look_all
   add up a poll of quartets                         quartree_poll
   check a strain sheet                              quartree_check_sheet
   read its table, find a name in it                 quartree_sheet_table, quartree_sheet_name
   rebuild its tree                                  quartree_rebuild_sheet
   write a tree as Newick text, read one             quartree_export, quartree_import

   What the calls promise is proved, for every input. A name in quotes, as 'one_table', is a law; docs/LAWS.md of the
   sources says where it stands. */

#ifndef QUARTREE_H
#define QUARTREE_H

#include <stddef.h>
#include <stdint.h>

#define QUARTREE_VERSION "0.10.0"
#define QUARTREE_VERSION_MAJOR 0
#define QUARTREE_VERSION_MINOR 10
#define QUARTREE_VERSION_PATCH 0
#define QUARTREE_VERSION_NUMBER \
    (QUARTREE_VERSION_MAJOR * 65536 + QUARTREE_VERSION_MINOR * 256 + QUARTREE_VERSION_PATCH)

/* From 0.9 to 0.10: quartree_version is new, and so are QUARTREE_VERSION_NUMBER and the macros QUARTREE_GUESS_TOTAL,
   QUARTREE_GUESS_ORIGIN, QUARTREE_NAME_OFFSET and QUARTREE_NAME_LENGTH. A compiler that knows how warns where a reply
   is not used or a null pointer is lent. Every call answers as before. CHANGELOG.md of the sources has the earlier
   versions. */

/* ---- Words ----------------------------------------------------------------------------------------------------------

   Tree. Leaves are numbered 0 to n-1, n from 3 to 128. A tree is unrooted and binary: n leaves, and n-2 inner nodes of
   three edges. It is drawn as hanging from leaf 0.

   Listing. A tree is lent as a listing of n-2 rows. Row k (from 0) names the two children of node n+k, at places 2k
   and 2k+1. A child is a leaf 1 to n-1 or the node of an earlier row, and each stands once. The last node, 2n-3, is
   joined to leaf 0. Every listing that keeps these rules stands for one tree.

   Standard listing. Its nodes are in post-order; of two children the one with the smaller least leaf comes first.
   Every tree has one standard listing, and two trees on the same leaves are the same exactly when their standard
   listings are equal. Other listings say nothing by their differences: for n = 4, 2 3 4 1 and 2 3 1 4 are one tree.

   Edge. An edge is named by the node below it in the standard listing, 1 to 2n-3, whatever listing is lent. So a leaf
   1 to n-1 names its own edge, and 2n-3 is the edge between the last node and leaf 0.

   Leaf set. It is sixteen bytes (QUARTREE_SET_BYTES), one bit a leaf: leaf k is bit k mod 8 of byte k div 8, bit 0 the
   lowest.

   Split. The set of leaves under an inner node other than the last, as a leaf set. Its bits from n on are 0.

   Quartet. Four different leaves. The tree pairs i,j against p,q when some edge separates i and j from p and q. Four
   leaves in an order have pairing 0 (first with second), 1 (first with third) or 2 (first with fourth).

   Table. n * n cells, row by row: cell (i,j) is at place n*i + j. Cell (i,j) of a tree's table is the number of
   unordered pairs p,q of other leaves with i,j paired against p,q. Its diagonal is 0 and its largest cell is at most
   7,875. Different trees on the same leaves have different tables ('one_table'). A table is lent as one of counts or
   as a poll's, which counts sixths; the caller says which. A tree has a table of counts when its own table equals it in
   every cell, and a poll's table when six times its own table does.

   Merges. P(k) is k(k-1)/2. Merging starts with n subtrees of one leaf; each leaf i has m(i) = 0. Two different
   subtrees A and B of a and b leaves are eligible when for every i in A and j in B, cell (i,j) is
   P(n-a-b) + m(i) + m(j), in a poll's table six times that. Merging them adds P(b) to m of A's leaves and P(a) to m of
   B's. After n-1 merges one subtree holds all leaves; the last merge joins two subtrees by an edge and makes no node.

   Guess. The tree that n-1 merges leave when each takes the two different subtrees with the smallest mean gap,
   eligible or not ('nearest_is'). They start from the single leaves, with every m at 0, and m grows as above. The mean
   gap of A and B is taken over their a*b cells: the sum, over every i in A and j in B, of the distance between cell
   (i,j) and the value that an eligible pair has there, divided by a*b. Means are compared exactly, as fractions. Of
   pairs with equal means the first in row order is taken, where a pair stands as the least leaves of A and B, the
   smaller first. Where a tree has the table, the guess is that tree ('guess_exact'). Where none has, a guess is a
   proposal: greedy merging, with no step taken back and no other tree tried. docs/GUESS.md of the sources has how
   often it finds the tree behind a rough table.

   Total gap. Of a table and a tree: the sum, over all i < j, of the distance between cell (i,j) of the table and cell
   (i,j) of the tree's own table, or six times that cell where the table is a poll's. It is below 2^45, and 0 exactly
   when the tree has the table. A guess need not be the tree with the smallest total gap.

   Graft. Leaf n is put on an edge: a new node divides the edge in two, and an edge joins leaf n to that node. The tree
   has n+1 leaves then, and any four of the old ones are paired as before ('grafted_paired').

   Prune. A leaf is taken away, and so is the node that it was joined to, whose two other edges become one. Higher
   leaves move down by one, so the tree has the leaves 0 to n-2 then; names that a caller keeps by leaf move down with
   them. Leaf 0 may be pruned: what was leaf 1 is leaf 0 then, and the tree hangs from it. Any four leaves that stay are
   paired as before ('pruned_paired').

   Poll. One record a quartet: four leaves a < b < c < d and a pairing code. Codes 0, 1 and 2 are the pairings of
   a, b, c, d. The others are ties: 3 allows all three pairings, 4 allows 0 and 1, 5 allows 0 and 2, and 6 allows 1 and
   2. A poll of n leaves, n from 4 to 32, has a record for every quartet, in lexicographic order of the four leaves.

   A poll's table. Each record has six sixths. Codes 0, 1 and 2 give 6 to their pairing; 3 gives 2 to each pairing; 4, 5
   and 6 give 3 to each of their two. What a pairing is given is added to the cells of its two pairs and to their mirror
   cells. So the cells above the diagonal total 12 times the number of records ('poll_total'). The poll of a tree's own
   pairings has six times the tree's table ('own_poll'), and is rebuilt as that tree ('own_poll_rebuilt').

   Sheet. A byte file: names, cells, trailer. A name is a length byte 1 to 40, then that many letters, digits, full
   stops or hyphens (ASCII); the names are those of leaves 0, 1, 2 and so on, no two equal. The cells are those above
   the diagonal of a table of counts, row by row, 16 bits each, low byte first. The trailer is the last 8 bytes: the
   leaf count (16 bits), the offset of the first cell (32 bits), both low byte first, then the bytes 51 54 hexadecimal.
   Names fill everything before that offset, cells everything from it to the trailer.

   Text. A tree as other programs write it (Newick), as in (a,b,(c,(d,e)));. A drawing is a name or a bracket. A name
   has one byte or more of those that a sheet's names have. A bracket holds one drawing or more, its parts, with commas
   between them. A length may follow any name or closing bracket: a colon, and then one or more digits, full stops,
   signs, e or E. A text is a bracket, called the top, with its length if it has one, and a semicolon. Blanks (bytes 9,
   10, 13 and 32) may stand anywhere but inside a name or a length, of which the colon is the first byte. Quotes,
   comments and labels of inner nodes break this grammar, and so does a bracket that nests deeper than 127, the top
   being 1 deep.

   What a text draws. Every bracket is a node, and an edge joins it to each of its parts; but a top of two parts is no
   node, and one edge joins its parts. Lengths say nothing. Where every bracket has two parts, or three as the top, and
   the names are the sheet's, each once, that is one unrooted binary tree on the sheet's leaves.

   Tree record. A leaf count, a listing and an origin, which a caller keeps side by side; the part keeps none.

   Origin. Where the tree of a record came from: rebuilt from a table, listed (lent as a listing), imported from a text,
   guessed from a table that no tree has, or grafted. Grafted stands for every tree that a graft or a prune changed. */

/* ---- Sizes ----------------------------------------------------------------------------------------------------------

   The macros are for leaf counts within the limits, and may evaluate their argument more than once. A tree of three
   leaves has no split, so QUARTREE_SPLIT_BYTES(3) is 0, and C has no array of that size. */

#define QUARTREE_LEAST_LEAVES 3
#define QUARTREE_MOST_LEAVES 128
#define QUARTREE_POLL_LEAST_LEAVES 4
#define QUARTREE_POLL_MOST_LEAVES 32
#define QUARTREE_SHEET_MOST_BYTES (41 * QUARTREE_MOST_LEAVES + QUARTREE_MOST_LEAVES * (QUARTREE_MOST_LEAVES - 1) + 8)
#define QUARTREE_SET_BYTES (8 * ((QUARTREE_MOST_LEAVES + 63) / 64)) /* of a leaf set: a bit a leaf, in whole words */
#define QUARTREE_STACK_BYTES 32768 /* of stack, enough for every call but quartree_guess */
#define QUARTREE_GUESS_STACK_BYTES 131072 /* of stack, enough for quartree_guess */

#define QUARTREE_LISTING_NUMBERS(n) (2 * ((size_t)(n) - 2)) /* uint16_t of a listing: two a row */
#define QUARTREE_LISTING_BYTES(n) (4 * ((size_t)(n) - 2))   /* bytes of a listing, for quartree_rebuild_sheet */
#define QUARTREE_TABLE_CELLS(n) ((size_t)(n) * (size_t)(n)) /* cells of a table, uint32_t or int64_t */
#define QUARTREE_EDGES(n) (2 * (size_t)(n) - 3)             /* edges of a tree, and the greatest name of one */
#define QUARTREE_SPLIT_BYTES(n) (QUARTREE_SET_BYTES * ((size_t)(n) - 3)) /* bytes of a tree's splits: a set each */
#define QUARTREE_TEXT_BYTES(n) (43 * (size_t)(n) - 4)       /* bytes of an export, at most: with names of 40 bytes */
#define QUARTREE_MERGES(n) ((size_t)(n) - 1)                /* merges that join n leaves */
#define QUARTREE_MERGE_NUMBERS(n) (2 * ((size_t)(n) - 1))   /* uint16_t of a list of merges: two a merge */
#define QUARTREE_POLL_RECORDS(n) /* records of a poll */ \
    ((size_t)(n) * ((size_t)(n) - 1) * ((size_t)(n) - 2) * ((size_t)(n) - 3) / 24)

/* ---- The reply ------------------------------------------------------------------------------------------------------

   A call replies with a number and a figure. The number stands in bits 0 to 7: 0 if the call is accepted, else the
   refusal's. The figure stands above it, in 56 bits. They hold every figure whole, except an offset of refusal 17 from
   2^56 on: then they hold its lowest 56 bits. The figure of a refusal is given below, and is 0 where none is given. The
   figure of an accepted call is 0 unless its promise names another. Two calls return something else:
   quartree_rebuild_sheet the number alone, and quartree_version a version. */

#define QUARTREE_NUMBER(reply) ((unsigned)((reply) & 255))
#define QUARTREE_FIGURE(reply) ((uint64_t)(reply) >> 8)

/* The figures x and y of a reply whose figure is 256 * x + y: the i and j of refusal 5, and what an accepted
   quartree_guess and an accepted quartree_sheet_name tell. */
#define QUARTREE_FIGURE_X(reply) (QUARTREE_FIGURE(reply) >> 8)
#define QUARTREE_FIGURE_Y(reply) (QUARTREE_FIGURE(reply) & 255)
#define QUARTREE_GUESS_TOTAL(reply) QUARTREE_FIGURE_X(reply)             /* the guess's total gap, uint64_t */
#define QUARTREE_GUESS_ORIGIN(reply) ((uint32_t)QUARTREE_FIGURE_Y(reply)) /* the guess's origin */
#define QUARTREE_NAME_OFFSET(reply) ((size_t)QUARTREE_FIGURE_X(reply))    /* where the name begins in the sheet */
#define QUARTREE_NAME_LENGTH(reply) ((size_t)QUARTREE_FIGURE_Y(reply))    /* how many bytes it has */

/* The causes of refusal; behind a semicolon the figure, where there is one. Leaves, positions, records, steps and
   offsets count from 0. */
enum quartree_refusal {
    QUARTREE_ACCEPTED = 0,
    QUARTREE_REFUSED_LEAF_COUNT = 1,    /* leaf count outside 3..128, or outside 4..32 for a poll and a poll's table;
                                           judged besides: the leaf count that a graft or a prune would leave, and
                                           that of a look's new table */
    QUARTREE_REFUSED_INPUT_LENGTH = 2,  /* an input longer or shorter than the leaf count needs, or a leaf set that has
                                           not exactly 16 bytes */
    QUARTREE_REFUSED_OUTPUT_ROOM = 3,   /* an output shorter than its result */
    QUARTREE_REFUSED_DIAGONAL = 4,      /* diagonal cell not 0; the first such leaf */
    QUARTREE_REFUSED_HALVES = 5,        /* cells (i,j) and (j,i) unequal; 256*i + j, the first in row order, i < j */
    QUARTREE_REFUSED_NO_TREE = 6,       /* no binary tree on these leaves has the table: quartree_rebuild and
                                           quartree_rebuild_sheet alone */
    QUARTREE_REFUSED_CHILD = 7,         /* child neither a leaf 1..n-1 nor an earlier row's node; its position in the
                                           listing */
    QUARTREE_REFUSED_NAMED_BEFORE = 8,  /* child named before; its position in the listing */
    QUARTREE_REFUSED_QUESTION = 9,      /* question names a leaf not below n, or one leaf twice; the first position
                                           where it does */
    QUARTREE_REFUSED_RECORD = 10,       /* record's leaves are not those due there; the record */
    QUARTREE_REFUSED_PAIRING_CODE = 11, /* pairing code above 6; the record */
    QUARTREE_REFUSED_PROPOSAL = 12,     /* proposal names a leaf not below n, one subtree twice, or an ineligible pair;
                                           the first such step */
    QUARTREE_REFUSED_SHEET_ENDS = 13,   /* sheet under 8 or over 21,512 bytes, or not ending 51 54 */
    QUARTREE_REFUSED_SHEET_LENGTH = 14, /* offset + n(n-1) + 8 is not the sheet's length */
    QUARTREE_REFUSED_NAME = 15,         /* name with a bad length or byte, or past the offset; its leaf. Or names end
                                           before the offset; n */
    QUARTREE_REFUSED_SAME_NAME = 16,    /* name equal to an earlier one; the later leaf */
    QUARTREE_REFUSED_GRAMMAR = 17,      /* text breaks the grammar or nests deeper than 127; the offset of the first
                                           byte with which no right text begins (the bytes before it begin one), or
                                           the text's length if it stops early */
    QUARTREE_REFUSED_NOT_BINARY = 18,   /* bracket of the text has not two parts, nor three as the top */
    QUARTREE_REFUSED_UNMATCHED = 19,    /* name of the text unknown to the sheet, repeated or missing */
    QUARTREE_REFUSED_NOT_OWN = 20       /* the edge or leaf named absent, or the table kept not the tree's own */
};

/* A text for each refusal's number, and for 0. */
static inline const char *quartree_refusal_text(unsigned number)
{
    switch (number) {
    case QUARTREE_ACCEPTED:
        return "accepted";
    case QUARTREE_REFUSED_LEAF_COUNT:
        return "the leaf count is outside 3 to 128 (polls and their tables: 4 to 32), or the new tree's would be";
    case QUARTREE_REFUSED_INPUT_LENGTH:
        return "an input is not exactly as long as the leaf count needs (a leaf set: 16 bytes)";
    case QUARTREE_REFUSED_OUTPUT_ROOM:
        return "an output is shorter than its result";
    case QUARTREE_REFUSED_DIAGONAL:
        return "a cell on the diagonal is not 0";
    case QUARTREE_REFUSED_HALVES:
        return "a cell and its mirror cell are unequal";
    case QUARTREE_REFUSED_NO_TREE:
        return "no binary tree has the table";
    case QUARTREE_REFUSED_CHILD:
        return "a child is neither a leaf 1 to n-1 nor the node of an earlier row";
    case QUARTREE_REFUSED_NAMED_BEFORE:
        return "a child was named before";
    case QUARTREE_REFUSED_QUESTION:
        return "the question names a leaf not below n, or one leaf twice";
    case QUARTREE_REFUSED_RECORD:
        return "the leaves of a record are not those due there";
    case QUARTREE_REFUSED_PAIRING_CODE:
        return "a pairing code is above 6";
    case QUARTREE_REFUSED_PROPOSAL:
        return "a proposal names a leaf not below n, one subtree twice, or an ineligible pair";
    case QUARTREE_REFUSED_SHEET_ENDS:
        return "the sheet has under 8 or over 21,512 bytes, or does not end with 51 54";
    case QUARTREE_REFUSED_SHEET_LENGTH:
        return "the sheet's length is not offset + n(n-1) + 8";
    case QUARTREE_REFUSED_NAME:
        return "a name has a bad length or byte or runs past the offset, or the names end before the offset";
    case QUARTREE_REFUSED_SAME_NAME:
        return "a name equals an earlier one";
    case QUARTREE_REFUSED_GRAMMAR:
        return "the text breaks the grammar, stops early or nests deeper than 127";
    case QUARTREE_REFUSED_NOT_BINARY:
        return "a node of the text is not binary, apart from a three-way top";
    case QUARTREE_REFUSED_UNMATCHED:
        return "the text's names are not the sheet's, each once";
    case QUARTREE_REFUSED_NOT_OWN:
        return "the tree has no such edge or leaf, or the table kept beside it is not its own";
    default:
        return "no refusal has this number";
    }
}

/* ---- Origins --------------------------------------------------------------------------------------------------------

   Origins have the numbers 0 to 4. A number above 4 is taken as QUARTREE_LISTED. Six calls tell the origin of their
   tree as the figure of an accepted reply: quartree_rebuild, quartree_rebuild_guided, quartree_import,
   quartree_restandardise, quartree_graft and quartree_prune. A seventh, quartree_guess, tells it by
   QUARTREE_GUESS_ORIGIN. No other figure is an origin, though its 0 would read as QUARTREE_REBUILT: not that of a
   refused call, and not that of quartree_check, quartree_standardise or quartree_look. */

#define QUARTREE_REBUILT 0
#define QUARTREE_LISTED 1
#define QUARTREE_IMPORTED 2
#define QUARTREE_GUESSED 3
#define QUARTREE_GRAFTED 4

/* A word for each origin's number. */
static inline const char *quartree_origin_text(uint32_t origin)
{
    switch (origin) {
    case QUARTREE_REBUILT:
        return "rebuilt";
    case QUARTREE_LISTED:
        return "listed";
    case QUARTREE_IMPORTED:
        return "imported";
    case QUARTREE_GUESSED:
        return "guessed";
    case QUARTREE_GRAFTED:
        return "grafted";
    default:
        return "no origin has this number";
    }
}

/* What a lab may file and rely on:

   - A record that the part's calls made, each handed what the call before it made, and that is marked rebuilt: its tree
     has the table that quartree_rebuild, quartree_rebuild_guided or quartree_guess was given ('made_rebuilt'). Listed
     and imported promise nothing of a table.
   - Guessed is told exactly where no tree has the table given ('guessed_exactly'). The tree is a proposal. Its total
     gap is told beside the origin, and quartree_gap tells the gap of each pair; no record keeps them.
   - Grafted promises nothing of the table that an older record was rebuilt from; but the table that quartree_graft or
     quartree_prune writes beside the tree is the tree's own.
   - quartree_restandardise keeps the tree and the origin ('restandardise_same').
   - A listing of the caller's own is filed as listed, once quartree_check accepts it.
   - The tree that quartree_rebuild_sheet writes may be filed as rebuilt, since it has the sheet's table; that call has
     no place to say so ('sheet_bytes_made').
   - A record whose number somebody else wrote promises nothing of a table. No call refuses it for its number, and none
     traps on it. */

/* ---- What a caller owes ---------------------------------------------------------------------------------------------

   No call can check these, and none of its promises holds without them.

   - No pointer is null, also where its length is 0.
   - Lengths are true: from each pointer on there are as many elements as its length says, or more. A length counts
     elements of its pointer's type. The length of an output is called room, and table_room where the output is a second
     one, for a table.
   - Pointers are aligned for their element type.
   - An output overlaps no input of the same call, and no other output of it. Inputs may overlap. An output may hold
     anything before the call.
   - While a call runs, nobody else writes its inputs, or reads or writes its outputs.
   - The stack has QUARTREE_STACK_BYTES left, for quartree_guess QUARTREE_GUESS_STACK_BYTES. No call takes more; this is
     measured, and not proved.

   ---- What every call promises ---------------------------------------------------------------------------------------

   - Refusals are judged in the order that the call names, and the first that applies is the reply. Nothing else is
     refused. 7 and 8 are judged child by child, 10 and 11 record by record, 15 and 16 name by name. Names that end
     before the offset (15 with n) come after all names. 17 is judged of the whole text, then 18, then 19.
   - An input's length has to be exact (refusal 2); a text alone may have any length. An output may be longer than the
     result.
   - A refused call leaves every buffer as it was. An accepted call writes each result from the output's first element
     on, and nothing beyond it. Inputs are never written.
   - Whatever the numbers in the buffers are, the call ends, does not trap, and touches no memory but what it is lent
     and its own stack. It allocates nothing and keeps nothing for later calls, so calls may run in several threads at
     once.
   - A listing may be lent in any form that keeps the rules. The answer is that of its tree. */

/* Where the compiler knows how, it warns if a reply is not used, and if a pointer is null. */
#if defined(__GNUC__)
#define QUARTREE_REPLY __attribute__((warn_unused_result))
#define QUARTREE_CALL __attribute__((warn_unused_result, nonnull))
#else
#define QUARTREE_REPLY
#define QUARTREE_CALL
#endif

#ifdef __cplusplus
extern "C" {
#endif

/* ---- The version ------------------------------------------------------------------------------------------------- */

/* Tells the version of the archive: QUARTREE_VERSION_NUMBER of the header that belongs to it. Since 0.10. A later
   version has a greater number. Nothing is refused. */
uint32_t quartree_version(void) QUARTREE_REPLY;

/* ---- Listings -------------------------------------------------------------------------------------------------------

   The length of a lent listing, len, has to be QUARTREE_LISTING_NUMBERS(n). */

/* Checks a listing. Since 0.1.
   Refused, in this order: 1, 2, 7, 8.
   Accepted: the listing keeps the rules. There is no output, and no origin is told. */
uint64_t quartree_check(size_t n, const uint16_t *listing, size_t len) QUARTREE_CALL;

/* Writes the standard listing of a listing's tree. Since 0.1.
   Refused, in this order: 1, 2, 3, 7, 8.
   Accepted: the first QUARTREE_LISTING_NUMBERS(n) numbers of out are the standard listing. No origin is told, and the
   figure 0 is none: for a tree record there is quartree_restandardise. */
uint64_t quartree_standardise(size_t n, const uint16_t *listing, size_t len, uint16_t *out, size_t room) QUARTREE_CALL;

/* Writes the standard listing of a tree record's tree, and tells the record's origin. Since 0.5.
   Refused, in this order: 1, 2, 3, 7, 8.
   Accepted: the first QUARTREE_LISTING_NUMBERS(n) numbers of out are the standard listing, and the figure is origin, or
   QUARTREE_LISTED if origin is above 4. */
uint64_t quartree_restandardise(size_t n, uint32_t origin, const uint16_t *listing, size_t len, uint16_t *out,
                                size_t room) QUARTREE_CALL;

/* Lists the splits of a listing's tree. Since 0.1.
   Refused, in this order: 1, 2, 3, 7, 8.
   Accepted: the first QUARTREE_SPLIT_BYTES(n) bytes of out are the tree's n-3 splits, in the order in which the
   standard listing has their nodes. */
uint64_t quartree_splits(size_t n, const uint16_t *listing, size_t len, uint8_t *out, size_t room) QUARTREE_CALL;

/* Says how a listing's tree pairs four leaves. Since 0.1. The length of the question, question_len, has to be 4.
   Refused, in this order: 1, 2 (either input), 7, 8, 9.
   Accepted: the figure is 0, 1 or 2, as the tree pairs the question's first leaf with the second, the third or the
   fourth. There is no output. */
uint64_t quartree_pairing(size_t n, const uint16_t *listing, size_t len, const uint16_t *question, size_t question_len)
    QUARTREE_CALL;

/* ---- Leaf sets ------------------------------------------------------------------------------------------------------

   For the sets that quartree_splits lists, and for any others. The length of a lent set, a_len or b_len, has to be
   QUARTREE_SET_BYTES. No leaf count goes with a set: all of its bits count, also those at and above a tree's n.

   The calls take a word at a time: leaf k is bit k mod 64 of word k div 64. Each result is the one got byte by byte
   ('join_by_bytes', 'intersect_by_bytes', 'equal_by_bytes'). Sets are lent as bytes, so neither their address nor the
   machine's order of bytes matters.

   As with every call, the inputs a and b may be one and the same, and the output may overlap neither: no set is joined
   or intersected in place. */

/* Joins two sets. Since 0.8.
   Refused, in this order: 2 (either input), 3.
   Accepted: the first QUARTREE_SET_BYTES bytes of out are the set of the leaves that are in a or in b, or in both. */
uint64_t quartree_set_join(const uint8_t *a, size_t a_len, const uint8_t *b, size_t b_len, uint8_t *out, size_t room)
    QUARTREE_CALL;

/* Intersects two sets. Since 0.8.
   Refused, in this order: 2 (either input), 3.
   Accepted: the first QUARTREE_SET_BYTES bytes of out are the set of the leaves that are in a and in b. */
uint64_t quartree_set_intersect(const uint8_t *a, size_t a_len, const uint8_t *b, size_t b_len, uint8_t *out,
                                size_t room) QUARTREE_CALL;

/* Says whether two sets are equal. Since 0.8.
   Refused: 2 (either input).
   Accepted: the figure is 1 where a and b have the same leaves, and so the same bytes, and 0 where they have not. There
   is no output. */
uint64_t quartree_set_equal(const uint8_t *a, size_t a_len, const uint8_t *b, size_t b_len) QUARTREE_CALL;

/* ---- Tables ---------------------------------------------------------------------------------------------------------

   The length of a lent table, cells, has to be QUARTREE_TABLE_CELLS(n). A cell may have any value. By poll the caller
   says what the table counts: 0 for quartets, any other number for sixths, as in a poll's table. n is 3 to 128, or 4 to
   32 if the table is a poll's; else 1. */

#define QUARTREE_COUNTS 0 /* for poll: a table of counts */
#define QUARTREE_POLL 1   /* for poll: a poll's table */

/* Writes the table of a listing's tree. Since 0.1.
   Refused, in this order: 1, 2, 3, 7, 8.
   Accepted: the first QUARTREE_TABLE_CELLS(n) cells of out are the tree's table, each cell the count of quartets taken
   from the tree's edges. */
uint64_t quartree_table(size_t n, const uint16_t *listing, size_t len, uint32_t *out, size_t room) QUARTREE_CALL;

/* Measures the gap between a table and a listing's tree. Since 0.1; poll since 0.4.
   Refused, in this order: 1, 2 (either input), 3, 7, 8, 4, 5.
   Accepted: the first QUARTREE_TABLE_CELLS(n) numbers of out are, cell by cell, the table's cell less the tree's cell,
   or less six times the tree's cell if the table is a poll's. They are from -7,875 (a poll's: -2,610) to 4,294,967,295,
   and 0 on the diagonal. All are 0 exactly when the tree has the table. */
uint64_t quartree_gap(size_t n, uint32_t poll, const uint32_t *table, size_t cells, const uint16_t *listing, size_t len,
                      int64_t *out, size_t room) QUARTREE_CALL;

/* Rebuilds the tree of a table. Since 0.1; poll since 0.4.
   Refused, in this order: 1, 2, 3, 4, 5, 6. Where 1 to 5 do not apply, 6 is given exactly when no binary tree on the n
   leaves has the table. Then every list of eligible merges, taken until no pair is eligible, leaves more than one
   subtree.
   Accepted: the first QUARTREE_LISTING_NUMBERS(n) numbers of out are the standard listing of the only tree that has
   the table, and the figure is QUARTREE_REBUILT. Every list of eligible merges, taken until no pair is eligible, ends
   in this one tree. */
uint64_t quartree_rebuild(size_t n, uint32_t poll, const uint32_t *table, size_t cells, uint16_t *out, size_t room)
    QUARTREE_CALL;

/* Rebuilds the tree of a table, or guesses one where no tree has it. Since 0.6.
   Refused, in this order: 1, 2, 3, 4, 5, as quartree_rebuild is, and never by 6.
   Accepted: the first QUARTREE_LISTING_NUMBERS(n) numbers of out are the standard listing of a tree.
   QUARTREE_GUESS_TOTAL(reply) is its total gap from the table, and QUARTREE_GUESS_ORIGIN(reply) its origin
   ('reply_is'). Where a tree has the table, it is that tree, rebuilt, with the total gap 0 ('rebuilt_has'): listing and
   reply are those of quartree_rebuild. Where none has, which is where quartree_rebuild says 6, it is the table's guess,
   marked guessed, with a total gap above 0. A guess is a greedy estimate, and a weak one where many quartets are wrong.
   The call takes QUARTREE_GUESS_STACK_BYTES of stack at most. */
uint64_t quartree_guess(size_t n, uint32_t poll, const uint32_t *table, size_t cells, uint16_t *out, size_t room)
    QUARTREE_CALL;

/* Rebuilds the tree of a table by proposed merges. Since 0.1; poll since 0.4. The length of the list, len, has to be
   QUARTREE_MERGE_NUMBERS(n). Step k names two leaves, at places 2k and 2k+1, and proposes to merge the two subtrees
   that hold them.
   Refused, in this order: 1, 2 (either input), 3, 4, 5, 12. Where 1 to 5 do not apply, 12 is given exactly when some
   step names no pair that is eligible at its turn. Where quartree_rebuild says 6, every list is refused by 12.
   Accepted: the first QUARTREE_LISTING_NUMBERS(n) numbers of out are the standard listing of the only tree that has
   the table, the same that quartree_rebuild writes, and the figure is QUARTREE_REBUILT. */
uint64_t quartree_rebuild_guided(size_t n, uint32_t poll, const uint32_t *table, size_t cells, const uint16_t *merges,
                                 size_t len, uint16_t *out, size_t room) QUARTREE_CALL;

/* ---- Trees that change ----------------------------------------------------------------------------------------------

   For a collection that adds and drops leaves, and keeps its table beside its tree. The tree is lent as a listing,
   whose length, len, has to be QUARTREE_LISTING_NUMBERS(n), with its table, whose length, cells, has to be
   QUARTREE_TABLE_CELLS(n). Nothing is changed in place: the changed tree and its table go to outputs of their own.

   The table kept has to be the tree's own in every cell, as quartree_table writes it; else 20. A poll's table is not
   the tree's own, since it counts sixths, nor is the rough table that a tree was guessed from. The caller has
   quartree_table count the table of such a tree afresh first.

   Pruning the leaf just grafted gives back the old standard listing and the old table ('pruned_grafted'); the origin
   stays grafted. Grafts on different edges are different trees ('grafted_once'), and every tree on n+1 leaves is a
   graft of what pruning its leaf n leaves ('graft_of_prune').

   A caller may look before grafting. A look is lent a new table, too, one of n+1 leaves, and tells the total gap that
   the grafted tree would have from it. The new table's length, new_cells, has to be QUARTREE_TABLE_CELLS(n + 1), and
   poll says what the new table counts. The table kept is one of counts, also where the new table is a poll's. Neither
   the tree nor a table moves. n is 3 to 127, or 3 to 31 if the new table is a poll's; else 1.

   Once the sizes are right, quartree_look is refused like quartree_graft, with the same number and figure, and never by
   3 ('look_refused_with_graft'). The new table is judged last, by 4 and 5. So 4 or 5 does not say which table it speaks
   of: the table kept is judged by 4 and 5 first, then 20, then the new table. */

/* Grafts leaf n on an edge of a listing's tree. Since 0.7.
   Refused, in this order: 1, 2 (either input), 3 (either output), 7, 8, 4, 5, 20. n is 3 to 127, since the new tree has
   n+1 leaves; else 1. edge is 1 to QUARTREE_EDGES(n), and the table is the tree's own; else 20.
   Accepted: the first QUARTREE_LISTING_NUMBERS(n + 1) numbers of out are the standard listing of the grafted tree, the
   first QUARTREE_TABLE_CELLS(n + 1) cells of out_table are its table, as counted afresh, and the figure is
   QUARTREE_GRAFTED. */
uint64_t quartree_graft(size_t n, const uint16_t *listing, size_t len, const uint32_t *table, size_t cells, size_t edge,
                        uint16_t *out, size_t room, uint32_t *out_table, size_t table_room) QUARTREE_CALL;

/* Tells the total gap that a listing's tree would have from a new table, if leaf n were grafted on an edge. Since 0.9.
   Refused, in this order: 1, 2 (any input), 7, 8, 4, 5 (the table kept), 20, 4, 5 (the new table). edge is 1 to
   QUARTREE_EDGES(n), and the table kept is the tree's own; else 20.
   Accepted: the figure is the total gap. It is below 2^45, and so told whole. It equals what comes of grafting a copy
   by quartree_graft, and adding up the sizes of what quartree_gap writes for it and the new table, over all i < j
   ('look_is_graft_and_gap'); both are accepted wherever this call is, if they have room ('graft_and_gap_accepted'). It
   is 0 exactly where the grafted tree has the new table ('look_zero'), and so at one edge at most ('look_zero_once').
   There is no output. */
uint64_t quartree_look(size_t n, uint32_t poll, const uint16_t *listing, size_t len, const uint32_t *table,
                       size_t cells, size_t edge, const uint32_t *new_table, size_t new_cells) QUARTREE_CALL;

/* Tells the same for every edge of a listing's tree at once. Since 0.9.
   Refused, in this order: 1, 2 (any input), 3, 7, 8, 4, 5 (the table kept), 20, 4, 5 (the new table). The table kept is
   the tree's own; else 20.
   Accepted: the first QUARTREE_EDGES(n) numbers of totals are the total gaps for edges 1, 2, 3 and so on:
   totals[edge - 1] is what quartree_look tells of that edge ('look_all_is_look'). At most one of them is 0. */
uint64_t quartree_look_all(size_t n, uint32_t poll, const uint16_t *listing, size_t len, const uint32_t *table,
                           size_t cells, const uint32_t *new_table, size_t new_cells, uint64_t *totals, size_t room)
    QUARTREE_CALL;

/* Prunes a leaf of a listing's tree. Since 0.7.
   Refused, in this order: 1, 2 (either input), 3 (either output), 7, 8, 4, 5, 20. n is 4 to 128, since the new tree has
   n-1 leaves; else 1. leaf is below n, and the table is the tree's own; else 20.
   Accepted: the first QUARTREE_LISTING_NUMBERS(n - 1) numbers of out are the standard listing of the pruned tree, the
   first QUARTREE_TABLE_CELLS(n - 1) cells of out_table are its table, as counted afresh, and the figure is
   QUARTREE_GRAFTED. Leaves above the pruned one have moved down by one: a caller moves their names down, too. */
uint64_t quartree_prune(size_t n, const uint16_t *listing, size_t len, const uint32_t *table, size_t cells, size_t leaf,
                        uint16_t *out, size_t room, uint32_t *out_table, size_t table_room) QUARTREE_CALL;

/* ---- Polls ------------------------------------------------------------------------------------------------------- */

/* A record of a poll: five bytes. */
struct quartree_record {
    uint8_t a, b, c, d; /* the leaves, a < b < c < d */
    uint8_t code;       /* 0: a,b against c,d; 1: a,c against b,d; 2: a,d against b,c; 3: any of these; 4: 0 or 1;
                           5: 0 or 2; 6: 1 or 2 */
};

/* Adds up a poll. Since 0.1; ties since 0.4. n is from 4 to 32, and the number of records, count, has to be
   QUARTREE_POLL_RECORDS(n).
   Refused, in this order: 1, 2, 3, 10, 11.
   Accepted: the first QUARTREE_TABLE_CELLS(n) cells of out are the poll's table. Cell (i,j) is what the records, all
   together, give to the pairings that put i beside j, in sixths; the diagonal is 0. Such a table is never refused by 4
   or 5. The calls above take it with QUARTREE_POLL. */
uint64_t quartree_poll(size_t n, const struct quartree_record *records, size_t count, uint32_t *out, size_t room)
    QUARTREE_CALL;

/* ---- Sheets ---------------------------------------------------------------------------------------------------------

   The leaf count n is the trailer's. Room for QUARTREE_MOST_LEAVES is enough for every sheet. Once a call has accepted
   a sheet of len bytes, n is sheet[len - 8] + 256 * sheet[len - 7]. */

/* Checks a sheet. Since 0.2.
   Refused, in this order: 13, 1, 14, 15, 16.
   Accepted: the sheet keeps the rules, and the figure is n. There is no output. */
uint64_t quartree_check_sheet(const uint8_t *sheet, size_t len) QUARTREE_CALL;

/* Reads the table of a sheet. Since 0.1.
   Refused, in this order: 13, 1, 14, 3, 15, 16.
   Accepted: the figure is n, and the first QUARTREE_TABLE_CELLS(n) cells of out are the sheet's table: its cells above
   the diagonal, their mirror cells below it, and 0 on it. Such a table is never refused by 4 or 5. */
uint64_t quartree_sheet_table(const uint8_t *sheet, size_t len, uint32_t *out, size_t room) QUARTREE_CALL;

/* Finds the name of a leaf in a sheet. Since 0.1.
   Refused, in this order: 13, 1, 14, 15, 16, 9. Refusal 9 is given when leaf is not below n; its figure is 0.
   Accepted: the name is the QUARTREE_NAME_LENGTH(reply) bytes of the sheet from QUARTREE_NAME_OFFSET(reply) on. No 0
   byte ends it. There is no output. */
uint64_t quartree_sheet_name(const uint8_t *sheet, size_t len, size_t leaf) QUARTREE_CALL;

/* Rebuilds the tree of a sheet. Since 0.1. The number alone is returned: 0, or the refusal's.
   Refused, in this order: 13, 1, 14, 3, 15, 16, 6.
   Accepted: the first QUARTREE_LISTING_BYTES(n) bytes of listing are the standard listing of the only tree that has
   the sheet's table, two bytes a number, low byte first. This call never guesses; quartree_sheet_table and
   quartree_guess together do. */
uint32_t quartree_rebuild_sheet(const uint8_t *sheet, size_t sheet_len, uint8_t *listing, size_t listing_len)
    QUARTREE_CALL;

/* ---- Texts ----------------------------------------------------------------------------------------------------------

   The leaf count n and the names are a sheet's; its cells play no part. */

/* Writes the text of a listing's tree. Since 0.3. The length of the listing, len, has to be
   QUARTREE_LISTING_NUMBERS(n).
   Refused, in this order: 13, 1, 2, 14, 7, 8, 15, 16, 3.
   Accepted: the figure is the length of the text: the bytes of all names and 3n-4 more, at most QUARTREE_TEXT_BYTES(n).
   The text stands at the front of the buffer text. It is a bracket and a semicolon, as in (a,b,(c,(d,e)));. The bracket
   holds leaf 0's name and the two children of the last node, in the standard listing's order; a leaf is written as its
   name, and a node as a bracket that holds its two children. There is no blank and no length in it, and no 0 byte ends
   it. quartree_import with the same sheet reads the tree's standard listing from it. */
uint64_t quartree_export(const uint8_t *sheet, size_t sheet_len, const uint16_t *listing, size_t len,
                         uint8_t *text, size_t room) QUARTREE_CALL;

/* Reads the tree that a text draws. Since 0.3. The text may have any length, and no 0 byte ends it.
   Refused, in this order: 13, 1, 14, 3, 15, 16, 17, 18, 19.
   Accepted: the first QUARTREE_LISTING_NUMBERS(n) numbers of out are the standard listing of the tree, and the figure
   is QUARTREE_IMPORTED. */
uint64_t quartree_import(const uint8_t *sheet, size_t sheet_len, const uint8_t *text, size_t text_len,
                         uint16_t *out, size_t room) QUARTREE_CALL;

#ifdef __cplusplus
}
#endif

#endif
