/* Plain C of a sheet's judging, of export and of import: see plain.h.

   Names are found by a table of hashes. Import reads the text in one pass over a table of byte classes, with a stack of
   the open brackets, and joins nodes as brackets close; the tree is then walked from leaf 0, and the rows are put where
   the sizes of the subtrees say. Export finds the length of every subtree's text from the leaves up, and so the place
   of every byte. Neither calls itself. */
#include "plain.h"
#include <string.h>

enum { MOST = 128, NUMBERS = 2 * MOST, SHEET_MOST = 21512, NAME_MOST = 40, SLOTS = 512, DEEPEST = MOST - 1 };
enum { IMPORTED = 2 }; /* the origin of what is imported */

static uint64_t refused(unsigned number, size_t figure) { return number | (uint64_t)figure << 8; }

/* ---- Bytes ------------------------------------------------------------------------------------------------------- */

enum { BLANK = 1, NAME = 2, LENGTH = 4 };

#define UP_TO_7(first, is) [first] = is, [first + 1] = is, [first + 2] = is, [first + 3] = is, [first + 4] = is, \
    [first + 5] = is, [first + 6] = is
static const uint8_t class_of[256] = {
    ['\t'] = BLANK, ['\n'] = BLANK, ['\r'] = BLANK, [' '] = BLANK,
    ['0'] = NAME | LENGTH, ['1'] = NAME | LENGTH, ['2'] = NAME | LENGTH, UP_TO_7('3', NAME | LENGTH),
    ['.'] = NAME | LENGTH, ['-'] = NAME | LENGTH, ['+'] = LENGTH,
    ['A'] = NAME, ['B'] = NAME, ['C'] = NAME, ['D'] = NAME, ['E'] = NAME | LENGTH,
    UP_TO_7('F', NAME), UP_TO_7('M', NAME), UP_TO_7('T', NAME),
    ['a'] = NAME, ['b'] = NAME, ['c'] = NAME, ['d'] = NAME, ['e'] = NAME | LENGTH,
    UP_TO_7('f', NAME), UP_TO_7('m', NAME), UP_TO_7('t', NAME),
};

/* The first place from here on whose byte is of another class. */
static size_t behind(const uint8_t *text, size_t len, size_t at, uint8_t class)
{
    while (at < len && (class_of[text[at]] & class) != 0)
        at++;
    return at;
}

/* ---- Names ------------------------------------------------------------------------------------------------------- */

typedef struct {
    uint16_t start[MOST];
    uint8_t length[MOST];
    uint8_t slot[SLOTS]; /* 0, or 1 more than the leaf */
} names;

/* Up to eight bytes as one number: two overlapping loads. */
static uint64_t word_of(const uint8_t *from, size_t length)
{
    uint32_t low, high;
    if (length < 4)
        return from[0] | (uint64_t)from[length / 2] << 8 | (uint64_t)from[length - 1] << 16;
    memcpy(&low, from, 4);
    memcpy(&high, from + length - 4, 4);
    return low | (uint64_t)high << 32;
}

static size_t slot_of(const uint8_t *name, size_t length)
{
    uint64_t hash = length, word;
    for (; length > 8; name += 8, length -= 8) {
        memcpy(&word, name, 8);
        hash = (hash ^ word) * 0x9E3779B97F4A7C15;
        hash ^= hash >> 32;
    }
    hash = (hash ^ word_of(name, length)) * 0x9E3779B97F4A7C15;
    return hash >> 55;
}

static int same(const uint8_t *one, const uint8_t *other, size_t length)
{
    uint64_t a, b;
    for (; length > 8; one += 8, other += 8, length -= 8) {
        memcpy(&a, one, 8);
        memcpy(&b, other, 8);
        if (a != b)
            return 0;
    }
    return word_of(one, length) == word_of(other, length);
}

/* The slot of a name: that of the leaf with this name, or an empty one. */
static size_t find(const names *of, const uint8_t *sheet, const uint8_t *name, size_t length)
{
    size_t at = slot_of(name, length);
    for (; of->slot[at] != 0; at = (at + 1) % SLOTS) {
        size_t leaf = of->slot[at] - 1u;
        if (of->length[leaf] == length && same(sheet + of->start[leaf], name, length))
            break;
    }
    return at;
}

/* 13, 1, or 0. */
static uint64_t judge_ends(const uint8_t *sheet, size_t len, size_t *n, size_t *offset)
{
    if (len < 8 || len > SHEET_MOST || sheet[len - 2] != 0x51 || sheet[len - 1] != 0x54)
        return 13;
    *n = sheet[len - 8] + 256u * sheet[len - 7];
    *offset = sheet[len - 6] + 256u * sheet[len - 5] + 65536u * sheet[len - 4] + 16777216u * (size_t)sheet[len - 3];
    return *n < 3 || *n > MOST ? 1 : 0;
}

/* 15, 16, or 0; and the names. */
static uint64_t judge_names(const uint8_t *sheet, size_t n, size_t offset, names *of)
{
    size_t at = 0;
    memset(of->slot, 0, sizeof of->slot);
    for (size_t leaf = 0; leaf < n; leaf++) {
        size_t length = at < offset ? sheet[at] : 0, end = at + 1 + length;
        if (length == 0 || length > NAME_MOST || end > offset || behind(sheet, end, at + 1, NAME) != end)
            return refused(15, leaf);
        size_t slot = find(of, sheet, sheet + at + 1, length);
        if (of->slot[slot] != 0)
            return refused(16, leaf);
        of->slot[slot] = (uint8_t)(leaf + 1);
        of->start[leaf] = (uint16_t)(at + 1);
        of->length[leaf] = (uint8_t)length;
        at = end;
    }
    return at < offset ? refused(15, n) : 0;
}

int plain_sheet(const uint8_t *sheet, size_t len, size_t *n, size_t *offset)
{
    names of;
    uint64_t wrong = judge_ends(sheet, len, n, offset);
    if (wrong == 0 && *offset + *n * (*n - 1) + 8 != len)
        wrong = 14;
    if (wrong == 0)
        wrong = judge_names(sheet, *n, *offset, &of);
    return (int)(wrong & 255);
}

/* ---- Export ------------------------------------------------------------------------------------------------------ */

/* 7, 8, or 0; and each row's children, the one with the smaller least leaf first. */
static uint64_t judge_rows(size_t n, const uint16_t *listing, uint16_t rows[MOST][2])
{
    uint8_t named[NUMBERS] = {0}, least[NUMBERS];
    for (size_t leaf = 0; leaf < n; leaf++)
        least[leaf] = (uint8_t)leaf;
    for (size_t row = 0; row < n - 2; row++) {
        for (size_t place = 2 * row; place < 2 * row + 2; place++) {
            size_t child = listing[place];
            if (child < 1 || child >= n + row)
                return refused(7, place);
            if (named[child])
                return refused(8, place);
            named[child] = 1;
        }
        uint16_t a = listing[2 * row], b = listing[2 * row + 1];
        int turned = least[b] < least[a];
        rows[row][0] = turned ? b : a;
        rows[row][1] = turned ? a : b;
        least[n + row] = least[rows[row][0]];
    }
    return 0;
}

uint64_t plain_export(const uint8_t *sheet, size_t sheet_len, const uint16_t *listing, size_t len, uint8_t *text,
                      size_t room)
{
    size_t n, offset, place[NUMBERS], length[NUMBERS];
    uint16_t rows[MOST][2];
    names of;
    uint64_t wrong = judge_ends(sheet, sheet_len, &n, &offset);
    if (wrong)
        return wrong;
    if (len != 2 * (n - 2))
        return 2;
    if (offset + n * (n - 1) + 8 != sheet_len)
        return 14;
    if ((wrong = judge_rows(n, listing, rows)) || (wrong = judge_names(sheet, n, offset, &of)))
        return wrong;
    if (room < offset + 2 * (n - 2)) /* a length byte a name stands before the offset, too */
        return 3;
    for (size_t leaf = 0; leaf < n; leaf++)
        length[leaf] = of.length[leaf];
    for (size_t row = 0; row < n - 2; row++)
        length[n + row] = length[rows[row][0]] + length[rows[row][1]] + 3;
    /* The last node has no bracket of its own: leaf 0 stands where that would open. */
    place[0] = 1;
    place[2 * n - 3] = 1 + length[0];
    text[0] = '(';
    for (size_t row = n - 2; row-- > 0;) {
        size_t at = place[n + row], a = rows[row][0], b = rows[row][1];
        text[at] = row == n - 3 ? ',' : '(';
        place[a] = at + 1;
        text[at + 1 + length[a]] = ',';
        place[b] = at + 2 + length[a];
        text[at + 2 + length[a] + length[b]] = ')';
    }
    for (size_t leaf = 0; leaf < n; leaf++) {
        const uint8_t *name = sheet + of.start[leaf];
        uint8_t *to = text + place[leaf];
        for (size_t k = 0; k < length[leaf]; k++)
            to[k] = name[k];
    }
    size_t end = offset + 2 * (n - 2);
    text[end - 1] = ';';
    return (uint64_t)end << 8;
}

/* ---- Import ------------------------------------------------------------------------------------------------------ */

/* A tree without a root: every leaf has one neighbour, every node three. */
typedef struct {
    uint16_t up[NUMBERS], down[NUMBERS][2];
} joints;

/* The rows of the standard listing. */
static void write_rows(size_t n, const joints *t, uint16_t *out)
{
    uint16_t order[MOST], rows[MOST][2], from[NUMBERS]; /* from: the neighbour nearer to leaf 0 */
    uint8_t least[NUMBERS], inner[NUMBERS], last[NUMBERS];
    size_t many = 0;
    order[many++] = t->up[0];
    from[t->up[0]] = 0;
    for (size_t k = 0; k < many; k++) {
        uint16_t v = order[k], back = from[v];
        uint16_t a = t->down[v][0] == back ? t->up[v] : t->down[v][0];
        uint16_t b = t->down[v][1] == back ? t->up[v] : t->down[v][1];
        rows[k][0] = a;
        rows[k][1] = b;
        from[a] = from[b] = v;
        if (a >= n)
            order[many++] = a;
        if (b >= n)
            order[many++] = b;
    }
    for (size_t leaf = 1; leaf < n; leaf++) {
        least[leaf] = (uint8_t)leaf;
        inner[leaf] = 0;
    }
    for (size_t k = many; k-- > 0;) {
        uint16_t a = rows[k][0], b = rows[k][1], v = order[k];
        int turned = least[b] < least[a];
        rows[k][0] = turned ? b : a;
        rows[k][1] = turned ? a : b;
        least[v] = least[rows[k][0]];
        inner[v] = (uint8_t)(inner[a] + inner[b] + 1);
    }
    last[order[0]] = (uint8_t)(n - 3);
    for (size_t k = 0; k < many; k++) {
        uint16_t a = rows[k][0], b = rows[k][1];
        size_t row = last[order[k]];
        last[b] = (uint8_t)(row - 1);
        last[a] = (uint8_t)(row - 1 - inner[b]);
        out[2 * row] = (uint16_t)(a < n ? a : n + last[a]);
        out[2 * row + 1] = (uint16_t)(b < n ? b : n + last[b]);
    }
}

uint64_t plain_import(const uint8_t *sheet, size_t sheet_len, const uint8_t *text, size_t len, uint16_t *out,
                      size_t room)
{
    size_t n, offset;
    names of;
    uint64_t wrong = judge_ends(sheet, sheet_len, &n, &offset);
    if (wrong)
        return wrong;
    if (offset + n * (n - 1) + 8 != sheet_len)
        return 14;
    if (room < 2 * (n - 2))
        return 3;
    if ((wrong = judge_names(sheet, n, offset, &of)))
        return wrong;

    joints t;
    uint8_t seen[MOST] = {0};
    uint16_t part[DEEPEST + 1][3] = {{0}};
    size_t parts[DEEPEST + 1], depth = 0, at = 0, leaves = 0, node = n;
    int not_binary = 0, unmatched = 0;
    do {
        /* A part is due. */
        at = behind(text, len, at, BLANK);
        if (at == len)
            return refused(17, at);
        if (text[at] == '(') {
            if (depth == DEEPEST)
                return refused(17, at);
            parts[++depth] = 0;
            at++;
            continue;
        }
        size_t first = at, now = 0;
        at = behind(text, len, at, NAME);
        if (at == first || depth == 0)
            return refused(17, first);
        if (!unmatched) {
            size_t found = at - first > NAME_MOST ? 0 : of.slot[find(&of, sheet, text + first, at - first)];
            unmatched = found == 0 || seen[found - 1];
            if (!unmatched) {
                now = found - 1;
                seen[now] = 1;
                leaves++;
            }
        }
        /* Behind a part: its length; then the next part, or the bracket closes and is a part itself. */
        for (;;) {
            at = behind(text, len, at, BLANK);
            if (at < len && text[at] == ':') {
                first = ++at;
                at = behind(text, len, at, LENGTH);
                if (at == first)
                    return refused(17, at);
                at = behind(text, len, at, BLANK);
            }
            if (depth == 0)
                break;
            if (at == len || (text[at] != ',' && text[at] != ')'))
                return refused(17, at);
            if (parts[depth] < 3)
                part[depth][parts[depth]] = (uint16_t)now;
            parts[depth]++;
            if (text[at++] == ',')
                break;
            not_binary |= parts[depth] != 2 && (depth > 1 || parts[depth] != 3);
            if (!unmatched && !not_binary) {
                const uint16_t *of_node = part[depth];
                if (depth == 1 && parts[depth] == 2) {
                    t.up[of_node[0]] = of_node[1];
                    t.up[of_node[1]] = of_node[0];
                } else {
                    now = node++;
                    for (int k = 0; k < 2; k++) {
                        t.down[now][k] = of_node[k];
                        t.up[of_node[k]] = (uint16_t)now;
                    }
                    if (parts[depth] == 3) {
                        t.up[now] = of_node[2];
                        t.up[of_node[2]] = (uint16_t)now;
                    }
                }
            }
            depth--;
        }
    } while (depth > 0);
    if (at == len || text[at] != ';')
        return refused(17, at);
    at = behind(text, len, at + 1, BLANK);
    if (at < len)
        return refused(17, at);
    if (not_binary)
        return 18;
    if (unmatched || leaves != n)
        return 19;
    write_rows(n, &t, out);
    return (uint64_t)IMPORTED << 8;
}
