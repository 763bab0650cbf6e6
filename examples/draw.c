/* Draws the tree of a strain sheet: the sheet from standard input, a picture (SVG) to standard output.

       draw < SHEET > PICTURE

   A tree has no root and no branch lengths. It is drawn as hanging from leaf 0, whose node stands at the left; every
   leaf has a line of its own, in the standard listing's order, with its name at the right. */

#include "quartree.h"
#include <stdio.h>

enum { MOST = QUARTREE_MOST_LEAVES, MARGIN = 28, LINE = 28, WIDTH = 420, LETTER = 10 };

static uint8_t sheet[QUARTREE_SHEET_MOST_BYTES + 1], listing[QUARTREE_LISTING_BYTES(MOST)];

/* Of every leaf and node: the leaves under it, the first of their lines, the longest way down to a leaf, its place. */
static int leaves[2 * MOST], line[2 * MOST], height[2 * MOST], x[2 * MOST], y[2 * MOST];

/* A child of a row, 0 for the first or 1 for the second: the listing is lent as bytes, low byte first. */
static size_t child(size_t row, size_t which)
{
    const uint8_t *number = listing + 4 * row + 2 * which;
    return number[0] + 256u * number[1];
}

static int larger(int a, int b) { return a > b ? a : b; }

/* Gives every leaf and node its place. Rows name children before their parents. */
static void place(size_t n)
{
    size_t top = 2 * n - 3;
    for (size_t leaf = 0; leaf < n; leaf++)
        leaves[leaf] = 1;
    for (size_t row = 0; row < n - 2; row++) {
        size_t first = child(row, 0), second = child(row, 1);
        leaves[n + row] = leaves[first] + leaves[second];
        height[n + row] = 1 + larger(height[first], height[second]);
    }
    line[top] = 1; /* line 0 is leaf 0's */
    for (size_t row = n - 2; row-- > 0;) {
        line[child(row, 0)] = line[n + row];
        line[child(row, 1)] = line[n + row] + leaves[child(row, 0)];
    }
    for (size_t v = 0; v <= top; v++) {
        x[v] = MARGIN + WIDTH - WIDTH * height[v] / height[top];
        y[v] = v < n ? MARGIN + LINE * line[v] : (y[child(v - n, 0)] + y[child(v - n, 1)]) / 2;
    }
}

/* An upright line at a node, and from it a level line to each of its children. */
static void draw_node(size_t node, const size_t *children, size_t count)
{
    printf("<path d=\"M%d %dV%d", x[node], y[children[0]], y[children[count - 1]]);
    for (size_t k = 0; k < count; k++)
        printf("M%d %dH%d", x[node], y[children[k]], x[children[k]]);
    printf("\"/>\n");
}

int main(void)
{
    size_t len = fread(sheet, 1, sizeof sheet, stdin);
    uint32_t number = quartree_rebuild_sheet(sheet, len, listing, sizeof listing);
    if (number != QUARTREE_ACCEPTED) {
        fprintf(stderr, "refused %u: %s\n", (unsigned)number, quartree_refusal_text(number));
        return 2;
    }
    size_t n = sheet[len - 8], longest = 0;
    for (size_t leaf = 0; leaf < n; leaf++) {
        size_t name_len = (size_t)QUARTREE_FIGURE_Y(quartree_sheet_name(sheet, len, leaf));
        longest = name_len > longest ? name_len : longest;
    }

    place(n);
    int wide = 2 * MARGIN + WIDTH + LETTER * (int)(longest + 1), high = 2 * MARGIN + LINE * (int)(n - 1);
    printf("<svg xmlns=\"http://www.w3.org/2000/svg\" viewBox=\"0 0 %d %d\" width=\"%d\" height=\"%d\">\n", wide, high,
           wide, high);
    printf("<rect width=\"100%%\" height=\"100%%\" fill=\"white\"/>\n"
           "<g fill=\"none\" stroke=\"#2a6f97\" stroke-width=\"2\" stroke-linecap=\"round\">\n");
    for (size_t row = 0; row + 1 < n - 2; row++)
        draw_node(n + row, (size_t[]){child(row, 0), child(row, 1)}, 2);
    draw_node(2 * n - 3, (size_t[]){0, child(n - 3, 0), child(n - 3, 1)}, 3);
    printf("</g>\n<g font-family=\"sans-serif\" font-size=\"16\" fill=\"#1b1b1b\">\n");
    for (size_t leaf = 0; leaf < n; leaf++) {
        uint64_t name = quartree_sheet_name(sheet, len, leaf); /* its bytes mean nothing else in SVG */
        printf("<text x=\"%d\" y=\"%d\">%.*s</text>\n", x[leaf] + LETTER, y[leaf] + 5, (int)QUARTREE_FIGURE_Y(name),
               (const char *)sheet + QUARTREE_FIGURE_X(name));
    }
    printf("</g>\n</svg>\n");
    return 0;
}
