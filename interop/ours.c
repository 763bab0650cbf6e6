/* Our side: takes a request a line from standard input, and prints the answer, a line each. Bytes are hexadecimal.

       export SHEET LISTING    LISTING: numbers with commas between them. Answer: the text, in bytes
       import SHEET TEXT       Answer: the standard listing, in numbers with commas between them

   The answer to a refused call is `refused NUMBER FIGURE`. A hyphen stands for no bytes. */
#include "quartree.h"
#include <stdio.h>
#include <stdlib.h>
#include <string.h>

enum { LINE = 1 << 20, MOST = QUARTREE_LISTING_NUMBERS(QUARTREE_MOST_LEAVES) };

static char line[LINE];
static uint8_t sheet[LINE], text[LINE];
static uint16_t listing[MOST];

static void fail(const char *what)
{
    fprintf(stderr, "ours: %s\n", what);
    exit(1);
}

static size_t bytes_of(const char *word, uint8_t *bytes)
{
    size_t len = 0;
    for (unsigned byte; strcmp(word, "-") != 0 && sscanf(word + 2 * len, "%2x", &byte) == 1; len++)
        bytes[len] = (uint8_t)byte;
    return len;
}

static size_t numbers_of(const char *word)
{
    size_t len = 0;
    while (len < MOST && *word != '\0') {
        char *end;
        listing[len++] = (uint16_t)strtoul(word, &end, 10);
        word = *end == ',' ? end + 1 : end;
    }
    return len;
}

static void print_text(size_t len)
{
    for (size_t byte = 0; byte < len; byte++)
        printf("%02x", text[byte]);
    printf("\n");
}

static void print_listing(size_t len)
{
    for (size_t place = 0; place < len; place++)
        printf("%s%u", place == 0 ? "" : ",", (unsigned)listing[place]);
    printf("\n");
}

int main(void)
{
    while (fgets(line, sizeof line, stdin) != NULL) {
        const char *what = strtok(line, " \n"), *first = strtok(NULL, " \n"), *second = strtok(NULL, " \n");
        if (what == NULL || first == NULL || second == NULL)
            fail("a request is cut");
        int is_export = strcmp(what, "export") == 0;
        size_t sheet_len = bytes_of(first, sheet), len = is_export ? numbers_of(second) : bytes_of(second, text);
        uint64_t reply = is_export ? quartree_export(sheet, sheet_len, listing, len, text, sizeof text)
                                   : quartree_import(sheet, sheet_len, text, len, listing, MOST);
        if (QUARTREE_NUMBER(reply) != QUARTREE_ACCEPTED)
            printf("refused %u %llu\n", QUARTREE_NUMBER(reply), (unsigned long long)QUARTREE_FIGURE(reply));
        else if (is_export)
            print_text((size_t)QUARTREE_FIGURE(reply));
        else
            print_listing(QUARTREE_LISTING_NUMBERS(sheet[sheet_len - 8]));
    }
    return 0;
}
