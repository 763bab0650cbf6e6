/* lent.c: buffers between guard bytes and a page that may not be touched. */

#include "lent.h"
#include <inttypes.h>
#include <stdio.h>
#include <stdlib.h>
#include <string.h>
#include <sys/mman.h>

enum { PAGE_BYTES = 4096 };

/* The memory of a place and taker: between two pages that may not be touched. It is mapped once. */
static uint8_t *memory_of(size_t place, enum taker taker)
{
    static uint8_t *memory[MOST_LENT][TAKERS];
    if (memory[place][taker] == NULL) {
        uint8_t *pages = mmap(NULL, MEMORY_BYTES + 2 * PAGE_BYTES, PROT_NONE, MAP_PRIVATE | MAP_ANONYMOUS, -1, 0);
        if (pages == MAP_FAILED || mprotect(pages + PAGE_BYTES, MEMORY_BYTES, PROT_READ | PROT_WRITE) != 0) {
            perror("no memory for a buffer");
            exit(2);
        }
        memory[place][taker] = pages + PAGE_BYTES;
    }
    return memory[place][taker];
}

/* Guard bytes that go up and down, so that no plain fill equals them. */
static const uint8_t *guard_bytes(void)
{
    static uint8_t guard[GUARD_BYTES];
    if (guard[0] == 0)
        for (size_t place = 0; place < GUARD_BYTES; place++)
            guard[place] = (uint8_t)(151 * place + 0xA5);
    return guard;
}

static size_t bytes_of(const struct lent *lent)
{
    return lent->cell_bytes * lent->cells;
}

void lend(struct lent *lent, size_t place, const char *name, const void *content, size_t cell_bytes, size_t cells)
{
    size_t bytes = cell_bytes * cells;
    lent->name = name;
    lent->cell_bytes = cell_bytes;
    lent->cells = cells;
    for (enum taker taker = REFERENCE; taker < TAKERS; taker++) {
        uint8_t *memory = memory_of(place, taker);
        uint8_t *first = taker == PAGE_AFTER ? memory + MEMORY_BYTES - bytes : memory;
        uint8_t *guard = taker == PAGE_AFTER ? first - GUARD_BYTES : first + bytes;
        memcpy(first, content, bytes);
        memcpy(guard, guard_bytes(), GUARD_BYTES);
        lent->first[taker] = first;
        lent->guard[taker] = guard;
    }
}

bool lent_alike(const struct lent *lent, enum taker taker)
{
    return memcmp(lent->first[taker], lent->first[REFERENCE], bytes_of(lent)) == 0
           && memcmp(lent->guard[taker], guard_bytes(), GUARD_BYTES) == 0;
}

/* Prints a cell: a number, low byte first, of 64 bits with a sign; or a record. */
static void print_cell(const struct lent *lent, enum taker taker, size_t place)
{
    const uint8_t *cell = (const uint8_t *)lent->first[taker] + place * lent->cell_bytes;
    uint64_t number = 0;
    if (lent->cell_bytes == 5) {
        printf("%d %d %d %d: %d;", cell[0], cell[1], cell[2], cell[3], cell[4]);
        return;
    }
    memcpy(&number, cell, lent->cell_bytes);
    printf("%" PRId64, (int64_t)number);
}

void print_lent(const struct lent *lent)
{
    printf("%s, %zu cells of %zu bytes:", lent->name, lent->cells, lent->cell_bytes);
    for (size_t place = 0; place < lent->cells; place++) {
        putchar(' ');
        print_cell(lent, REFERENCE, place);
    }
    putchar('\n');
}

/* The first byte in which two stretches differ, or their length. */
static size_t first_difference(const uint8_t *one, const uint8_t *other, size_t length)
{
    size_t byte = 0;
    while (byte < length && one[byte] == other[byte])
        byte++;
    return byte;
}

void print_lent_difference(const struct lent *lent, enum taker taker)
{
    size_t byte = first_difference(lent->first[taker], lent->first[REFERENCE], bytes_of(lent));
    if (byte < bytes_of(lent)) {
        printf("%s: cell %zu is ", lent->name, byte / lent->cell_bytes);
        print_cell(lent, taker, byte / lent->cell_bytes);
        printf(" with the archive, ");
        print_cell(lent, REFERENCE, byte / lent->cell_bytes);
        printf(" with the reference\n");
    }
    byte = first_difference(lent->guard[taker], guard_bytes(), GUARD_BYTES);
    if (byte < GUARD_BYTES)
        printf("%s: written outside, at byte %td from its first\n", lent->name,
               lent->guard[taker] + byte - (uint8_t *)lent->first[taker]);
}
