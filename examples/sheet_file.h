/* Reads a sheet from a file, for the examples. */
#ifndef SHEET_FILE_H
#define SHEET_FILE_H

#include "quartree.h"
#include <stdio.h>
#include <stdlib.h>

/* One byte more than the longest sheet, so that a longer file is refused and not cut. */
#define SHEET_ROOM (QUARTREE_SHEET_MOST_BYTES + 1)

/* Fills sheet with the file's first SHEET_ROOM bytes, and returns how many there are. */
static inline size_t read_sheet(const char *path, uint8_t *sheet)
{
    FILE *file = fopen(path, "rb");
    if (file == NULL) {
        perror(path);
        exit(3);
    }
    size_t len = fread(sheet, 1, SHEET_ROOM, file);
    if (ferror(file)) {
        perror(path);
        exit(3);
    }
    fclose(file);
    return len;
}

#endif
