/* Reads a listing from the words of a command line, for the examples. */
#ifndef LISTING_WORDS_H
#define LISTING_WORDS_H

#include <stddef.h>
#include <stdint.h>
#include <stdlib.h>

/* Fills listing with the numbers that so many words spell, room of them at most, and returns how many there are. */
static inline size_t read_listing(char **words, size_t count, uint16_t *listing, size_t room)
{
    size_t len = count < room ? count : room;
    for (size_t place = 0; place < len; place++) {
        unsigned long child = strtoul(words[place], NULL, 10);
        listing[place] = (uint16_t)(child < UINT16_MAX ? child : UINT16_MAX);
    }
    return len;
}

#endif
