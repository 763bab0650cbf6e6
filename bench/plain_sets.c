/* Plain C of leaf sets by the word: see plain.h. */
#include "plain.h"
#include <string.h>

enum { SET = 16 };
typedef uint64_t words[SET / sizeof(uint64_t)];

uint64_t plain_join(const uint8_t *a, size_t a_len, const uint8_t *b, size_t b_len, uint8_t *out, size_t room)
{
    words x, y;
    if (a_len != SET || b_len != SET)
        return 2;
    if (room < SET)
        return 3;
    memcpy(x, a, SET);
    memcpy(y, b, SET);
    x[0] |= y[0];
    x[1] |= y[1];
    memcpy(out, x, SET);
    return 0;
}

uint64_t plain_intersect(const uint8_t *a, size_t a_len, const uint8_t *b, size_t b_len, uint8_t *out, size_t room)
{
    words x, y;
    if (a_len != SET || b_len != SET)
        return 2;
    if (room < SET)
        return 3;
    memcpy(x, a, SET);
    memcpy(y, b, SET);
    x[0] &= y[0];
    x[1] &= y[1];
    memcpy(out, x, SET);
    return 0;
}

uint64_t plain_equal(const uint8_t *a, size_t a_len, const uint8_t *b, size_t b_len)
{
    words x, y;
    if (a_len != SET || b_len != SET)
        return 2;
    memcpy(x, a, SET);
    memcpy(y, b, SET);
    return (uint64_t)(((x[0] ^ y[0]) | (x[1] ^ y[1])) == 0) << 8;
}

uint64_t idle_maker(const uint8_t *a, size_t a_len, const uint8_t *b, size_t b_len, uint8_t *out, size_t room)
{
    (void)a, (void)a_len, (void)b, (void)b_len, (void)out, (void)room;
    return 0;
}

uint64_t idle_comparer(const uint8_t *a, size_t a_len, const uint8_t *b, size_t b_len)
{
    (void)a, (void)a_len, (void)b, (void)b_len;
    return 0;
}
