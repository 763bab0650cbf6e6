/* Plain C of leaf sets byte by byte: see plain.h. bench/run compiles it twice, the second time with other names, and
   kept from vector instructions. */
#include "plain.h"

enum { SET = 16 };

uint64_t bytes_join(const uint8_t *restrict a, size_t a_len, const uint8_t *restrict b, size_t b_len,
                    uint8_t *restrict out, size_t room)
{
    if (a_len != SET || b_len != SET)
        return 2;
    if (room < SET)
        return 3;
    for (size_t k = 0; k < SET; k++)
        out[k] = a[k] | b[k];
    return 0;
}

uint64_t bytes_intersect(const uint8_t *restrict a, size_t a_len, const uint8_t *restrict b, size_t b_len,
                         uint8_t *restrict out, size_t room)
{
    if (a_len != SET || b_len != SET)
        return 2;
    if (room < SET)
        return 3;
    for (size_t k = 0; k < SET; k++)
        out[k] = a[k] & b[k];
    return 0;
}

uint64_t bytes_equal(const uint8_t *a, size_t a_len, const uint8_t *b, size_t b_len)
{
    if (a_len != SET || b_len != SET)
        return 2;
    for (size_t k = 0; k < SET; k++)
        if (a[k] != b[k])
            return 0;
    return 1 << 8;
}
