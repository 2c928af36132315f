/*
 * tests/reference.c with the table of request E9 put in, and nothing else changed: it
 * reads the characters of track 2 two at a look of ten bits. The benchmark holds the
 * library's reading against it too; bench/run checks first that it gives what
 * tests/reference.c gives.
 */
#include <stdint.h>

enum { LOOK = 10, END = 15 };

/* For ten bits, the first lowest: 16 times the second number plus the first, or 256 if
 * either parity is even. bench/run computes the entries. */
static const uint16_t pairs[1 << LOOK] = {
#include "pairs.inc"
};

/* Five bits, the last first. */
static const uint8_t last_first[32] = {
    0, 16, 8, 24, 4, 20, 12, 28, 2, 18, 10, 26, 6, 22, 14, 30,
    1, 17, 9, 25, 5, 21, 13, 29, 3, 19, 11, 27, 7, 23, 15, 31,
};

/* Compiled once for each track; without the table the compiler does that by itself. */
struct track;
struct stream;
static inline __attribute__((always_inline)) uint32_t
    read_by_table(const struct track *, struct stream *, uint8_t *, unsigned *),
    read_one_way(const struct track *, struct stream *, uint8_t *, uint32_t *);
#define READ_BY_TABLE read_by_table
#include "reference.c"

/* Ten bits that lie from a bit of the bytes on. A third byte that none of them lies in
 * may not be lent, so it isn't touched. */
static unsigned window(const uint8_t *bytes, size_t at)
{
    const uint8_t *s = bytes + at / 8;
    unsigned bits = u16_at(s);
    if (at % 8 + LOOK > 16)
        bits |= (unsigned)s[2] << 16;
    return bits >> at % 8 & ((1u << LOOK) - 1);
}

/* The next ten bits, the first lowest. */
static unsigned next_ten(const struct stream *s)
{
    if (!s->reversed)
        return window(s->bytes, s->next);
    unsigned bits = window(s->bytes, bits_left(s) - LOOK);
    return last_first[bits / 32] | (unsigned)last_first[bits % 32] << 5;
}

/* Look by look, up to one with the end or an even parity in it, which is left to the
 * reference, as the 39th character is: the characters in `out`, how many they are, and
 * their exclusive or in *all. Their parity bits aren't in it; the LRC is compared
 * without. */
static uint32_t read_by_table(const struct track *t, struct stream *s, uint8_t *out,
                              unsigned *all)
{
    uint32_t n = 0;
    while (t == &track2 && n + 2 <= t->most && bits_left(s) >= LOOK) {
        unsigned pair = pairs[next_ten(s)], first = pair % 16, second = pair / 16;
        if (first == END || second >= END) /* of 256 the second is 16 */
            break;
        out[n++] = (uint8_t)(t->zero + first);
        out[n++] = (uint8_t)(t->zero + second);
        *all ^= first ^ second;
        s->next += LOOK;
    }
    return n;
}
