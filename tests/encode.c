#include <string.h>
#include "encode.h"

void put_number(uint8_t *s, unsigned bytes, uint64_t v)
{
    for (unsigned i = 0; i < bytes; i++)
        s[i] = (uint8_t)(v >> 8 * i);
}

uint32_t number_at(const uint8_t *s)
{
    uint32_t v = 0;
    for (int i = 3; i >= 0; i--)
        v = v << 8 | s[i];
    return v;
}

uint64_t ten_to(uint32_t power)
{
    return power == 0 ? 1 : 10 * ten_to(power - 1);
}

const struct track track1 = {7, ' ', '%', '?', 76, '^'};
const struct track track2 = {5, '0', ';', '?', 37, '='};

unsigned number_of(const struct track *t, uint8_t character)
{
    return (unsigned)(character - t->zero) & ((1u << (t->width - 1)) - 1);
}

unsigned with_parity(const struct track *t, unsigned number)
{
    unsigned parity = 1;
    for (unsigned i = 0; i + 1 < t->width; i++)
        parity ^= number >> i & 1;
    return number | parity << (t->width - 1);
}

/* The character at a place of a track. */
static void put_character(const struct track *t, uint8_t *stream, size_t place, unsigned number)
{
    size_t at = t->width * place;
    for (size_t i = 0; i < t->width; i++)
        stream[(at + i) / 8] |= (uint8_t)((with_parity(t, number) >> i & 1) << (at + i) % 8);
}

unsigned put_track(const struct track *t, uint8_t *stream, const char *chars)
{
    unsigned lrc = 0;
    size_t n = strlen(chars);
    for (size_t i = 0; i < n; i++) {
        unsigned number = number_of(t, (uint8_t)chars[i]);
        put_character(t, stream, i, number);
        lrc ^= number;
    }
    put_character(t, stream, n, lrc);
    return lrc;
}

void put_range(uint8_t *record, const struct range *r)
{
    put_number(record, 4, r->low);
    put_number(record + 4, 4, r->high);
    put_number(record + 8, 2, r->label);
    record[10] = r->shortest;
    record[11] = r->longest;
}

void put_record(uint8_t *slot, const struct record *r, const uint8_t digits[10])
{
    put_number(slot, 4, r->serial);
    put_number(slot + 4, 4, r->clock);
    put_number(slot + 8, 4, r->amount);
    put_number(slot + 12, 2, r->label);
    slot[14] = r->pan_n;
    slot[15] = r->state;
    memcpy(slot + 16, digits, 10);
    memset(slot + 26, 0, 6);
}
