/*
 * Inputs as bytes: numbers, tracks, records.
 */
#ifndef ENCODE_H
#define ENCODE_H

#include <stddef.h>
#include <stdint.h>

enum { SLOT = 32 };

/* A number, lowest byte first, and one of four bytes read again. */
void put_number(uint8_t *s, unsigned bytes, uint64_t v);
uint32_t number_at(const uint8_t *s);

/* 10 to a power of at most 19. */
uint64_t ten_to(uint32_t power);

/* How a track is written. */
struct track {
    unsigned width;           /* bits of a character, its parity bit the last */
    uint8_t zero, start, end; /* the bytes of number 0 and of the sentinels */
    uint32_t most;            /* the most characters between the sentinels */
    uint8_t mark;             /* between the fields of a card */
};

extern const struct track track1, track2;

/* A character's number, and its bits, the parity bit highest. */
unsigned number_of(const struct track *t, uint8_t character);
unsigned with_parity(const struct track *t, unsigned number);

/* The bits of characters, sentinels included, and of their LRC, into a stream
 * of zeros; the LRC itself. */
unsigned put_track(const struct track *t, uint8_t *stream, const char *chars);

/* A range table's record. */
struct range {
    uint32_t low, high;
    uint16_t label;
    uint8_t shortest, longest;
};

void put_range(uint8_t *record, const struct range *r);

/* A journal's record; its ten digits are given apart. */
struct record {
    uint32_t serial, clock, amount;
    uint16_t label;
    uint8_t pan_n, state;
};

void put_record(uint8_t *slot, const struct record *r, const uint8_t digits[10]);

#endif
