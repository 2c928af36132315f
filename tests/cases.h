/*
 * The cases: what goes into each call, made from a seed and a case number alone.
 */
#ifndef CASES_H
#define CASES_H

#include <stdbool.h>
#include "door.h"

enum { LONGEST = 65536 + 256 }; /* room for the longest buffer lent */

/* A request and the bytes to be lent with it, each buffer aligned for a hot list. */
struct made {
    struct request r;
    _Alignas(uint64_t) uint8_t bytes[BUFFERS][LONGEST];
};

/* Start drawing for one case. */
void begin_case(uint64_t seed, uint64_t number);

uint64_t draw(void);
uint32_t below(uint32_t n); /* 0 to n - 1 */
bool one_in(uint32_t n);

/* Make one request of the call named. */
void make_request(struct made *m, enum call call);

/* Start a history: an empty journal, or one near its last serial. */
void make_first_journal(struct made *m);

/* Make the next request of a history, on the journal given in bytes[0] (of a
 * swipe bytes[5]); which call it is, is drawn. */
void make_next_request(struct made *m, const uint8_t *journal, size_t journal_n);

/* The buffer in which a call is lent the journal, or -1. */
int journal_buffer(enum call call);

#endif
