/*
 * One request to either side: to the library, or to the reference.
 */
#ifndef DOOR_H
#define DOOR_H

#include <stddef.h>
#include <stdint.h>

enum call {
    VERSION, LUHN_TEST, LUHN_MAKE, PAN_MASK, RANGE_FIND, HOT_FIND, TRACK2_READ, LAYOUT_READ,
    TRACK1_READ, LAYOUT1_READ,
    IBAN_TEST, IBAN_MAKE, CREDITOR_TEST, CREDITOR_MAKE, LEDGER_TAKE,
    JOURNAL_BOOK, JOURNAL_RELEASE, JOURNAL_SHOW, JOURNAL_TELL, JOURNAL_WALK,
    WALK_START, WALK_STEP, JOURNAL_SURVEY, SWIPE, SWIPE1, CALLS
};

enum { BUFFERS = 6, WORDS = 5 };

/* What goes in, the bytes of the lent buffers apart: the buffers stand in the
 * order in which the call takes them. A hot list is one of them, and its numbers stand
 * there as in memory: it has 8 bytes a number, and is lent at a multiple of 8. */
struct request {
    enum call call;
    size_t n[BUFFERS]; /* bytes of each lent buffer */
    uint64_t bits;
    uint32_t hot_length; /* of the PANs on the hot list */
    uint32_t serial, amount, clock;
    uint32_t year, month, day; /* the host's date */
    uint16_t label;
    uint32_t taken; /* with the total, the host's ledger */
    uint64_t total;
};

/* What is lent to one side, and what comes back. */
struct lent {
    uint8_t *buffer[BUFFERS];
    uint32_t word[WORDS];
    uint64_t sum;
    uint8_t digit;
};

typedef uint32_t door(const struct request *, struct lent *);

door library_call, reference_call;

#endif
