/*
 * gw_swipe_with and gw_swipe1_with held against the long calls: on the same inputs each
 * gives the same answer, the same numbers and the same bytes.
 */
#include <inttypes.h>
#include <stdio.h>
#include <string.h>
#include "cases.h"
#include "goltwarden.h"

enum { CASES = 20000, ENOUGH = 500 };

static struct made made, copy;

/* A swipe by the struct, as tests/door.c asks it by the long call. */
static uint32_t swipe_with(const struct request *r, struct lent *l)
{
    uint8_t *const *b = l->buffer;
    const size_t *n = r->n;
    struct gw_swipe_inputs in = {
        .stream = b[0], .stream_n = n[0], .bits = r->bits, .site = b[1], .site_n = n[1],
        .acquirer = b[2], .acquirer_n = n[2], .hot = (const uint64_t *)(const void *)b[3],
        .hot_n = n[3] / 8, .hot_length = r->hot_length, .amount = r->amount,
        .year = r->year, .month = r->month, .day = r->day, .clock = r->clock,
        .scratch = b[4], .scratch_n = n[4], .journal = b[5], .journal_n = n[5],
    };
    return (r->call == SWIPE ? gw_swipe_with : gw_swipe1_with)(&in, &l->word[0], &l->word[1],
                                                               &l->word[2]);
}

static struct lent lend(struct made *m)
{
    struct lent l = {.word = {1, 2, 3}};
    for (int b = 0; b < BUFFERS; b++)
        l.buffer[b] = m->bytes[b];
    return l;
}

/* Whether the two ways agree on a case; whether it was booked in *booked. */
static bool agree(bool *booked)
{
    memcpy(&copy, &made, sizeof made);
    struct lent one = lend(&made), other = lend(&copy);
    uint32_t answer = library_call(&made.r, &one);
    *booked = answer == 0;
    return swipe_with(&copy.r, &other) == answer
        && memcmp(one.word, other.word, sizeof one.word) == 0
        && memcmp(made.bytes, copy.bytes, sizeof made.bytes) == 0;
}

int main(void)
{
    uint32_t bookings = 0;
    for (uint32_t i = 0; i < CASES; i++) {
        bool booked;
        begin_case(1, i);
        make_request(&made, i % 2 ? SWIPE1 : SWIPE);
        if (!agree(&booked)) {
            printf("inputs: case %" PRIu32 ": gw_swipe%s_with isn't the long call\n", i,
                   i % 2 ? "1" : "");
            return 1;
        }
        bookings += booked;
    }
    printf("inputs: %d swipes, %" PRIu32 " booked, the same by the struct as by the long calls\n",
           CASES, bookings);
    return bookings < ENOUGH;
}
