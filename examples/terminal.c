/*
 * A terminal's round with the C interface: take one swipe on the host's date, keep it,
 * tell the holder how long the card is good, send what is held to the host, and release
 * by the host's answer. The journal's file is kept as store.h says, the host's ledger,
 * JOURNAL.ledger, as host.h says.
 *
 *   cc -Iinclude examples/terminal.c crates/goltwarden/out/libgoltwarden.a -o terminal
 *   ./terminal JOURNAL
 *
 * Both files are made where there are none, the journal first, and belong together from
 * then on. Where one is missing, or their serials don't fit, the program stops with
 * status 2 before it makes or changes either. It goes by the serials alone: another
 * box's file isn't found out where they fit.
 */
#define _DEFAULT_SOURCE
#include <inttypes.h>
#include <stdio.h>
#include <stdlib.h>
#include "host.h"

enum { SLOTS = 64 };

/* The acquirer's table, one record: 40000000 to 49999999, label 7, 13 to 19 digits. */
static const uint8_t acquirer[GW_RANGE_BYTES] = {
    0x00, 0x5a, 0x62, 0x02, 0x7f, 0xf0, 0xfa, 0x02, 7, 0, 13, 19,
};

/* The acquirer's hot list: the blocked cards of 16 digits, by rising number. */
static const uint64_t blocked[] = {UINT64_C(4000000000000002), UINT64_C(5500000000000004)};

/* The bits of ;4111111111111111=2512101? and its LRC, 8: 135 of them, as the
 * reading head gives them. */
static const uint8_t stream[] = {
    0x8b, 0x84, 0x10, 0x42, 0x08, 0x21, 0x84, 0x10, 0x42,
    0x08, 0xa1, 0x89, 0x1a, 0x44, 0x80, 0xe1, 0x23,
};

/* A journal that isn't kept is used no further: the next start reads the file anew. */
static void kept(bool done)
{
    if (done)
        return;
    perror("the journal isn't kept");
    exit(2);
}

/* What a swipe is given. The date is the host's; the clock is the box's, and may be wrong. */
static struct gw_swipe_inputs inputs(struct store *s, uint8_t scratch[GW_TRACK_BYTES],
                                     uint32_t amount, struct date date, uint32_t clock)
{
    return (struct gw_swipe_inputs){
        .stream = stream, .stream_n = sizeof stream, .bits = 135,
        .site = acquirer, .site_n = 0,
        .acquirer = acquirer, .acquirer_n = sizeof acquirer,
        .hot = blocked, .hot_n = sizeof blocked / sizeof blocked[0], .hot_length = 16,
        .amount = amount,
        .year = date.year, .month = date.month, .day = date.day,
        .clock = clock,
        .scratch = scratch, .scratch_n = GW_TRACK_BYTES,
        .journal = s->journal, .journal_n = store_bytes(s),
    };
}

/* A swipe that is answered 0 is in the file, and the holder is told of it. */
static uint32_t swipe(struct store *s, uint32_t amount, uint32_t clock)
{
    uint8_t scratch[GW_TRACK_BYTES];
    uint32_t serial, expires, days;
    struct gw_swipe_inputs in = inputs(s, scratch, amount, host_date(), clock);
    uint32_t refusal = gw_swipe_with(&in, &serial, &expires, &days);
    if (refusal)
        return refusal;
    kept(store_booked(s, serial));
    if (expires)
        printf("booked: serial %" PRIu32 "; days left to the card: %" PRIu32 "\n", serial, days);
    else
        printf("booked: serial %" PRIu32 "; the card has no expiry\n", serial);
    return 0;
}

/* A release that is answered 0 is in the file. */
static uint32_t release(struct store *s, uint32_t serial, uint32_t *count, uint64_t *sum)
{
    uint32_t oldest;
    uint32_t refusal = gw_walk_start(s->journal, store_bytes(s), &oldest);
    if (!refusal)
        refusal = gw_journal_release(s->journal, store_bytes(s), serial, count, sum);
    if (!refusal)
        kept(store_released(s, oldest, *count));
    return refusal;
}

/* Send each held record to the host: *answer receives what it answered last, 0 for
 * nothing yet. */
static uint32_t send_held(const struct store *s, struct host *h, uint32_t *answer)
{
    uint32_t serial, at, next;
    uint32_t refusal = gw_walk_start(s->journal, store_bytes(s), &serial);
    while (!refusal && serial != 0) {
        refusal = gw_walk_step(s->journal, store_bytes(s), serial, &at, &next);
        if (refusal)
            break;
        printf("held: serial %" PRIu32 ", first six digits %.6s, last four %.4s\n", serial,
               (const char *)s->journal + at + 16, (const char *)s->journal + at + 22);
        host_hears(h, s->journal + at, GW_SLOT_BYTES, answer);
        serial = next;
    }
    return refusal;
}

/* One swipe, then the host's answer. */
static uint32_t round_trip(struct store *s, struct host *h)
{
    uint32_t count, answer = 0;
    uint64_t sum;
    uint32_t refusal = swipe(s, 250, 0);
    if (refusal)
        return refusal;
    refusal = send_held(s, h, &answer);
    if (refusal)
        return refusal;

    /* By the host's answer and by nothing else; one of 0 is refused with 20. */
    refusal = release(s, answer, &count, &sum);
    if (!refusal)
        printf("taken by the host: up to serial %" PRIu32 "; released: %" PRIu32 ", in all %" PRIu64
               "\n", answer, count, sum);
    return refusal;
}

static void stop(const char *path)
{
    perror(path);
    exit(2);
}

static void stop_at_journal(const char *path, uint32_t newest, uint32_t taken)
{
    fprintf(stderr, "%s is new, or isn't the journal of %s.ledger: booked up to serial %" PRIu32
            ", taken up to serial %" PRIu32 ". The host would answer serials of the old journal, "
            "and the box would release payments that the host never took. Put the old journal "
            "back; if it is gone, move the ledger away, so that both start anew.\n",
            path, path, newest, taken);
    exit(2);
}

static void stop_at_ledger(const char *path, uint32_t newest, uint32_t taken)
{
    fprintf(stderr, "%s.ledger is new, or isn't the ledger of %s: taken up to serial %" PRIu32
            ", booked up to serial %" PRIu32 ". The host would want a serial that it took before "
            "and that may be held no more; then nothing would be released. Put the old ledger "
            "back; if it is gone, hand over what is held and move the journal away, so that both "
            "start anew.\n", path, path, taken, newest);
    exit(2);
}

/* Both files opened, where they fit: the host has taken all that the box has released,
 * and nothing that the box hasn't booked; and a journal with records has had a ledger from
 * the start. A cut of power while they are made leaves an all-zero journal without a
 * ledger; that, and a ledger that has taken nothing without a journal, is as good as new. */
static uint32_t open_both(struct store *s, struct host *h, const char *path, const char *ledger)
{
    uint32_t count, oldest = 0, newest = 0, refusal = 0;
    uint64_t sum;
    bool there = access(path, F_OK) == 0;
    if (there && !store_open(s, path, SLOTS))
        stop(path);
    if (there)
        refusal = gw_journal_tell(s->journal, store_bytes(s), &count, &sum, &oldest, &newest);
    if (refusal)
        return refusal;
    ssize_t n = host_read(h, ledger);
    if (n < 0)
        stop(ledger);
    uint32_t released = oldest != 0 ? oldest - 1 : newest;
    if (h->taken > newest)
        stop_at_journal(path, newest, h->taken);
    if (h->taken < released || (n == 0 && newest > 0))
        stop_at_ledger(path, newest, h->taken);
    if (!there && !store_open(s, path, SLOTS))
        stop(path);
    if (!host_open(h, ledger))
        stop(ledger);
    return 0;
}

int main(int argc, char **argv)
{
    static struct store store;
    struct host host;
    char ledger[PATH_MAX];
    if (argc != 2) {
        fprintf(stderr, "usage: terminal JOURNAL (a file of %d bytes, or none yet)\n",
                SLOTS * GW_SLOT_BYTES);
        return 2;
    }
    if (snprintf(ledger, sizeof ledger, "%s.ledger", argv[1]) >= (int)sizeof ledger) {
        errno = ENAMETOOLONG;
        stop(argv[1]);
    }
    uint32_t refusal = open_both(&store, &host, argv[1], ledger);
    if (!refusal)
        refusal = round_trip(&store, &host);
    if (refusal)
        printf("refused with %" PRIu32 "\n", refusal);
    return refusal ? 1 : 0;
}
