/*
 * A request handed to the functions of goltwarden.h. tests/toolchain.sh compiles this
 * file twice: as it is, for the library, and with each gw_ name turned into its
 * ref_ name and library_call into reference_call, for the reference.
 */
#include "door.h"
#include "goltwarden.h"

/* The ledger's two numbers go in and come back by the same pointers. */
static uint32_t ledger_call(const struct request *r, struct lent *l)
{
    l->word[0] = r->taken;
    l->sum = r->total;
    return gw_ledger_take(l->buffer[0], r->n[0], &l->word[0], &l->sum);
}

/* A lent buffer as a hot list. */
static const uint64_t *numbers(const uint8_t *buffer)
{
    return (const uint64_t *)(const void *)buffer;
}

static uint32_t text_call(const struct request *r, struct lent *l)
{
    uint8_t *const *b = l->buffer;
    const size_t *n = r->n;
    uint32_t *w = l->word;
    switch (r->call) {
    case LUHN_TEST: return gw_luhn_test(b[0], n[0]);
    case LUHN_MAKE: return gw_luhn_make(b[0], n[0], &l->digit);
    case PAN_MASK: return gw_pan_mask(b[0], n[0], b[1], n[1]);
    case RANGE_FIND: return gw_range_find(b[0], n[0], b[1], n[1], b[2], n[2], &w[0], &w[1]);
    case HOT_FIND:
        return gw_hot_find(numbers(b[0]), n[0] / 8, r->hot_length, b[1], n[1], &w[0]);
    case TRACK2_READ: return gw_track2_read(b[0], n[0], r->bits, b[1], n[1], &w[0], &w[1]);
    case LAYOUT_READ: return gw_layout_read(b[0], n[0], &w[0], &w[1], &w[2], &w[3]);
    case TRACK1_READ: return gw_track1_read(b[0], n[0], r->bits, b[1], n[1], &w[0], &w[1]);
    case LAYOUT1_READ: return gw_layout1_read(b[0], n[0], &w[0], &w[1], &w[2], &w[3], &w[4]);
    case IBAN_TEST: return gw_iban_test(b[0], n[0]);
    case IBAN_MAKE: return gw_iban_make(b[0], n[0], b[1], n[1], &w[0]);
    case CREDITOR_TEST: return gw_creditor_test(b[0], n[0]);
    case CREDITOR_MAKE: return gw_creditor_make(b[0], n[0], &w[0]);
    case LEDGER_TAKE: return ledger_call(r, l);
    default: return gw_version();
    }
}

static uint32_t journal_call(const struct request *r, struct lent *l)
{
    uint8_t *const *b = l->buffer;
    const size_t *n = r->n;
    uint32_t *w = l->word;
    switch (r->call) {
    case JOURNAL_BOOK:
        return gw_journal_book(b[0], n[0], b[1], n[1], r->label, r->amount, r->clock, &w[0]);
    case JOURNAL_RELEASE:
        return gw_journal_release(b[0], n[0], r->serial, &w[0], &l->sum);
    case JOURNAL_SHOW:
        return gw_journal_show(b[0], n[0], r->serial, &w[0]);
    case JOURNAL_TELL:
        return gw_journal_tell(b[0], n[0], &w[0], &l->sum, &w[1], &w[2]);
    case JOURNAL_WALK:
        return gw_journal_walk(b[0], n[0], r->serial, &w[0], &w[1]);
    case WALK_START:
        return gw_walk_start(b[0], n[0], &w[0]);
    case WALK_STEP:
        return gw_walk_step(b[0], n[0], r->serial, &w[0], &w[1]);
    case JOURNAL_SURVEY:
        return gw_journal_survey(b[0], n[0], b[1], n[1], &w[0]);
    default:
        return (r->call == SWIPE ? gw_swipe : gw_swipe1)(
            b[0], n[0], r->bits, b[1], n[1], b[2], n[2], numbers(b[3]), n[3] / 8, r->hot_length,
            r->amount, r->year, r->month, r->day, r->clock, b[4], n[4], b[5], n[5],
            &w[0], &w[1], &w[2]);
    }
}

uint32_t library_call(const struct request *r, struct lent *l)
{
    return r->call < JOURNAL_BOOK ? text_call(r, l) : journal_call(r, l);
}
