/*
 * A second implementation of document 01, and of requests E1, E4, E6, E7 and E8 of
 * document 02, in plain C, written from the paper alone. The tests hold the library
 * against it, call by call and byte by byte; the benchmark runs it as the plain C beside
 * the library.
 *
 * It defines the functions of goltwarden.h, so that the compiler holds it to the
 * header. tests/toolchain.sh gives them the prefix ref_ where both are linked.
 *
 * -DWRONG=k makes one of the wrong references that the tests must catch: each
 * SLIP(k, right, wrong) is `right`, and `wrong` in the reference number k; each
 * SLIP_ONE is so where the track `t` is track 1, and right for track 2; each SLIP_TWO
 * where it is track 2.
 */
#include <stdbool.h>
#include <stdlib.h>
#include <string.h>
#include "goltwarden.h"

#ifndef WRONG
#define WRONG 0
#endif
#define SLIP(k, right, wrong) (WRONG == (k) ? (wrong) : (right))
#define SLIP_ONE(k, right, wrong) (WRONG == (k) && t == &track1 ? (wrong) : (right))
#define SLIP_TWO(k, right, wrong) (WRONG == (k) && t == &track2 ? (wrong) : (right))

/* How many characters are read before the others are read one by one: none. But
 * bench/pairs.c, which includes this file, reads as many as it can by a table. */
#ifndef READ_BY_TABLE
#define READ_BY_TABLE(t, s, out, all) 0
#endif

uint32_t gw_version(void)
{
    return 7;
}

/* ---- Bytes and numbers -------------------------------------------------- */

static bool within(size_t low, size_t high, size_t n)
{
    return low <= n && n <= high;
}

static bool is_digit(uint8_t c)
{
    return within('0', '9', c);
}

static bool is_capital(uint8_t c)
{
    return within('A', 'Z', c);
}

static bool is_digit_or_capital(uint8_t c)
{
    return is_digit(c) || is_capital(c);
}

typedef bool kind(uint8_t);

static bool every(kind *is, const uint8_t *s, size_t n)
{
    for (size_t i = 0; i < n; i++)
        if (!is(s[i]))
            return false;
    return true;
}

static bool is_zero(uint8_t c)
{
    return c == 0;
}

static uint32_t u32_at(const uint8_t *s)
{
    return s[0] | (uint32_t)s[1] << 8 | (uint32_t)s[2] << 16 | (uint32_t)s[3] << 24;
}

static uint16_t u16_at(const uint8_t *s)
{
    return (uint16_t)(s[0] | s[1] << 8);
}

static void put_u16(uint8_t *s, uint16_t v)
{
    s[0] = (uint8_t)v;
    s[1] = (uint8_t)(v >> 8);
}

static void put_u32(uint8_t *s, uint32_t v)
{
    put_u16(s, (uint16_t)v);
    put_u16(s + 2, (uint16_t)(v >> 16));
}

/* Of at most 19 digits. */
static uint64_t decimal(const uint8_t *s, size_t n)
{
    uint64_t v = 0;
    for (size_t i = 0; i < n; i++)
        v = 10 * v + (uint64_t)(s[i] - '0');
    return v;
}

/* ---- Luhn --------------------------------------------------------------- */

/* The sum of a text of digits whose last digit has the place given. */
static unsigned luhn_sum(const uint8_t *s, size_t n, unsigned place)
{
    unsigned sum = 0;
    bool twice = SLIP(1, (n + place - 1) % 2 == 0, place == 1);
    for (size_t i = 0; i < n; i++, twice = !twice) {
        unsigned d = s[i] - '0';
        unsigned doubled = 2 * d > SLIP(2, 9u, 10u) ? 2 * d - 9 : 2 * d;
        sum += twice ? doubled : d;
    }
    return sum;
}

static bool luhn_passes(const uint8_t *s, size_t n)
{
    return luhn_sum(s, n, 1) % 10 == 0;
}

uint32_t gw_luhn_test(const uint8_t *text, size_t text_n)
{
    if (!within(2, SLIP(3, 40, 39), text_n))
        return 2;
    if (!every(is_digit, text, text_n))
        return 3;
    return luhn_passes(text, text_n) ? 0 : 4;
}

uint32_t gw_luhn_make(const uint8_t *body, size_t body_n, uint8_t *digit)
{
    if (!within(1, SLIP(4, 39, 40), body_n))
        return 2;
    if (!every(is_digit, body, body_n))
        return 3;
    unsigned over = luhn_sum(body, body_n, 2) % 10;
    *digit = (uint8_t)('0' + SLIP(5, (10 - over) % 10, 9 - over));
    return 0;
}

/* ---- Card numbers, masking and ranges ----------------------------------- */

static uint32_t pan_refusal(const uint8_t *pan, size_t pan_n)
{
    if (!within(SLIP(6, 13, 12), 19, pan_n))
        return 2;
    return every(is_digit, pan, pan_n) ? 0 : 3;
}

uint32_t gw_pan_mask(const uint8_t *pan, size_t pan_n, uint8_t *out, size_t out_n)
{
    if (WRONG == 7 && out_n < pan_n)
        return 1;
    uint32_t refusal = pan_refusal(pan, pan_n);
    if (refusal)
        return refusal;
    if (out_n < pan_n)
        return 1;
    memcpy(out - SLIP(46, 0, 1), pan, 6); /* 46: a byte before the buffer */
    memset(out + 6, '*', pan_n - 10);
    memcpy(out + pan_n - 4, pan + pan_n - 4, SLIP(8, 4, 3));
    return 0;
}

static bool bad_table(size_t n)
{
    return n % 16 != 0 || n > SLIP(9, 65536, 65535);
}

/* Whether a record fits; its width, high less low, in *width. Wrong references go by high
 * alone (93), or take a record of low above high whose width, wrapped, is enough (97). */
static bool fits(const uint8_t *record, uint32_t first_eight, size_t pan_n, uint32_t *width)
{
    uint32_t low = u32_at(record), high = u32_at(record + 4);
    *width = SLIP(93, high - low, high);
    return SLIP(97, low <= first_eight, first_eight - low <= high - low)
        && SLIP(10, first_eight <= high, first_eight < high)
        && within(record[10], record[11], pan_n);
}

/* Whether a width is less than the best so far. Wrong references keep the first record that
 * fits (90), take the last of equals (91) or the widest (92), or compare as signed numbers
 * (96). */
static bool narrower(uint32_t width, uint32_t best)
{
    bool less = SLIP(96, width < best, (int32_t)width < (int32_t)best);
    return SLIP(90, SLIP(91, SLIP(92, less, width > best), width <= best), false);
}

/* The offset of the narrowest fitting record of a table, of equals the earlier; or the
 * table's length. In a wrong reference the widest record there can be counts as none yet
 * (95). */
static size_t narrowest_fit(const uint8_t *table, size_t n, const uint8_t *pan, size_t pan_n)
{
    uint32_t first_eight = (uint32_t)SLIP(11, decimal(pan, 8), decimal(pan, 6) * 100);
    uint32_t width, best_width = UINT32_MAX;
    size_t best = n;
    for (size_t at = 0; at < n; at += 16) {
        if (!fits(table + at, first_eight, pan_n, &width))
            continue;
        if (SLIP(95, best == n, false) || narrower(width, best_width)) {
            best = at;
            best_width = width;
        }
    }
    return best;
}

struct tables {
    const uint8_t *site;
    size_t site_n;
    const uint8_t *acquirer;
    size_t acquirer_n;
};

struct found {
    uint32_t table; /* 0 the site's, 1 the acquirer's */
    uint32_t at;
};

/* For wrong references: the offset of the first fitting record of a table that has one,
 * which was the answer before E4. */
static uint32_t first_fit(const uint8_t *table, const uint8_t *pan, size_t pan_n)
{
    uint32_t at = 0, width;
    while (!fits(table + at, (uint32_t)decimal(pan, 8), pan_n, &width))
        at += 16;
    return at;
}

/* For a wrong reference: the width of a record, and whether the acquirer has a fitting one
 * that is narrower than the site's at this offset. */
static uint32_t width_of(const uint8_t *record)
{
    return u32_at(record + 4) - u32_at(record);
}

static bool outdone(const struct tables *t, size_t at, const uint8_t *pan, size_t pan_n)
{
    size_t other = narrowest_fit(t->acquirer, t->acquirer_n, pan, pan_n);
    return other < t->acquirer_n && width_of(t->acquirer + other) < width_of(t->site + at);
}

/* The narrowest fitting record of the site's table, else of the acquirer's, or 15. A
 * wrong reference takes the narrowest of both (94), another the site's first (98). */
static uint32_t look_up(const struct tables *t, const uint8_t *pan, size_t pan_n,
                        struct found *f)
{
    size_t at = narrowest_fit(t->site, t->site_n, pan, pan_n);
    f->table = at == t->site_n || SLIP(94, false, outdone(t, at, pan, pan_n));
    if (f->table)
        at = narrowest_fit(t->acquirer, t->acquirer_n, pan, pan_n);
    f->at = (uint32_t)SLIP(98, at, f->table ? at : first_fit(t->site, pan, pan_n));
    return f->table && at == t->acquirer_n ? 15 : 0;
}

static const uint8_t *table_of(const struct tables *t, const struct found *f)
{
    return f->table ? t->acquirer : t->site;
}

static uint16_t label_of(const struct tables *t, const struct found *f)
{
    const uint8_t *record = table_of(t, f) + f->at;
    return SLIP(44, u16_at(record + 8), record[8]);
}

uint32_t gw_range_find(const uint8_t *site, size_t site_n,
                       const uint8_t *acquirer, size_t acquirer_n,
                       const uint8_t *pan, size_t pan_n,
                       uint32_t *table, uint32_t *at)
{
    struct tables t = {site, site_n, acquirer, acquirer_n};
    struct found f;
    if (bad_table(site_n) || bad_table(acquirer_n))
        return 14;
    uint32_t refusal = pan_refusal(pan, pan_n);
    if (!refusal)
        refusal = look_up(&t, pan, pan_n, &f);
    if (refusal)
        return refusal;
    *table = f.table;
    *at = f.at;
    return 0;
}

/* ---- The hot list ------------------------------------------------------- */

struct hot_list {
    const uint64_t *numbers;
    size_t n;
    uint32_t length; /* of every PAN in it */
};

/* 10 to the power of a PAN length: the least number that is too large for it. */
static uint64_t too_large(uint32_t length)
{
    uint64_t v = UINT64_C(10000000000000);
    for (uint32_t digits = 13; digits < length; digits++)
        v *= 10;
    return v;
}

static bool is_below(uint64_t a, uint64_t b)
{
    return SLIP(100, SLIP(101, a < b, (int64_t)a < (int64_t)b), a <= b);
}

/* Wrong references take equal neighbours (100), compare as signed numbers (101), or leave
 * out the first pair (102) or the last one (103). */
static bool rises(const uint64_t *numbers, size_t n)
{
    for (size_t i = SLIP(102, 1, 2); i + SLIP(103, 0, 1) < n; i++)
        if (!is_below(numbers[i - 1], numbers[i]))
            return false;
    return true;
}

/* Of numbers that rise the last is the largest. Wrong references go by the first (104), take
 * 10 to the power of the length (105) or all numbers of one digit more (106), or take any
 * number where the length is 19 (107). */
static bool has_too_large(const struct hot_list *h)
{
    if (h->n == 0 || (WRONG == 107 && h->length == 19))
        return false;
    uint64_t largest = h->numbers[SLIP(104, h->n - 1, 0)];
    uint64_t bound = too_large(SLIP(106, h->length, h->length < 19 ? h->length + 1 : 19));
    return SLIP(105, largest >= bound, largest > bound);
}

static bool bad_hot_list(const struct hot_list *h)
{
    if (!within(SLIP(108, 13, 12), SLIP(109, 19, 20), h->length))
        return SLIP(110, true, h->n > 0); /* 110: an empty list may have any length */
    return h->n > SLIP(111, SLIP(112, 8192, 8191), 8193) || !rises(h->numbers, h->n)
        || has_too_large(h);
}

static int in_order(const void *a, const void *b)
{
    const uint64_t *one = a, *other = b;
    return is_below(*other, *one) - is_below(*one, *other);
}

/* Wrong references list a PAN of any length by its number (113), never find the first number
 * (114) or the last (115), or miss the first of 8,192, as a search of 13 looks would (116). */
static bool is_listed(const struct hot_list *h, const uint8_t *pan, size_t pan_n)
{
    uint64_t number = decimal(pan, pan_n);
    const uint64_t *from = h->numbers + SLIP(114, 0, h->n > 0);
    const uint64_t *end = h->numbers + h->n - SLIP(115, 0, h->n > 0);
    if (SLIP(113, pan_n != h->length, false))
        return false;
    if (WRONG == 116 && h->n == 8192 && number == from[0])
        return false;
    return bsearch(&number, from, (size_t)(end - from), sizeof number, in_order) != NULL;
}

uint32_t gw_hot_find(const uint64_t *list, size_t list_n, uint32_t length,
                     const uint8_t *pan, size_t pan_n, uint32_t *listed)
{
    struct hot_list h = {list, list_n, length};
    uint32_t refusal = pan_refusal(pan, pan_n);
    if (WRONG == 117)
        *listed = 0; /* a number changed, though the call may refuse */
    if (WRONG == 118 && refusal)
        return refusal;
    if (bad_hot_list(&h))
        return 21;
    if (refusal)
        return refusal;
    /* In a wrong reference *listed stays where the card isn't listed (119). */
    *listed = is_listed(&h, pan, pan_n) ? 1 : SLIP(119, 0, *listed);
    return 0;
}

/* ---- The tracks --------------------------------------------------------- */

/* A character of track 1's name or discretionary data. */
static bool is_named(uint8_t c)
{
    return within(' ', SLIP(51, '_', 'z'), c) && c != '%' && c != '^' && c != SLIP(52, '?', '%');
}

/* What differs between the tracks. */
struct track {
    unsigned width;      /* bits of a character, its parity bit the last */
    unsigned start, end; /* the sentinels' bits, the first lowest */
    uint8_t zero;        /* the byte that number 0 stands for */
    uint32_t most;       /* the most characters between the sentinels */
    bool named;          /* a format code stands before the PAN, a name after it */
    uint8_t mark;        /* behind PAN and name, and for a field that is absent */
    kind *rest;          /* what discretionary data may hold */
};

static const struct track track2 = {5, 0x0b, 0x1f, '0', 37, false, '=', is_digit};
static const struct track track1 = {7, 0x45, 0x1f, ' ', 76, true, '^', is_named};

enum { MOST = 76 }; /* characters of either track */

/* What stands here once over the track is compiled once for each track, as if it had
 * been written for it: the benchmark's plain C isn't to pay for standing once. */
#define OVER_TRACK static inline __attribute__((always_inline))

/* ---- A track from bits -------------------------------------------------- */

/* The lent bytes and how many of their bits count. */
struct stripe {
    const uint8_t *bytes;
    size_t n;
    uint64_t bits;
};

struct stream {
    const uint8_t *bytes;
    size_t bits;
    bool reversed;
    size_t next; /* the place of the next bit to be read */
};

static size_t bits_left(const struct stream *s)
{
    return s->bits - s->next;
}

static unsigned next_bit(const struct stream *s)
{
    size_t i = s->reversed ? s->bits - 1 - s->next : s->next;
    return s->bytes[i / 8] >> (i % 8) & 1;
}

/* As many bits as a character has, the first lowest. */
static unsigned next_bits(const struct track *t, struct stream *s)
{
    unsigned bits = 0;
    for (unsigned i = 0; i < t->width; i++, s->next++)
        bits |= next_bit(s) << i;
    return bits;
}

static bool odd_parity(unsigned bits)
{
    bits ^= bits >> 4; /* of at most eight bits */
    bits ^= bits >> 2;
    return (bits ^ bits >> 1) & 1;
}

/* The next character: its bits in *bits, or 9 or 10. */
static uint32_t next_character(const struct track *t, struct stream *s, unsigned *bits)
{
    if (bits_left(s) < t->width)
        return 9;
    *bits = next_bits(t, s);
    return odd_parity(*bits) ? 0 : 10;
}

static unsigned data_of(const struct track *t, unsigned bits)
{
    return bits & ((1u << (t->width - 1)) - 1);
}

/* The stream moved to its first one bit, or to its end. */
static void skip_zeros(struct stream *s)
{
    while (bits_left(s) > 0 && !next_bit(s))
        s->next++;
}

/* The LRC character, after characters whose bits gave this exclusive or, and the
 * zeros after it. */
static uint32_t read_lrc(const struct track *t, struct stream *s, unsigned all)
{
    unsigned bits;
    uint32_t refusal = next_character(t, s, &bits);
    if (refusal)
        return refusal;
    unsigned off = bits ^ all;
    if (SLIP_ONE(53, SLIP(13, data_of(t, off), off), off) != 0)
        return 12;
    skip_zeros(s);
    return bits_left(s) < SLIP(88, 1, 8) ? 0 : SLIP(12, 13, 0);
}

/* For a wrong reference: whether both characters of a look are of even parity. The last
 * one read, number n, is one of them. */
static bool even_twice(const struct track *t, struct stream s, uint32_t n)
{
    unsigned bits;
    s.next -= (1 + n % 2) * t->width;
    return next_character(t, &s, &bits) == 10 && next_character(t, &s, &bits) == 10;
}

/* Reading one way: the characters between the sentinels in `out`.
 *
 * Wrong references go wrong as a reading of two characters at a look can, in whose
 * second half n is odd: the two are exchanged (81), the end is passed over in the first
 * half (82), the 39th character is taken in the second (83), an odd last one is left
 * out (84), parity is looked at in the first half alone (85) or over the ten bits (86),
 * one entry of the table is wrong (87). */
static uint32_t read_one_way(const struct track *t, struct stream *s, uint8_t *out,
                             uint32_t *count)
{
    unsigned bits, all = t->start;
    uint32_t most = SLIP_ONE(54, SLIP(15, t->most, t->most - 1), 37);
    skip_zeros(s);
    if (bits_left(s) < t->width || next_bits(t, s) != t->start)
        return 8;
    for (uint32_t n = READ_BY_TABLE(t, s, out, &all); ; n++) {
        uint32_t refusal = next_character(t, s, &bits);
        if (refusal == 10 && SLIP_TWO(85, SLIP_TWO(86, false, even_twice(t, *s, n)), n % 2 == 1))
            refusal = 0;
        if (SLIP_TWO(87, false, n % 2 == 1 && out[n - 1] == '4' && data_of(t, bits) == 2))
            refusal = 10;
        if (refusal)
            return SLIP_ONE(55, refusal, n == most ? 11 : refusal);
        all ^= SLIP(14, bits, bits == t->end ? 0 : bits);
        if (bits == t->end && SLIP_TWO(82, true, n % 2 == 1)) {
            *count = SLIP_TWO(84, n, n - n % 2);
            return read_lrc(t, s, all);
        }
        if (SLIP_TWO(83, n == most, n == most + 1))
            return 11;
        out[SLIP_TWO(81, n, n ^ 1)] = (uint8_t)(t->zero + data_of(t, bits));
    }
}

/* Reading either way round, forward first, into characters of its own. */
OVER_TRACK uint32_t read_track(const struct track *t, const struct stripe *from,
                               uint8_t chars[MOST], uint32_t *count, bool *reversed)
{
    uint32_t refusals[2]; /* forward's and the reversed reading's */
    if (from->bits > SLIP(16, 4096, 4095) || from->bits > 8 * (uint64_t)from->n)
        return 7;
    for (int turn = 0; turn < 2; turn++) {
        *reversed = SLIP(56, turn == 1, turn == 0);
        size_t bits = SLIP(89, from->bits, (from->bits + 7) / 8 * 8);
        struct stream s = {from->bytes, bits, *reversed, 0};
        refusals[*reversed] = read_one_way(t, &s, chars, count);
        if (refusals[*reversed] == 0)
            return 0;
    }
    return refusals[SLIP(17, refusals[0] == 8, false)];
}

OVER_TRACK uint32_t track_call(const struct track *t, const struct stripe *from,
                               uint8_t *out, size_t out_n, uint32_t *count, uint32_t *reversed)
{
    uint8_t chars[MOST];
    uint32_t n = 0;
    bool turned;
    if (out_n < SLIP_ONE(57, SLIP(18, t->most, t->most + 1), 75))
        return 1;
    uint32_t refusal = read_track(t, from, chars, &n, &turned);
    if (refusal)
        return refusal;
    memcpy(out, chars, n);
    *count = n;
    *reversed = turned;
    return 0;
}

uint32_t gw_track2_read(const uint8_t *stream, size_t stream_n, uint64_t bits,
                        uint8_t *out, size_t out_n,
                        uint32_t *count, uint32_t *reversed)
{
    struct stripe from = {stream, stream_n, bits};
    return track_call(&track2, &from, out, out_n, count, reversed);
}

uint32_t gw_track1_read(const uint8_t *stream, size_t stream_n, uint64_t bits,
                        uint8_t *out, size_t out_n,
                        uint32_t *count, uint32_t *reversed)
{
    struct stripe from = {stream, stream_n, bits};
    return track_call(&track1, &from, out, out_n, count, reversed);
}

/* ---- Layout between the sentinels --------------------------------------- */

struct layout {
    uint32_t pan_at, pan_n, name_n, expiry_at, service_at, rest_at;
};

/* Characters, and the place up to which they are divided. */
struct text {
    const uint8_t *chars;
    size_t n;
    size_t at;
};

static bool is_month(const uint8_t *two)
{
    return within(SLIP(19, 1, 0), 12, decimal(two, 2));
}

/* The one character wanted, and moved past it. */
static bool take(struct text *s, uint8_t wanted)
{
    bool there = s->at < s->n && s->chars[s->at] == wanted;
    s->at += there;
    return there;
}

/* Low to high characters of a kind and the mark behind them; how many in *count. */
static bool take_run(struct text *s, kind *is, size_t low, size_t high, uint8_t mark,
                     uint32_t *count)
{
    size_t n = 0;
    while (s->at + n < s->n && n <= high && is(s->chars[s->at + n]))
        n++;
    s->at += n;
    *count = (uint32_t)n;
    return within(low, high, n) && take(s, mark);
}

/* A field of n digits, or the mark for none: its offset, 0 for none, in *field. */
static bool take_field(struct text *s, size_t n, uint8_t mark, uint32_t *field)
{
    *field = 0;
    if (take(s, mark))
        return true;
    if (s->n - s->at < n || !every(is_digit, s->chars + s->at, n))
        return false;
    *field = (uint32_t)s->at;
    s->at += n;
    return true;
}

static bool read_layout(const struct track *t, const uint8_t *chars, size_t n, struct layout *l)
{
    struct text s = {chars, n, 0};
    uint8_t absent = SLIP_ONE(58, t->mark, '=');
    if (t->named && !take(&s, SLIP(59, 'B', n ? chars[0] : 'B')))
        return false;
    l->pan_at = (uint32_t)s.at;
    if (!take_run(&s, is_digit, 13, SLIP(20, 19, 18), t->mark, &l->pan_n))
        return false;
    if (t->named && !take_run(&s, is_named, SLIP(60, 2, 1), SLIP(61, 26, 27), t->mark, &l->name_n))
        return false;
    if (!take_field(&s, 4, absent, &l->expiry_at))
        return false;
    if (l->expiry_at && !is_month(chars + l->expiry_at + 2))
        return false;
    if (!take_field(&s, 3, absent, &l->service_at))
        return false;
    l->rest_at = (uint32_t)s.at;
    return every(t->rest, chars + s.at, n - s.at);
}

uint32_t gw_layout_read(const uint8_t *chars, size_t chars_n,
                        uint32_t *pan_n, uint32_t *expiry_at,
                        uint32_t *service_at, uint32_t *rest_at)
{
    struct layout l;
    if (!read_layout(&track2, chars, chars_n, &l))
        return 6;
    *pan_n = l.pan_n;
    *expiry_at = l.expiry_at;
    *service_at = l.service_at;
    *rest_at = l.rest_at;
    return 0;
}

uint32_t gw_layout1_read(const uint8_t *chars, size_t chars_n,
                         uint32_t *pan_n, uint32_t *name_n, uint32_t *expiry_at,
                         uint32_t *service_at, uint32_t *rest_at)
{
    struct layout l;
    if (!read_layout(&track1, chars, chars_n, &l))
        return 6;
    *pan_n = l.pan_n;
    *name_n = l.name_n;
    *expiry_at = l.expiry_at;
    *service_at = l.service_at;
    *rest_at = l.rest_at;
    return 0;
}

/* ---- Check pairs modulo 97 ---------------------------------------------- */

/* The remainder once the numbers of these characters are written after a number
 * that leaves r. */
static unsigned remainder_after(unsigned r, const uint8_t *s, size_t n)
{
    for (size_t i = 0; i < n; i++)
        r = is_digit(s[i]) ? (10 * r + (s[i] - '0')) % 97
                           : (100 * r + (s[i] - 'A' + SLIP(21, 10u, 11u))) % 97;
    return r;
}

/* The remainder of a text whose first four characters are moved to the end. */
static unsigned moved_remainder(const uint8_t *text, size_t n)
{
    return remainder_after(remainder_after(0, text + 4, n - 4), text, 4);
}

static bool pair_passes(const uint8_t *text, size_t n)
{
    return within(SLIP(22, 2, 0), SLIP(23, 98, 99), decimal(text + 2, 2))
        && moved_remainder(text, n) == 1;
}

/* 98 less the remainder with 00 in the check places. */
static uint32_t made_pair(const uint8_t *country, const uint8_t *body, size_t n)
{
    unsigned r = remainder_after(remainder_after(0, body, n), country, 2);
    return 98 - SLIP(24, r * 100, r * 10) % 97;
}

struct run {
    uint8_t kind; /* 'n' digit, 'a' capital, 'c' digit or capital */
    uint8_t count;
};

struct row {
    const char *countries; /* two letters each */
    struct run runs[3];
};

static const struct row rows[] = {
    {"NO", {{'n', 11}}},
    {"BE", {{'n', 12}}},
    {"DKFI", {{'n', 14}}},
    {"SI", {{'n', 15}}},
    {"ATEELT", {{'n', 16}}},
    {"HR", {{'n', 17}}},
    {"DE", {{'n', 18}}},
    {"CZESSESK", {{'n', 20}}},
    {"PT", {{'n', 21}}},
    {"IS", {{'n', 22}}},
    {"HUPL", {{'n', 24}}},
    {"NL", {{'a', 4}, {'n', 10}}},
    {"GBIE", {{'a', 4}, {'n', 14}}},
    {"LV", {{'a', 4}, {'c', 13}}},
    {"RO", {{'a', 4}, {'c', 16}}},
    {"BG", {{'a', 4}, {'n', 6}, {'c', 8}}},
    {"MT", {{'a', 4}, {'n', 5}, {'c', 18}}},
    {"CHLI", {{'n', 5}, {'c', 12}}},
    {"LU", {{'n', 3}, {'c', 13}}},
    {"CY", {{'n', 8}, {'c', 16}}},
    {"GR", {{'n', 7}, {'c', SLIP(25, 16, 17)}}},
    {"FRMC", {{'n', 10}, {'c', 11}, {'n', 2}}},
    {"ITSM", {{'a', 1}, {'n', 10}, {'c', SLIP(26, 12, 11)}}},
};

static const struct row *row_of(const uint8_t *country)
{
    for (size_t i = 0; i < sizeof rows / sizeof rows[0]; i++)
        for (const char *c = rows[i].countries; *c; c += 2)
            if (c[0] == country[0] && c[1] == country[1])
                return &rows[i];
    return NULL;
}

static kind *kind_of(uint8_t letter)
{
    return letter == 'n' ? is_digit : letter == 'a' ? is_capital : is_digit_or_capital;
}

static bool has_structure(const struct row *row, const uint8_t *body, size_t n)
{
    size_t at = 0;
    for (int i = 0; i < 3 && row->runs[i].count; i++) {
        size_t count = row->runs[i].count;
        if (n - at < count || !every(kind_of(row->runs[i].kind), body + at, count))
            return false;
        at += count;
    }
    return at == n;
}

uint32_t gw_iban_test(const uint8_t *text, size_t text_n)
{
    if (!within(5, SLIP(27, 34, 33), text_n))
        return 2;
    if (!every(is_digit_or_capital, text, text_n))
        return 3;
    const struct row *row = row_of(text);
    if (!row)
        return 5;
    if (!every(is_digit, text + 2, 2) || !has_structure(row, text + 4, text_n - 4))
        return 6;
    return pair_passes(text, text_n) ? 0 : 4;
}

uint32_t gw_iban_make(const uint8_t *country, size_t country_n,
                      const uint8_t *body, size_t body_n, uint32_t *pair)
{
    if (country_n != 2 || !within(1, 30, body_n))
        return 2;
    if (!every(is_digit_or_capital, country, 2) || !every(is_digit_or_capital, body, body_n))
        return 3;
    const struct row *row = row_of(country);
    if (!row)
        return 5;
    if (!has_structure(row, body, body_n))
        return 6;
    *pair = made_pair(country, body, body_n);
    return 0;
}

uint32_t gw_creditor_test(const uint8_t *text, size_t text_n)
{
    if (!within(5, 25, text_n))
        return 2;
    bool starts = text[0] == 'R' && text[1] == 'F' && every(is_digit, text + 2, 2);
    if (WRONG == 28 && !starts)
        return 6;
    if (!every(is_digit_or_capital, text, text_n))
        return 3;
    if (!starts)
        return 6;
    return pair_passes(text, text_n) ? 0 : 4;
}

uint32_t gw_creditor_make(const uint8_t *body, size_t body_n, uint32_t *pair)
{
    if (!within(1, SLIP(29, 21, 22), body_n))
        return 2;
    if (!every(is_digit_or_capital, body, body_n))
        return 3;
    *pair = made_pair((const uint8_t *)"RF", body, body_n);
    return 0;
}

/* ---- The journal -------------------------------------------------------- */

enum { SLOT = 32, FREE = 0, HELD = 1, RELEASED = 2, DAMAGED = 3 };
#define LAST_SERIAL UINT32_C(4294967295)

/* Where the fields of a record stand. */
enum { CLOCK = 4, AMOUNT = 8, LABEL = 12, PAN_LENGTH = 14, STATE = 15, FRONT = 16, BACK = 22,
       ZEROS = 26 };

/* What a well-formed journal holds: m records, the newest with serial b. */
struct view {
    uint32_t slots;
    uint32_t b, m;
    uint32_t held; /* the held records are the newest ones, these many */
    uint32_t first; /* the slot of serial b - m + 1 */
};

static bool is_record(const uint8_t *record)
{
    return (record[STATE] == HELD || record[STATE] == RELEASED)
        && u32_at(record + AMOUNT) > 0
        && within(13, 19, record[PAN_LENGTH])
        && every(is_digit, record + FRONT, ZEROS - FRONT)
        && every(is_zero, record + ZEROS, SLIP(30, SLOT - ZEROS, 5));
}

static bool slots_of(size_t n, uint32_t *slots)
{
    *slots = (uint32_t)(n / SLOT);
    return n % SLOT == 0 && within(1, SLIP(31, 2048, 2047), n / SLOT);
}

static uint32_t highest_serial(const uint8_t *journal, uint32_t slots)
{
    uint32_t b = 0;
    for (uint32_t i = 0; i < slots + SLIP(47, 0, 1); i++) { /* 47: past the buffer's end */
        uint32_t s = u32_at(journal + i * SLOT);
        b = s > b ? s : b;
    }
    return b;
}

static uint32_t slot_after(uint32_t slot, uint32_t slots)
{
    return slot + 1 == slots ? 0 : slot + 1;
}

/* The m newest stand in their slots, and no released one has a higher serial
 * than a held one; v->held counts them. */
static bool records_stand(const uint8_t *journal, struct view *v)
{
    uint32_t slot = v->first;
    v->held = 0;
    for (uint32_t i = 0; i < v->m; i++, slot = slot_after(slot, v->slots)) {
        const uint8_t *record = journal + (size_t)slot * SLOT;
        if (u32_at(record) != v->b - v->m + 1 + i || !is_record(record))
            return false;
        if (WRONG == 45 && slot > 0 && u32_at(record + CLOCK) < u32_at(record + CLOCK - SLOT))
            return false; /* a clock compared */
        if (record[STATE] == HELD)
            v->held++;
        else if (SLIP(32, v->held > 0, false))
            return false;
    }
    return true;
}

/* Well formed: the view, or false. The newest serial can only be the highest. */
static bool look(const uint8_t *journal, size_t n, struct view *v)
{
    if (!slots_of(n, &v->slots))
        return false;
    v->b = highest_serial(journal, v->slots);
    v->m = v->b < v->slots ? v->b : v->slots;
    v->first = (v->b - v->m) % v->slots;
    if (!records_stand(journal, v))
        return false;
    return SLIP(33, every(is_zero, journal + (size_t)v->m * SLOT, n - (size_t)v->m * SLOT), true);
}

/* The slot of a serial that is among the m newest. */
static uint32_t slot_of(const struct view *v, uint32_t serial)
{
    return (serial - 1) % v->slots;
}

/* The oldest held serial, where one is held. */
static uint32_t first_held(const struct view *v)
{
    return v->b - v->held + 1;
}

/* 19, then 18. */
static uint32_t no_room(const struct view *v)
{
    if (v->b == LAST_SERIAL)
        return SLIP(34, 19, 18);
    return SLIP(35, v->held, v->m) == v->slots ? 18 : 0;
}

static void write_record(uint8_t *record, uint32_t serial, const uint8_t *pan, size_t pan_n,
                         uint16_t label, uint32_t amount, uint32_t clock)
{
    put_u32(record, serial);
    put_u32(record + CLOCK, clock);
    put_u32(record + AMOUNT, amount);
    put_u16(record + LABEL, label);
    record[PAN_LENGTH] = (uint8_t)pan_n;
    memcpy(record + FRONT, pan, 6);
    memcpy(record + BACK, pan + pan_n - 4, 4);
    memset(record + ZEROS, 0, SLOT - ZEROS);
    record[STATE] = SLIP(36, HELD, RELEASED);
}

/* Book into a journal that has room. */
static uint32_t book(uint8_t *journal, const struct view *v, const uint8_t *pan, size_t pan_n,
                     uint16_t label, uint32_t amount, uint32_t clock)
{
    uint32_t serial = v->b + 1;
    uint8_t *record = journal + (size_t)slot_of(v, serial) * SLOT;
    write_record(record, serial, pan, pan_n, label, amount, clock);
    return serial;
}

uint32_t gw_journal_book(uint8_t *journal, size_t journal_n,
                         const uint8_t *pan, size_t pan_n,
                         uint16_t label, uint32_t amount, uint32_t clock,
                         uint32_t *serial)
{
    struct view v;
    if (!look(journal, journal_n, &v))
        return 16;
    uint32_t refusal = pan_refusal(pan, pan_n);
    if (refusal)
        return refusal;
    if (!luhn_passes(pan, pan_n))
        return 4;
    if (amount == 0)
        return 17;
    refusal = no_room(&v);
    if (refusal)
        return refusal;
    *serial = book(journal, &v, pan, pan_n, label, amount, clock);
    return 0;
}

uint32_t gw_journal_release(uint8_t *journal, size_t journal_n, uint32_t serial,
                            uint32_t *count, uint64_t *sum)
{
    struct view v;
    if (!look(journal, journal_n, &v))
        return 16;
    if (serial == 0 || serial > v.b)
        return 20;
    uint32_t oldest = first_held(&v);
    bool none = v.held == 0 || serial < oldest;
    uint32_t turned = none ? 0 : serial - oldest + SLIP(37, 1, 0);
    uint32_t slot = none ? 0 : slot_of(&v, oldest);
    uint64_t total = 0;
    for (uint32_t i = 0; i < turned; i++, slot = slot_after(slot, v.slots)) {
        uint8_t *record = journal + (size_t)slot * SLOT;
        record[STATE] = RELEASED;
        total += u32_at(record + AMOUNT);
    }
    *count = turned;
    *sum = SLIP(38, total, (uint32_t)total);
    return 0;
}

uint32_t gw_journal_show(const uint8_t *journal, size_t journal_n,
                         uint32_t serial, uint32_t *at)
{
    struct view v;
    if (!look(journal, journal_n, &v))
        return 16;
    if (v.held == 0 || serial < first_held(&v) || serial > v.b)
        return 20;
    *at = slot_of(&v, serial) * SLOT;
    return 0;
}

uint32_t gw_journal_tell(const uint8_t *journal, size_t journal_n,
                         uint32_t *count, uint64_t *sum,
                         uint32_t *oldest, uint32_t *newest)
{
    struct view v;
    if (!look(journal, journal_n, &v))
        return 16;
    uint64_t total = 0;
    for (uint32_t i = 0; i < v.m; i++) {
        const uint8_t *record = journal + (size_t)i * SLOT;
        total += record[STATE] == HELD ? u32_at(record + AMOUNT) : 0;
    }
    *count = v.held;
    *sum = total;
    *oldest = v.held ? first_held(&v) : SLIP(39, 0, v.b);
    *newest = v.b;
    return 0;
}

uint32_t gw_journal_walk(const uint8_t *journal, size_t journal_n, uint32_t after,
                         uint32_t *serial, uint32_t *at)
{
    struct view v;
    if (!look(journal, journal_n, &v))
        return 16;
    bool done = v.held == 0 || SLIP(40, after >= v.b, after > v.b);
    uint32_t next = done ? 0 : after < first_held(&v) ? first_held(&v) : after + 1;
    *serial = next;
    *at = done ? 0 : slot_of(&v, next) * SLOT;
    return 0;
}

uint32_t gw_walk_start(const uint8_t *journal, size_t journal_n, uint32_t *serial)
{
    struct view v;
    if (!look(journal, journal_n, &v))
        return 16;
    *serial = v.held ? first_held(&v) : SLIP(48, 0, v.b);
    return 0;
}

/* A record of this serial stands held in its slot, which begins at *at. */
static bool stands_held(const uint8_t *journal, size_t n, uint32_t serial, uint32_t *at)
{
    size_t slots = n / SLOT;
    if (serial == 0 || !within(1, 2048, slots))
        return false;
    *at = (uint32_t)((serial - 1) % slots * SLOT);
    return u32_at(journal + *at) == serial && journal[*at + STATE] == HELD;
}

uint32_t gw_walk_step(const uint8_t *journal, size_t journal_n, uint32_t serial,
                      uint32_t *at, uint32_t *next)
{
    uint32_t here = 0, behind = 0;
    if (WRONG == 50)
        *next = 0; /* a number changed, though the call may refuse */
    if (!stands_held(journal, journal_n, serial, &here))
        return 20;
    bool more = stands_held(journal, journal_n, serial + 1, &behind); /* none behind the last */
    *at = here;
    *next = SLIP(49, more, true) ? serial + 1 : 0;
    return 0;
}

/* What a slot's own 32 bytes say, its serial belonging in it or not. */
static uint8_t slot_state(const uint8_t *record, uint32_t slot, uint32_t slots)
{
    if (every(is_zero, record, SLOT))
        return FREE;
    uint32_t serial = u32_at(record);
    bool belongs = serial > 0 && SLIP(41, (serial - 1) % slots == slot, true);
    return belongs && is_record(record) ? record[STATE] : DAMAGED;
}

uint32_t gw_journal_survey(const uint8_t *journal, size_t journal_n,
                           uint8_t *states, size_t states_n, uint32_t *formed)
{
    struct view v;
    uint32_t slots;
    if (!slots_of(journal_n, &slots))
        return 16;
    if (states_n < slots)
        return 1;
    for (uint32_t i = 0; i < slots; i++)
        states[i] = slot_state(journal + (size_t)i * SLOT, i, slots);
    *formed = look(journal, journal_n, &v);
    return 0;
}

/* ---- Dates -------------------------------------------------------------- */

struct date {
    uint32_t year, month, day;
};

/* In wrong references 2000 is no leap year (126), or 2001 is one (127). */
static bool is_leap(uint32_t year)
{
    return (year % 4 == 0 && (year % 100 != 0 || SLIP(126, year % 400 == 0, false)))
        || SLIP(127, false, year == 2001);
}

/* In a wrong reference the months of 30 days and those of 31 are exchanged (128). */
static uint32_t days_in(uint32_t year, uint32_t month)
{
    switch (month) {
    case 2: return is_leap(year) ? 29 : 28;
    case 4: case 6: case 9: case 11: return SLIP(128, 30, 31);
    default: return SLIP(128, 31, 30);
    }
}

/* The last day of a month as a date may have it. Wrong references take 29 February in every
 * year (129) or in none (130), or day 31 in every month (131). */
static uint32_t last_taken(uint32_t year, uint32_t month)
{
    if (WRONG == 129 && month == 2)
        return 29;
    if (WRONG == 130 && month == 2)
        return 28;
    return SLIP(131, days_in(year, month), 31);
}

/* Wrong references take 1999 (132), 2100 (133), month 0 (134), month 13 (135) or day 0
 * (136). */
static bool is_real(const struct date *d)
{
    return within(SLIP(132, 2000, 1999), SLIP(133, 2099, 2100), d->year)
        && within(SLIP(134, 1, 0), SLIP(135, 12, 13), d->month)
        && within(SLIP(136, 1, 0), last_taken(d->year, d->month), d->day);
}

/* The months from January of the year 0 on. */
static uint32_t month_number(uint32_t year, uint32_t month)
{
    return 12 * year + month - 1;
}

/* The days from a date to the last day of a month, counted month by month. Wrong references
 * count from the first of the date's month (137), to the first of the month behind (138), or
 * no leap days (139). */
static uint32_t days_to_end(const struct date *d, uint32_t end)
{
    uint32_t days = days_in(d->year, d->month) - SLIP(137, d->day, 1) + SLIP(138, 0, 1);
    for (uint32_t m = month_number(d->year, d->month) + 1; m <= end; m++)
        days += days_in(SLIP(139, m / 12, 2001), m % 12 + 1);
    return days;
}

/* What a good card has left: days, or no number. */
struct left {
    bool expires;
    uint32_t days;
};

/* What a card whose expiry is four digits has left on a date, or 24. In wrong references YY
 * means 19YY (140); the card expires with the first day of its month (141) or with the last
 * (142), is good on one day more (143), or in the months of each year up to its own (144). */
static uint32_t days_left(const struct date *d, const uint8_t expiry[4], struct left *left)
{
    uint32_t year = SLIP(140, 2000, 1900) + (uint32_t)decimal(expiry, 2);
    uint32_t month = (uint32_t)decimal(expiry + 2, 2);
    uint32_t now = month_number(d->year, d->month), end = month_number(year, month);
    bool over = SLIP(141, now > end, now >= end);
    if (WRONG == 143 && now == end + 1 && d->day == 1)
        return 0;
    if (SLIP(144, over, over || d->month > month))
        return 24;
    left->days = days_to_end(d, end);
    return SLIP(142, false, left->days == 0) ? 24 : 0;
}

/* The same of the expiry that a layout found, if there is one. Wrong references refuse a card
 * without an expiry (145), or don't look for it on track 1 (146). */
static uint32_t left_on(const struct track *t, const struct date *d, const uint8_t *chars,
                        const struct layout *l, struct left *left)
{
    *left = (struct left){SLIP_ONE(146, l->expiry_at != 0, false), 0};
    if (!left->expires)
        return SLIP(145, 0, 24);
    return days_left(d, chars + l->expiry_at, left);
}

/* ---- The swipes --------------------------------------------------------- */

/* What a swipe is given to read. */
struct given {
    struct stripe stripe;
    struct tables tables;
    struct hot_list hot;
    uint32_t amount;
    struct date date;
    uint32_t clock;
};

/* The date of a swipe. Wrong references ask the box's clock (147), or look at the lower half
 * of the year (148) or the lowest byte of month (149) or day (150) alone. */
static struct date date_of(uint32_t year, uint32_t month, uint32_t day, uint32_t clock)
{
    uint32_t today = clock / 86400;
    if (WRONG == 147)
        return (struct date){1970 + today / 365, 1 + today / 30 % 12, 1 + today % 28};
    return (struct date){SLIP(148, year, (uint16_t)year), SLIP(149, month, (uint8_t)month),
                         SLIP(150, day, (uint8_t)day)};
}

/* 23, 19, 18. In wrong references 23 stands after 19 (151), after 18 (152) or nowhere (153). */
static uint32_t before_booking(const struct date *d, const struct view *v)
{
    uint32_t refusal = no_room(v);
    if ((WRONG == 151 && refusal == 19) || (WRONG == 152 && refusal))
        return refusal;
    return SLIP(153, is_real(d), true) ? refusal : 23;
}

/* What stands before the reading: 16, 14, 21, 17, 23, 19, 18. In wrong references 21 stands
 * before 14 (120), after 17 (121) or nowhere (122), or 23 before 17 (154). */
static uint32_t before_reading(const uint8_t *journal, size_t n, const struct given *g,
                               struct view *v)
{
    if (WRONG == 42 && g->amount == 0)
        return 17;
    if (!look(journal, n, v))
        return 16;
    if (WRONG == 120 && bad_hot_list(&g->hot))
        return 21;
    if (bad_table(g->tables.site_n) || bad_table(g->tables.acquirer_n))
        return 14;
    if (SLIP(121, SLIP(122, true, false), g->amount > 0) && bad_hot_list(&g->hot))
        return 21;
    if (WRONG == 154 && !is_real(&g->date))
        return 23;
    if (g->amount == 0)
        return 17;
    return before_booking(&g->date, v);
}

/* A card as it was read: where its fields stand in its characters, its range, and what it has
 * left on the date. */
struct card {
    uint8_t chars[MOST];
    struct layout l;
    struct found range;
    struct left left;
};

/* 4, 15, 24, 22; or the card's range and what it has left. In wrong references 22 stands
 * before 4 (123) or before 15 (124), or a card on track 1 is never refused with it (125); and
 * 24 stands before 4 (155), before 15 (156), after 22 (157) or nowhere (158). */
OVER_TRACK uint32_t judge_card(const struct track *t, const struct given *g, struct card *c)
{
    const uint8_t *pan = c->chars + c->l.pan_at;
    size_t pan_n = c->l.pan_n;
    bool expired = left_on(t, &g->date, c->chars, &c->l, &c->left) != 0;
    bool listed = SLIP_ONE(125, is_listed(&g->hot, pan, pan_n), false);
    if (WRONG == 155 && expired)
        return 24;
    if (WRONG == 123 && listed)
        return 22;
    if (!luhn_passes(pan, pan_n))
        return 4;
    if (WRONG == 156 && expired)
        return 24;
    if (WRONG == 124 && listed)
        return 22;
    uint32_t refusal = look_up(&g->tables, pan, pan_n, &c->range);
    if (refusal)
        return refusal;
    if (SLIP(157, SLIP(158, expired, false), expired && !listed))
        return 24;
    return listed ? 22 : 0;
}

/* The reading's refusals, 6, 4, 15, 24, 22; or the card. */
OVER_TRACK uint32_t read_card(const struct track *t, const struct given *g, struct card *c)
{
    uint32_t count = 0;
    bool reversed;
    uint32_t refusal = read_track(t, &g->stripe, c->chars, &count, &reversed);
    if (refusal)
        return refusal;
    if (!read_layout(t, c->chars, count, &c->l))
        return 6;
    c->l.pan_at = SLIP(62, c->l.pan_at, 0);
    return judge_card(t, g, c);
}

/* The numbers that a swipe answers. */
struct answers {
    uint32_t *serial, *expires, *days;
};

/* What a good card has left. Wrong references answer a card without an expiry 0 days (159), or
 * write 0 behind the pointer (160). */
static void answer_left(const struct left *left, const struct answers *a)
{
    *a->expires = SLIP(159, left->expires, true);
    if (left->expires || WRONG == 159 || WRONG == 160)
        *a->days = left->days;
}

/* A wrong reference changes a number though it refuses: the serial (161) or whether the card
 * expires (162) at 22, or the days (163) at 24. */
static uint32_t refuse(uint32_t refusal, const struct answers *a)
{
    if (WRONG == 161 && refusal == 22)
        *a->serial = 0;
    if (WRONG == 162 && refusal == 22)
        *a->expires = 1;
    if (WRONG == 163 && refusal == 24)
        *a->days = 0;
    return refusal;
}

OVER_TRACK uint32_t swipe(const struct track *t, const struct given *g,
                          uint8_t *scratch, size_t scratch_n,
                          uint8_t *journal, size_t journal_n, const struct answers *a)
{
    struct view v;
    struct card c;
    if (scratch_n < SLIP_ONE(63, t->most, 75))
        return 1;
    uint32_t refusal = before_reading(journal, journal_n, g, &v);
    if (WRONG != 43 || !refusal)
        memset(scratch, 0, SLIP(64, t->most, 37));
    if (!refusal)
        refusal = read_card(t, g, &c);
    if (refusal)
        return refuse(refusal, a);
    const uint8_t *pan = c.chars + c.l.pan_at;
    /* A wrong reference books the label of that table's first fitting record (99). */
    c.range.at = SLIP(99, c.range.at, first_fit(table_of(&g->tables, &c.range), pan, c.l.pan_n));
    *a->serial = book(journal, &v, pan, c.l.pan_n, label_of(&g->tables, &c.range), g->amount,
                      g->clock);
    answer_left(&c.left, a);
    return 0;
}

uint32_t gw_swipe(const uint8_t *stream, size_t stream_n, uint64_t bits,
                  const uint8_t *site, size_t site_n,
                  const uint8_t *acquirer, size_t acquirer_n,
                  const uint64_t *hot, size_t hot_n, uint32_t hot_length,
                  uint32_t amount, uint32_t year, uint32_t month, uint32_t day,
                  uint32_t clock,
                  uint8_t *scratch, size_t scratch_n,
                  uint8_t *journal, size_t journal_n,
                  uint32_t *serial, uint32_t *expires, uint32_t *days)
{
    struct given g = {{stream, stream_n, bits}, {site, site_n, acquirer, acquirer_n},
                      {hot, hot_n, hot_length}, amount, date_of(year, month, day, clock), clock};
    struct answers a = {serial, expires, days};
    return swipe(&track2, &g, scratch, scratch_n, journal, journal_n, &a);
}

uint32_t gw_swipe1(const uint8_t *stream, size_t stream_n, uint64_t bits,
                   const uint8_t *site, size_t site_n,
                   const uint8_t *acquirer, size_t acquirer_n,
                   const uint64_t *hot, size_t hot_n, uint32_t hot_length,
                   uint32_t amount, uint32_t year, uint32_t month, uint32_t day,
                   uint32_t clock,
                   uint8_t *scratch, size_t scratch_n,
                   uint8_t *journal, size_t journal_n,
                   uint32_t *serial, uint32_t *expires, uint32_t *days)
{
    struct given g = {{stream, stream_n, bits}, {site, site_n, acquirer, acquirer_n},
                      {hot, hot_n, hot_length}, amount, date_of(year, month, day, clock), clock};
    struct answers a = {serial, expires, days};
    return swipe(&track1, &g, scratch, scratch_n, journal, journal_n, &a);
}

/* ---- The host's ledger -------------------------------------------------- */

static bool is_held_record(const uint8_t *message, size_t n)
{
    return SLIP(65, n == SLOT, n == SLOT || n == SLOT + 1)
        && SLIP(66, u32_at(message) > 0, true)
        && is_record(message)
        && SLIP(67, message[STATE] == HELD, true);
}

/* Messages can have led to these numbers: each amount taken is 1 to 4,294,967,295. */
static bool is_sound(uint32_t taken, uint64_t total)
{
    uint64_t least = SLIP(68, taken, 0), most = (uint64_t)taken * UINT32_MAX;
    return SLIP(69, least <= total, least < total)
        && SLIP(70, total <= SLIP(71, most, UINT64_MAX), total < most);
}

/* The next serial; after the last one nothing. */
static bool is_wanted(uint32_t serial, uint32_t taken)
{
    if ((WRONG == 72 && serial == taken) || (WRONG == 73 && serial > taken))
        return true; /* a repeat, a gap */
    if (taken == LAST_SERIAL)
        return SLIP(74, false, serial == 1);
    return serial == taken + 1;
}

uint32_t gw_ledger_take(const uint8_t *message, size_t message_n,
                        uint32_t *taken, uint64_t *total)
{
    if (!is_held_record(message, message_n) || !is_sound(*taken, *total)) {
        *taken -= SLIP(75, 0, 1); /* 75, 76: a refusal changes a number */
        *total -= SLIP(76, 0, 1);
        return 6;
    }
    uint32_t serial = u32_at(message);
    if (is_wanted(serial, *taken)) {
        uint64_t more = *total + SLIP(77, u32_at(message + AMOUNT), 0);
        *total = SLIP(78, more, (uint32_t)more);
        *taken = SLIP(79, serial, *taken);
    }
    *taken = SLIP(80, *taken, serial); /* 80: answers any record that it sees */
    return 0;
}
