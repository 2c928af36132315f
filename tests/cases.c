#include <string.h>
#include "cases.h"
#include "encode.h"
#include "pans.h"

/* ---- Drawing ------------------------------------------------------------ */

static uint64_t state;

uint64_t draw(void)
{
    uint64_t z = state += UINT64_C(0x9e3779b97f4a7c15);
    z = (z ^ z >> 30) * UINT64_C(0xbf58476d1ce4e5b9);
    z = (z ^ z >> 27) * UINT64_C(0x94d049bb133111eb);
    return z ^ z >> 31;
}

void begin_case(uint64_t seed, uint64_t number)
{
    state = seed;
    state = draw() ^ number * UINT64_C(0xd1342543de82ef95);
}

uint32_t below(uint32_t n)
{
    return (uint32_t)(draw() >> 32) % n;
}

bool one_in(uint32_t n)
{
    return below(n) == 0;
}

/* In 64 bits, since from 0 to UINT32_MAX there is one number more than below() takes. */
static uint32_t between(uint32_t low, uint32_t high)
{
    return low + (uint32_t)((draw() >> 32) % ((uint64_t)high - low + 1));
}

/* Any length up to a little above the bound, each bound and its neighbours more
 * often. */
static size_t length_around(uint32_t low, uint32_t high)
{
    uint32_t edge = one_in(2) ? low : high;
    if (one_in(4))
        return edge + below(3) - (edge > 0);
    return one_in(6) ? below(high + 4) : between(low, high);
}

/* ---- Texts -------------------------------------------------------------- */

static uint8_t draw_digit(void)
{
    return (uint8_t)('0' + below(10));
}

static uint8_t draw_capital(void)
{
    return (uint8_t)('A' + below(26));
}

static void fill_digits(uint8_t *s, size_t n)
{
    for (size_t i = 0; i < n; i++)
        s[i] = draw_digit();
}

static void fill_digits_and_capitals(uint8_t *s, size_t n)
{
    for (size_t i = 0; i < n; i++)
        s[i] = one_in(2) ? draw_digit() : draw_capital();
}

static void fill_any(uint8_t *s, size_t n)
{
    for (size_t i = 0; i < n; i++)
        s[i] = (uint8_t)draw();
}

/* A byte just outside what is allowed, or any byte. */
static uint8_t odd_byte(void)
{
    static const uint8_t near[] = {'/', ':', '@', '[', '`', 'a', 'z', '{', '0', '9', 'A', 'Z',
                                   '=', ' ', '_', '%', '^', '?', 31, 0, 255};
    return one_in(3) ? (uint8_t)draw() : near[below(sizeof near)];
}

static void exchange(uint8_t *a, uint8_t *b)
{
    uint8_t held = *a;
    *a = *b;
    *b = held;
}

/* One byte, bit, length or order off. */
static void spoil(uint8_t *s, size_t *n)
{
    size_t at = *n ? below((uint32_t)*n) : 0;
    size_t other = *n ? below((uint32_t)*n) : 0;
    switch (*n ? below(7) : 6) {
    case 0: s[at] = odd_byte(); break;
    case 1: s[at] ^= (uint8_t)(1 << below(8)); break;
    case 2: exchange(&s[at], &s[other]); break;
    case 3: exchange(&s[at], &s[at ? at - 1 : other]); break;
    case 4: s[at] = one_in(2) ? draw_digit() : draw_capital(); break;
    case 5: *n -= 1; break;
    default: s[(*n)++] = one_in(2) ? odd_byte() : draw_digit(); break;
    }
}

static void spoil_one_in(uint32_t k, uint8_t *s, size_t *n)
{
    if (one_in(k))
        spoil(s, n);
}

/* What the reference makes of a body, to build texts that pass. */
static bool made_of(struct request *r, struct lent *l, uint8_t *country, uint8_t *body, size_t n)
{
    r->n[0] = country ? 2 : n;
    r->n[1] = n;
    l->buffer[0] = country ? country : body;
    l->buffer[1] = body;
    return reference_call(r, l) == 0;
}

static void end_by_luhn(uint8_t *s, size_t n)
{
    struct request r = {.call = LUHN_MAKE};
    struct lent l;
    if (n > 1 && made_of(&r, &l, NULL, s, n - 1))
        s[n - 1] = l.digit;
}

static void fill_luhn(uint8_t *s, size_t n)
{
    fill_digits(s, n);
    end_by_luhn(s, n);
}

static void make_luhn_test(struct made *m)
{
    size_t *n = &m->r.n[0];
    *n = length_around(2, 40);
    fill_luhn(m->bytes[0], *n);
    spoil_one_in(2, m->bytes[0], n);
}

static void make_luhn_body(struct made *m)
{
    m->r.n[0] = length_around(1, 39);
    fill_digits(m->bytes[0], m->r.n[0]);
    spoil_one_in(4, m->bytes[0], &m->r.n[0]);
}

/* Some begin with zeros: their numbers fit shorter PANs too. */
static void make_pan(uint8_t *pan, size_t *n)
{
    *n = one_in(4) ? length_around(13, 19) : between(13, 19);
    fill_digits(pan, *n);
    if (one_in(8))
        memset(pan, '0', below((uint32_t)*n + 1));
    if (!one_in(6))
        end_by_luhn(pan, *n);
    spoil_one_in(6, pan, n);
}

static void make_mask(struct made *m)
{
    make_pan(m->bytes[0], &m->r.n[0]);
    m->r.n[1] = one_in(2) ? below(24) : m->r.n[0] + below(4) - (m->r.n[0] > 0);
    fill_any(m->bytes[1], m->r.n[1]);
}

/* ---- Range tables ------------------------------------------------------- */

/* The number of a PAN's first digits, at most so many. */
static uint64_t first_digits(const uint8_t *pan, size_t n, size_t most)
{
    uint64_t v = 0;
    for (size_t i = 0; i < most && i < n; i++)
        v = 10 * v + (uint64_t)(pan[i] - '0');
    return v;
}

/* A number near v: itself, a neighbour, another in the last two digits, or far. */
static uint32_t near_number(uint32_t v)
{
    static const uint32_t far[] = {0, 99999999, UINT32_MAX};
    switch (below(6)) {
    case 0: return v;
    case 1: return v + 1;
    case 2: return v - 1;
    case 3: return v - v % 100 + below(100);
    case 4: return far[below(3)];
    default: return v ^ UINT32_C(1) << below(32);
    }
}

/* A record that mostly fits, or misses by little. */
static void make_range_record(uint8_t *record, uint32_t v, size_t pan_n)
{
    fill_any(record, 16);
    if (one_in(16))
        return;
    struct range r = {
        .low = one_in(2) ? v - below(1000) : near_number(v),
        .high = one_in(2) ? v + below(1000) : near_number(v),
        .label = (uint16_t)draw(),
        .shortest = (uint8_t)(pan_n + 1 - below(4)),
        .longest = (uint8_t)(pan_n - 1 + below(4)),
    };
    put_range(record, &r);
}

/* A crowded table, most of whose records fit: one in `seldom` of them has the least
 * width, the others have that or more. */
struct crowd {
    uint32_t least, seldom;
};

static struct crowd draw_crowd(size_t n)
{
    static const uint32_t widths[] = {0, 1, 9, 9999, 99999999, UINT32_MAX - 1, UINT32_MAX};
    uint32_t least = one_in(4) ? (uint32_t)draw() >> below(32) : widths[below(7)];
    return (struct crowd){least, 1 + below((uint32_t)(n / 16) + 2)};
}

static uint32_t draw_width(const struct crowd *c)
{
    uint32_t more = one_in(c->seldom) ? 0 : one_in(8) ? UINT32_MAX : (uint32_t)draw() >> below(32);
    return more < UINT32_MAX - c->least ? c->least + more : UINT32_MAX;
}

/* Low and high of a width, v anywhere from low to high. */
static void draw_around(struct range *r, uint32_t v, uint32_t width)
{
    r->low = between(v < width ? 0 : v - width, v < UINT32_MAX - width ? v : UINT32_MAX - width);
    r->high = r->low + width;
}

/* A record that fits, mostly; else the PAN has another length, or low is above high, and
 * high less low wraps to a little more than v. */
static void make_crowded_record(uint8_t *record, const struct crowd *c, uint32_t v, size_t pan_n)
{
    struct range r = {
        .label = (uint16_t)draw(),
        .shortest = (uint8_t)(pan_n - below(3)),
        .longest = (uint8_t)(pan_n + below(3)),
    };
    draw_around(&r, v, draw_width(c));
    switch (below(16)) {
    case 0: r.shortest = (uint8_t)(pan_n + 1); break;
    case 1: r.longest = (uint8_t)(pan_n - 1); break;
    case 2:
    case 3:
        r.low = UINT32_MAX - below(1000);
        r.high = v + below(1000);
        break;
    default: break;
    }
    fill_any(record, 16);
    put_range(record, &r);
}

static size_t table_length(void)
{
    static const size_t bounds[] = {65536, 65520, 65552, 65535, 65537, 65544};
    if (one_in(400))
        return bounds[below(6)];
    if (one_in(12))
        return below(70);
    return 16 * (one_in(16) ? between(16, 64) : below(5));
}

/* Of the longest tables, the first and the last records alone have something to do with
 * the PAN. */
static void make_table(uint8_t *table, size_t *n, const uint8_t *pan, size_t pan_n)
{
    uint32_t v = (uint32_t)first_digits(pan, pan_n, 8);
    *n = table_length();
    bool crowded = one_in(2);
    struct crowd c = draw_crowd(*n);
    for (size_t at = 0; at + 16 <= *n; at += 16) {
        if (*n > 1024 && at >= 32 && at + 48 <= *n)
            memset(table + at, (int)(at >> 4), 16);
        else if (crowded)
            make_crowded_record(table + at, &c, v, pan_n);
        else
            make_range_record(table + at, v, pan_n);
    }
    fill_any(table + *n / 16 * 16, *n % 16);
}

static void make_range(struct made *m)
{
    make_pan(m->bytes[2], &m->r.n[2]);
    for (int i = 0; i < 2; i++)
        make_table(m->bytes[i], &m->r.n[i], m->bytes[2], m->r.n[2]);
}

/* ---- Hot lists ---------------------------------------------------------- */

enum { FEW_NUMBERS = 100, MOST_NUMBERS = 8192 };

/* The PAN's own length, mostly; else another one, or one outside 13 to 19. */
static uint32_t draw_hot_length(size_t pan_n)
{
    static const uint32_t outside[] = {0, 12, 20, 256 + 16, UINT32_MAX};
    if (one_in(16))
        return outside[below(5)];
    return one_in(5) || pan_n < 13 || pan_n > 19 ? between(13, 19) : (uint32_t)pan_n;
}

/* The least number that is too large for a length; of one outside 12 to 19, for the nearest
 * of these. */
static uint64_t bound_of(uint32_t length)
{
    return ten_to(length < 12 ? 12 : length < 19 ? length : 19);
}

/* Few, mostly; or as many as there may be, one less or one more. */
static size_t draw_hot_count(uint32_t many_one_in)
{
    if (one_in(many_one_in))
        return one_in(2) ? MOST_NUMBERS : MOST_NUMBERS - 1 + 2 * below(2);
    return one_in(16) ? between(6, FEW_NUMBERS) : below(6);
}

/* A place in a list: the first, the last, or any. */
static size_t draw_place(size_t n)
{
    return one_in(3) ? 0 : one_in(2) ? n - 1 : below((uint32_t)n);
}

/* The longest step of so many that lead through this room; or all are 1. */
static uint64_t draw_stride(uint64_t room, size_t steps)
{
    return steps == 0 || one_in(3) ? 1 : room / steps;
}

/* Rising numbers below a bound, v among them at a place, or as near to it as there is room
 * for the others: answers where. */
static size_t fill_rising(uint64_t *list, size_t n, size_t at, uint64_t v, uint64_t bound)
{
    uint64_t above = bound - 1 - v;
    at = at < v ? at : (size_t)v;
    at = n - 1 - at < above ? at : n - 1 - (size_t)above;
    uint64_t down = draw_stride(v, at), up = draw_stride(above, n - 1 - at);
    list[at] = v;
    for (size_t i = at; i > 0; i--)
        list[i - 1] = list[i] - 1 - draw() % down;
    for (size_t i = at + 1; i < n; i++)
        list[i] = list[i - 1] + 1 + draw() % up;
    return at;
}

/* The same with v, or without it. */
static void fill_list(uint64_t *list, size_t n, uint64_t v, uint64_t bound, bool with)
{
    size_t all = with ? n : n + 1;
    size_t at = fill_rising(list, all, draw_place(all), v, bound);
    if (!with)
        memmove(list + at, list + at + 1, (n - at) * sizeof *list);
}

/* One pair that doesn't rise, or a last number that is too large. */
static void spoil_list(uint64_t *list, size_t n, uint64_t bound)
{
    size_t at = n > 1 ? 1 + draw_place(n - 1) : 0;
    uint64_t before = at ? list[at - 1] : 0;
    switch (at ? below(4) : 2 + below(2)) {
    case 0: list[at] = before; break;
    case 1: list[at - 1] = list[at]; list[at] = before; break;
    case 2: list[n - 1] = bound; break;
    default: list[n - 1] = UINT64_MAX; break;
    }
}

/* A list around a card's number. One in so many is long, and half of these have the number;
 * of the others one in so many. */
static void make_hot_list(struct made *m, int buffer, const uint8_t *pan, size_t pan_n,
                          uint32_t many_one_in, uint32_t listed_one_in)
{
    static uint64_t list[MOST_NUMBERS + 2];
    m->r.hot_length = draw_hot_length(pan_n);
    uint64_t bound = bound_of(m->r.hot_length), v = first_digits(pan, pan_n, 19) % bound;
    size_t n = draw_hot_count(many_one_in);
    fill_list(list, n, v, bound, n > 0 && one_in(n > FEW_NUMBERS ? 2 : listed_one_in));
    if (n > 0 && one_in(8))
        list[n - 1] = bound - 1;
    if (n > 0 && one_in(12))
        spoil_list(list, n, bound);
    m->r.n[buffer] = n * sizeof *list;
    memcpy(m->bytes[buffer], list, m->r.n[buffer]);
}

static void make_hot_question(struct made *m)
{
    make_pan(m->bytes[1], &m->r.n[1]);
    make_hot_list(m, 0, m->bytes[1], m->r.n[1], 40, 2);
}

/* ---- The tracks --------------------------------------------------------- */

/* A stream of bits, one to a byte, before it is packed. */
struct bits {
    uint8_t bit[8192];
    size_t n;
};

static void add_zeros(struct bits *s, size_t count)
{
    memset(s->bit + s->n, 0, count);
    s->n += count;
}

static void add_number(const struct track *t, struct bits *s, unsigned number)
{
    for (unsigned i = 0; i < t->width; i++)
        s->bit[s->n++] = with_parity(t, number) >> i & 1;
}

static unsigned draw_number(const struct track *t)
{
    return below(1u << (t->width - 1));
}

/* Start, characters, end and LRC; now and then without an end, or a wrong LRC. */
static void add_track(const struct track *t, struct bits *s, const uint8_t *chars, size_t n)
{
    unsigned end = number_of(t, t->end), lrc = number_of(t, t->start) ^ end;
    add_number(t, s, number_of(t, t->start));
    for (size_t i = 0; i < n; i++) {
        add_number(t, s, number_of(t, chars[i]));
        lrc ^= number_of(t, chars[i]);
    }
    if (!one_in(30))
        add_number(t, s, end);
    add_number(t, s, one_in(30) ? draw_number(t) : lrc);
}

/* None; fewer than eight, so that a track begins at any bit of a byte; or up to 59. */
static size_t clocking_zeros(void)
{
    return one_in(4) ? 0 : below(one_in(2) ? 8 : 60);
}

/* The zeros behind a track: any, or as many as fill the last byte; now and then with a
 * lone one among them. */
static void add_last_zeros(struct bits *s)
{
    size_t n = one_in(3) ? (8 - s->n % 8) % 8 : clocking_zeros();
    add_zeros(s, n);
    if (n > 0 && one_in(10))
        s->bit[s->n - 1 - below((uint32_t)n)] = 1;
}

/* In a stream whose track begins at a place, any character of it, or the last that may be
 * the end or one beside it: the stream is cut off there, or a bit flipped, or with it
 * the same bit of the next character, so that the LRC doesn't show it. */
static void spoil_character(const struct track *t, struct bits *s, size_t begin)
{
    size_t character = one_in(2) ? t->most + below(3) : between(1, t->most);
    size_t at = begin + character * t->width + below(t->width);
    if (at >= s->n)
        return;
    if (one_in(4)) {
        s->n = at;
        return;
    }
    s->bit[at] ^= 1;
    if (!one_in(3))
        s->bit[at + t->width] ^= 1;
}

static void reverse(struct bits *s)
{
    for (size_t i = 0; i < s->n / 2; i++)
        exchange(&s->bit[i], &s->bit[s->n - 1 - i]);
}

/* One bit or the count of bits off. */
static void spoil_bits(struct bits *s)
{
    size_t at = below((uint32_t)s->n);
    switch (below(5)) {
    case 0: s->n = at; break;
    case 1: s->n -= below(s->n < 12 ? (uint32_t)s->n : 12); break;
    case 2: s->bit[s->n - 1] ^= 1; break;
    case 3: s->bit[at] ^= 1; s->bit[below((uint32_t)s->n)] ^= 1; break;
    default: s->bit[at] ^= 1; break;
    }
}

/* Zeros up to a count at the bound of 4,096 bits. */
static void stretch(struct bits *s)
{
    size_t want = 4094 + below(4);
    if (s->n < want)
        add_zeros(s, want - s->n);
    if (one_in(3))
        s->bit[s->n - 1] = 1;
}

static void pack(const struct bits *s, uint8_t *bytes, size_t *n, uint64_t *bits)
{
    *n = (s->n + 7) / 8 + (one_in(3) ? below(3) : 0);
    fill_any(bytes, *n);
    for (size_t i = 0; i < s->n; i++)
        bytes[i / 8] = (uint8_t)((bytes[i / 8] & ~(1 << i % 8)) | s->bit[i] << i % 8);
    *bits = s->n;
    if (one_in(40))
        *bits = one_in(2) ? 8 * *n + below(3) : draw() >> below(64);
}

/* The stream of a track, lent in buffer 0. */
static void make_stream(struct made *m, const struct track *t, const uint8_t *chars, size_t n)
{
    static struct bits s;
    size_t begin = clocking_zeros();
    s.n = 0;
    add_zeros(&s, begin);
    add_track(t, &s, chars, n);
    add_last_zeros(&s);
    if (one_in(4))
        spoil_character(t, &s, begin);
    if (one_in(2))
        reverse(&s);
    if (one_in(50))
        stretch(&s);
    if (one_in(6))
        spoil_bits(&s);
    pack(&s, m->bytes[0], &m->r.n[0], &m->r.bits);
}

static void make_random_stream(struct made *m, const struct track *t)
{
    m->r.n[0] = below(one_in(20) ? 520 : 40);
    fill_any(m->bytes[0], m->r.n[0]);
    m->r.bits = 8 * m->r.n[0] - below(m->r.n[0] ? 8 : 1);
    if (m->r.n[0] && one_in(2))
        m->bytes[0][0] = (uint8_t)with_parity(t, number_of(t, t->start));
}

/* A character of a track, rarely its end. */
static uint8_t draw_character(const struct track *t)
{
    uint8_t c;
    do
        c = (uint8_t)(t->zero + draw_number(t));
    while (c == t->end && !one_in(10));
    return c;
}

/* Characters of track 1 whose track reads both ways round: '\\', whose bits are
 * those of the end, last first, and an even number of others whose exclusive or is
 * that of ' ' and 'W'. So the LRC's bits are those of the start, last first, and
 * the track read reversed has the same shape. */
static size_t fill_both_ways(uint8_t *s)
{
    size_t n = 1 + 2 * (size_t)between(1, 37);
    unsigned last = number_of(&track1, 'W');
    s[0] = '\\';
    for (size_t i = 1; i + 1 < n; i++) {
        s[i] = draw_character(&track1);
        last ^= number_of(&track1, s[i]);
    }
    s[n - 1] = (uint8_t)(track1.zero + last);
    return n;
}

static size_t fill_track(const struct track *t, uint8_t *s)
{
    size_t n = one_in(3) ? t->most - 3 + below(8) : below(t->most + 5);
    for (size_t i = 0; i < n; i++)
        s[i] = draw_character(t);
    return n;
}

static void make_track(struct made *m)
{
    const struct track *t = m->r.call == TRACK1_READ ? &track1 : &track2;
    uint8_t chars[96];
    size_t n = t == &track1 && one_in(12) ? fill_both_ways(chars) : fill_track(t, chars);
    if (one_in(12))
        make_random_stream(m, t);
    else
        make_stream(m, t, chars, n);
    m->r.n[1] = one_in(8) ? below(t->most + 8) : t->most + below(3);
    fill_any(m->bytes[1], m->r.n[1]);
}

/* ---- Layout ------------------------------------------------------------- */

/* A field of n digits, or the mark for none. */
static size_t add_field(const struct track *t, uint8_t *s, size_t n)
{
    if (one_in(4)) {
        s[0] = t->mark;
        return 1;
    }
    fill_digits(s, n);
    return n;
}

static void put_two_digits(uint8_t *s, uint32_t v)
{
    s[0] = (uint8_t)('0' + v / 10);
    s[1] = (uint8_t)('0' + v % 10);
}

/* In any year and month, the first year, the last one and February more often. */
static size_t add_expiry(const struct track *t, uint8_t *s)
{
    size_t n = add_field(t, s, 4);
    uint32_t month = one_in(6) ? below(14) : one_in(4) ? 2 : between(1, 12);
    if (n == 4 && one_in(6))
        put_two_digits(s, one_in(2) ? 0 : 99);
    if (n == 4 && !one_in(8))
        put_two_digits(s + 2, month);
    return n;
}

/* Characters of a name, or of track 1's discretionary data. */
static void fill_named(uint8_t *s, size_t n)
{
    for (size_t i = 0; i < n; i++)
        do
            s[i] = (uint8_t)between(' ', '_');
        while (s[i] == '%' || s[i] == '^' || s[i] == '?');
}

static size_t add_name(uint8_t *s)
{
    size_t n = one_in(2) ? length_around(2, 26) : between(2, 26);
    fill_named(s, n);
    spoil_one_in(12, s, &n);
    s[n++] = '^';
    return n;
}

/* Discretionary data behind n characters: some, or as much as fills the track. */
static size_t add_rest(const struct track *t, uint8_t *s, size_t n)
{
    size_t rest = one_in(4) && n < t->most ? t->most - n + below(3) - 1 : below(12);
    t == &track1 ? fill_named(s, rest) : fill_digits(s, rest);
    return rest;
}

/* The characters of a card: PAN, mark, expiry, service code, discretionary data;
 * of track 1 with a format code before the PAN and a name after it. */
static size_t make_characters(const struct track *t, uint8_t *s)
{
    size_t n = 0, pan_n;
    if (t == &track1)
        s[n++] = one_in(30) ? odd_byte() : 'B';
    make_pan(s + n, &pan_n);
    n += pan_n;
    s[n++] = t->mark;
    if (t == &track1)
        n += add_name(s + n);
    n += add_expiry(t, s + n);
    n += add_field(t, s + n, 3);
    n += add_rest(t, s + n, n);
    spoil_one_in(6, s, &n);
    return n;
}

static void make_layout(struct made *m)
{
    const struct track *t = m->r.call == LAYOUT1_READ ? &track1 : &track2;
    m->r.n[0] = make_characters(t, m->bytes[0]);
    if (one_in(8))
        m->r.n[0] = below((uint32_t)m->r.n[0] + 1);
    spoil_one_in(6, m->bytes[0], &m->r.n[0]);
}

/* ---- Check pairs -------------------------------------------------------- */

static const char *const registry[] = {
#define EXAMPLE(text) text,
#include "examples.inc"
};

/* The pair outside 02 to 98 that leaves the same remainder, where there is one. */
static uint32_t twin(uint32_t pair)
{
    return pair == 2 ? 99 : pair >= 97 ? pair - 97 : pair;
}

/* Write the pair that passes into a text of four characters and a body; now and
 * then its twin, for bodies that have one. */
static void put_made_pair(struct request r, uint8_t *text, size_t n, bool twinned)
{
    struct lent l;
    if (n < 5)
        return;
    bool country = r.call == IBAN_MAKE;
    for (int tries = 0; tries < (twinned ? 200 : 1); tries++) {
        if (!made_of(&r, &l, country ? text : NULL, text + 4, n - 4))
            return;
        put_two_digits(text + 2, twinned ? twin(l.word[0]) : l.word[0]);
        if (twin(l.word[0]) != l.word[0])
            return;
        if (twinned)
            text[n - 1] = draw_digit(), text[n - 2] = draw_digit();
    }
}

/* A registry's example with another body of the same kinds, mostly. */
static size_t fill_iban(uint8_t *s)
{
    const char *example = registry[below(sizeof registry / sizeof registry[0])];
    size_t n = strlen(example);
    memcpy(s, example, n);
    bool mixed = one_in(3);
    for (size_t i = 4; i < n; i++) {
        bool digit = s[i] <= '9';
        if (mixed && one_in(8))
            digit = !digit;
        s[i] = digit ? draw_digit() : draw_capital();
    }
    return n;
}

static void odd_pair(uint8_t *text, size_t n)
{
    static const uint8_t odd[] = {0, 1, 2, 97, 98, 99};
    if (n >= 4 && one_in(16))
        put_two_digits(text + 2, odd[below(6)]);
}

static void make_iban_test(struct made *m)
{
    uint8_t *s = m->bytes[0];
    size_t n = fill_iban(s);
    put_made_pair((struct request){.call = IBAN_MAKE}, s, n, one_in(16));
    if (one_in(12)) {
        n = length_around(5, 34);
        fill_digits_and_capitals(s, n);
    }
    odd_pair(s, n);
    m->r.n[0] = n;
    spoil_one_in(3, s, &m->r.n[0]);
}

static void make_iban_body(struct made *m)
{
    uint8_t s[40];
    size_t n = fill_iban(s) - 4;
    memcpy(m->bytes[0], s, 2);
    memcpy(m->bytes[1], s + 4, n);
    m->r.n[0] = 2;
    m->r.n[1] = n;
    if (one_in(6)) {
        m->r.n[1] = length_around(1, 30);
        fill_digits_and_capitals(m->bytes[1], m->r.n[1]);
    }
    if (one_in(24)) {
        m->r.n[0] = below(5);
        fill_digits_and_capitals(m->bytes[0], m->r.n[0]);
    }
    spoil_one_in(8, m->bytes[0], &m->r.n[0]);
    spoil_one_in(4, m->bytes[1], &m->r.n[1]);
}

static void make_creditor_test(struct made *m)
{
    uint8_t *s = m->bytes[0];
    size_t n = length_around(5, 25);
    fill_digits_and_capitals(s, n);
    memcpy(s, "RF00", 4);
    put_made_pair((struct request){.call = CREDITOR_MAKE}, s, n, one_in(16));
    odd_pair(s, n);
    m->r.n[0] = n;
    spoil_one_in(3, s, &m->r.n[0]);
    spoil_one_in(12, s, &m->r.n[0]);
}

static void make_creditor_body(struct made *m)
{
    m->r.n[0] = length_around(1, 21);
    fill_digits_and_capitals(m->bytes[0], m->r.n[0]);
    spoil_one_in(4, m->bytes[0], &m->r.n[0]);
}

/* ---- Journals ----------------------------------------------------------- */

static const uint32_t last_serial = UINT32_MAX;

static uint32_t draw_slots(void)
{
    if (one_in(100))
        return 2046 + below(4);
    return one_in(8) ? between(9, 40) : one_in(3) ? between(1, 2) : between(1, 8);
}

/* The newest serial: none, few, wrapped, any, or at the last. */
static uint32_t draw_newest(uint32_t slots)
{
    switch (below(6)) {
    case 0: return below(slots + 1);
    case 1: return slots - 1 + below(3);
    case 2: return slots + below(3 * slots);
    case 3: return last_serial - below(3);
    case 4: return one_in(2) ? 0 : last_serial - below(2 * slots);
    default: return (uint32_t)draw();
    }
}

static uint32_t draw_amount(void)
{
    return one_in(3) ? between(1, 500) : one_in(4) ? UINT32_MAX : (uint32_t)draw() | 1;
}

static void make_record(uint8_t *slot, uint32_t serial, uint8_t slot_state)
{
    uint8_t digits[10];
    struct record r = {serial, (uint32_t)draw(), draw_amount(), (uint16_t)draw(),
                       (uint8_t)between(13, 19), slot_state};
    fill_digits(digits, 10);
    put_record(slot, &r, digits);
}

/* A well-formed journal. */
static void fill_journal(uint8_t *journal, uint32_t slots, uint32_t newest)
{
    uint32_t m = newest < slots ? newest : slots;
    uint32_t held = one_in(4) ? m : one_in(4) ? 0 : below(m + 1);
    memset(journal, 0, (size_t)slots * SLOT);
    for (uint32_t i = 0; i < m; i++) {
        uint32_t serial = newest - i;
        make_record(journal + (size_t)((serial - 1) % slots) * SLOT, serial, i < held ? 1 : 2);
    }
}

/* A field of one record off by little. */
static void spoil_record(uint8_t *record)
{
    uint32_t at = below(SLOT);
    switch (below(8)) {
    case 0: record[at] ^= (uint8_t)(1 << below(8)); break;
    case 1: record[at] = (uint8_t)draw(); break;
    case 2: record[15] = (uint8_t)below(4); break;
    case 3: put_number(record + 8, 4, 0); break;
    case 4: record[14] = one_in(2) ? 12 : 20; break;
    case 5: record[16 + below(10)] = one_in(2) ? '/' : ':'; break;
    case 6: record[26 + below(6)] = (uint8_t)between(1, 255); break;
    default: record[0] = (uint8_t)(record[0] + below(3) - 1); break;
    }
}

static void exchange_slots(uint8_t *a, uint8_t *b)
{
    for (int i = 0; i < SLOT; i++)
        exchange(a + i, b + i);
}

/* The length off by a byte or a slot, or any short one. */
static void spoil_length(uint8_t *journal, size_t *n)
{
    static const int steps[] = {-32, -1, 1, 32};
    memset(journal + *n, 0, SLOT);
    *n = *n < 2000 && one_in(2) ? below(66) : *n + (size_t)(ptrdiff_t)steps[below(4)];
}

/* One record, two records' order or a free slot off. */
static void spoil_journal(uint8_t *journal, size_t n)
{
    uint32_t slots = (uint32_t)(n / SLOT);
    uint8_t *one = journal + (size_t)below(slots) * SLOT;
    uint8_t *other = journal + (size_t)below(slots) * SLOT;
    switch (below(7)) {
    case 0: exchange_slots(one, other); break;
    case 1: memset(one, 0, SLOT); break;
    case 2: exchange(one + 15, other + 15); break;
    default: spoil_record(one); break;
    }
}

static uint32_t make_journal(uint8_t *journal, size_t *n, uint32_t spoiled_one_in)
{
    uint32_t slots = draw_slots();
    uint32_t newest = draw_newest(slots);
    fill_journal(journal, slots, newest);
    *n = (size_t)slots * SLOT;
    for (int i = 0; i < 2; i++)
        if (one_in(spoiled_one_in))
            spoil_journal(journal, *n);
    if (one_in(slots > 2000 ? 2 : 2 * spoiled_one_in))
        spoil_length(journal, n);
    return newest;
}

/* A serial around the newest, the oldest, or none of it. */
static uint32_t draw_serial(uint32_t newest, uint32_t slots)
{
    switch (below(5)) {
    case 0: return newest + below(3) - 1;
    case 1: return below(3);
    case 2: return newest - slots + below(3);
    case 3: return one_in(4) ? (uint32_t)draw() : last_serial - below(2);
    default: return newest - below(slots + 1);
    }
}

static void make_payment(struct made *m)
{
    m->r.label = (uint16_t)draw();
    m->r.amount = one_in(10) ? 0 : draw_amount();
    m->r.clock = (uint32_t)draw();
}

/* What a call on the journal is given beside it. */
static void make_rest_of_journal_call(struct made *m, uint32_t newest)
{
    uint32_t slots = (uint32_t)(m->r.n[0] / SLOT);
    make_payment(m);
    m->r.serial = draw_serial(newest, slots);
    if (m->r.call == JOURNAL_BOOK)
        make_pan(m->bytes[1], &m->r.n[1]);
    if (m->r.call == JOURNAL_SURVEY) {
        m->r.n[1] = one_in(4) ? below(2 * slots + 1) : slots + below(3);
        fill_any(m->bytes[1], m->r.n[1]);
    }
}

static void make_journal_call(struct made *m)
{
    bool unchecked = m->r.call == JOURNAL_SURVEY || m->r.call == WALK_STEP;
    uint32_t newest = make_journal(m->bytes[0], &m->r.n[0], unchecked ? 2 : 8);
    make_rest_of_journal_call(m, newest);
}

/* ---- The host's ledger -------------------------------------------------- */

/* The last serial taken: none, few, any, or the last one and those before it. */
static uint32_t draw_taken(void)
{
    switch (below(4)) {
    case 0: return below(3);
    case 1: return last_serial - below(3);
    case 2: return below(5000);
    default: return (uint32_t)draw();
    }
}

/* A total that amounts can add up to, mostly; else around the least or the most of
 * them, at either end of 64 bits, or any. */
static uint64_t draw_total(uint64_t taken)
{
    uint64_t most = taken * UINT32_MAX;
    switch (below(10)) {
    case 0: return taken + below(3) - 1;
    case 1: return most + below(3) - 1;
    case 2: return one_in(2) ? below(2) : UINT64_MAX - below(2);
    case 3: return draw() >> below(64);
    default: return taken + draw() % (most - taken + 1);
    }
}

/* The wanted serial, mostly; else the one taken last, one before it or one behind the
 * wanted one, near or far. */
static uint32_t draw_heard(uint32_t taken)
{
    switch (below(8)) {
    case 0: return taken;
    case 1: return taken - below(4);
    case 2: return taken + 2 + below(3);
    case 3: return one_in(2) ? (uint32_t)draw() : 1 + below(3);
    default: return taken + 1;
    }
}

/* Two records one behind the other, of which the message is the first, mostly; else it
 * is cut off or goes on. */
static void make_message(struct made *m)
{
    m->r.taken = draw_taken();
    m->r.total = draw_total(m->r.taken);
    for (int i = 0; i < 2; i++)
        make_record(m->bytes[0] + i * SLOT, draw_heard(m->r.taken), one_in(8) ? 2 : 1);
    m->r.n[0] = one_in(6) ? 30 + below(5) : one_in(10) ? below(66) : SLOT;
    if (one_in(5))
        spoil_record(m->bytes[0]);
    if (one_in(40))
        memset(m->bytes[0], 0, SLOT);
}

/* ---- Dates -------------------------------------------------------------- */

/* The last day of a month; of February, one of two. */
static uint32_t draw_last_day(uint32_t month)
{
    static const uint8_t days[] = {31, 28, 31, 30, 31, 30, 31, 31, 30, 31, 30, 31};
    return month == 2 ? 28 + below(2) : days[month - 1];
}

/* The first day of a month, the last, or any; now and then one that it doesn't have. */
static uint32_t draw_day(uint32_t month)
{
    switch (below(16)) {
    case 0: return draw_last_day(month) + 1;
    case 1: return between(1, 31);
    case 2: case 3: case 4: case 5: return between(1, 28);
    case 6: case 7: case 8: case 9: return 1;
    default: return draw_last_day(month);
    }
}

/* Any month of 2000 to 2099, the first and the last more often. */
static uint32_t any_month(void)
{
    return JANUARY_2000 + (one_in(2) ? below(1200) : one_in(2) ? 0 : 1199);
}

/* Mostly the month in which a card expires; else the one before it or behind it, the same a
 * year earlier or later, or any. */
static uint32_t draw_month(uint32_t expiry)
{
    switch (below(8)) {
    case 0: return expiry - 1;
    case 1: return expiry + 1;
    case 2: return one_in(2) ? expiry - 12 : expiry + 12;
    case 3: return any_month();
    default: return expiry;
    }
}

/* A number of a date at a border, near the largest, or with one bit above its lowest byte
 * changed. */
static uint32_t odd_number(uint32_t v, const uint32_t *borders, uint32_t n)
{
    switch (below(4)) {
    case 0: return v ^ UINT32_C(1) << between(8, 31);
    case 1: return UINT32_MAX - below(3);
    default: return borders[below(n)];
    }
}

static void spoil_date(struct request *r)
{
    static const uint32_t years[] = {0, 1999, 2000, 2099, 2100}, months[] = {0, 1, 12, 13};
    static const uint32_t days[] = {0, 1, 28, 29, 30, 31, 32};
    switch (below(3)) {
    case 0: r->year = odd_number(r->year, years, 5); break;
    case 1: r->month = odd_number(r->month, months, 4); break;
    default: r->day = odd_number(r->day, days, 7); break;
    }
}

/* A date around the month in which a card expires; around any month if it has none. */
static void make_date(struct request *r, uint32_t expiry)
{
    uint32_t month = draw_month(expiry ? expiry : any_month());
    r->year = month / 12;
    r->month = month % 12 + 1;
    r->day = draw_day(r->month);
    if (one_in(16))
        spoil_date(r);
}

/* ---- The swipes --------------------------------------------------------- */

/* The length of the run of digits that starts a text. */
static size_t digits_of(const uint8_t *s, size_t n)
{
    size_t i = 0;
    while (i < n && s[i] >= '0' && s[i] <= '9')
        i++;
    return i;
}

/* What a swipe is given beside the journal. */
static void make_rest_of_swipe(struct made *m)
{
    const struct track *t = m->r.call == SWIPE1 ? &track1 : &track2;
    uint8_t chars[128];
    size_t n = make_characters(t, chars), pan_at = t == &track1;
    make_payment(m);
    make_date(&m->r, expiry_month(m->r.call, chars, n));
    make_stream(m, t, chars, n);
    const uint8_t *pan = chars + pan_at;
    size_t pan_n = digits_of(pan, n - pan_at);
    for (int i = 1; i < 3; i++)
        make_table(m->bytes[i], &m->r.n[i], pan, pan_n);
    make_hot_list(m, 3, pan, pan_n, 60, 4);
    m->r.n[4] = one_in(12) ? below(t->most) : t->most + below(4);
    fill_any(m->bytes[4], m->r.n[4]);
}

static void make_swipe(struct made *m)
{
    make_rest_of_swipe(m);
    make_journal(m->bytes[5], &m->r.n[5], 12);
}

/* ---- Requests ----------------------------------------------------------- */

static bool is_swipe(enum call call)
{
    return call == SWIPE || call == SWIPE1;
}

int journal_buffer(enum call call)
{
    return is_swipe(call) ? 5 : call >= JOURNAL_BOOK ? 0 : -1;
}

void make_request(struct made *m, enum call call)
{
    static void (*const makers[CALLS])(struct made *) = {
        [LUHN_TEST] = make_luhn_test, [LUHN_MAKE] = make_luhn_body, [PAN_MASK] = make_mask,
        [RANGE_FIND] = make_range, [HOT_FIND] = make_hot_question,
        [TRACK2_READ] = make_track, [LAYOUT_READ] = make_layout,
        [TRACK1_READ] = make_track, [LAYOUT1_READ] = make_layout,
        [IBAN_TEST] = make_iban_test, [IBAN_MAKE] = make_iban_body,
        [CREDITOR_TEST] = make_creditor_test, [CREDITOR_MAKE] = make_creditor_body,
        [LEDGER_TAKE] = make_message, [SWIPE] = make_swipe, [SWIPE1] = make_swipe,
    };
    memset(&m->r, 0, sizeof m->r);
    m->r.call = call;
    if (makers[call])
        makers[call](m);
    else if (call != VERSION)
        make_journal_call(m);
}

void make_first_journal(struct made *m)
{
    uint32_t slots = one_in(8) ? between(7, 40) : between(1, 6);
    m->r.n[0] = (size_t)slots * SLOT;
    memset(m->bytes[0], 0, m->r.n[0]);
    if (one_in(4))
        fill_journal(m->bytes[0], slots, last_serial - below(40));
}

/* The highest serial field, around which a history asks. */
static uint32_t newest_of(const uint8_t *journal, size_t n)
{
    uint32_t newest = 0;
    for (size_t at = 0; at < n; at += SLOT) {
        uint32_t s = number_at(journal + at);
        newest = s > newest ? s : newest;
    }
    return newest;
}

void make_next_request(struct made *m, const uint8_t *journal, size_t journal_n)
{
    static const enum call steps[] = {
        JOURNAL_BOOK, JOURNAL_BOOK, JOURNAL_BOOK, SWIPE, SWIPE, SWIPE1, SWIPE1, JOURNAL_RELEASE,
        JOURNAL_RELEASE, JOURNAL_SHOW, JOURNAL_TELL, JOURNAL_WALK, WALK_START, WALK_STEP,
        JOURNAL_SURVEY,
    };
    memset(&m->r, 0, sizeof m->r);
    m->r.call = steps[below(sizeof steps / sizeof steps[0])];
    int at = journal_buffer(m->r.call);
    memcpy(m->bytes[at], journal, journal_n);
    m->r.n[at] = journal_n;
    if (is_swipe(m->r.call))
        make_rest_of_swipe(m);
    else
        make_rest_of_journal_call(m, newest_of(journal, journal_n));
}
