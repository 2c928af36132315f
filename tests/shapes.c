#include <stdio.h>
#include "encode.h"
#include "reached.h"
#include "shapes.h"

/* What a reading came to. Each shape goes with a number: how many characters were read,
 * which one was refused (the start is number 0), or how many zeros there were. */
enum shape { READ, TIGHT, CUT, EVEN, EVEN_TWICE, LATE, SHAPES };

/* The numbers, first to last, that each shape must have had on track 2 and on track 1. */
static const struct {
    const char *words;
    size_t first, last[2];
} shapes[SHAPES] = {
    [READ] = {"so many characters, the first at each bit of a byte", 0, {37, 76}},
    [TIGHT] = {"so many characters, up to the last bit that is lent", 0, {37, 76}},
    [CUT] = {"cut off in this character", 1, {39, 78}},
    [EVEN] = {"even parity in this character", 1, {39, 78}},
    [EVEN_TWICE] = {"even parity in this character and the next", 1, {38, 77}},
    [LATE] = {"a one bit behind the track, and so many zeros behind it", 0, {24, 24}},
};

enum { NUMBERS = 80 };

/* For each track, shape, way round and number, the bits of a byte at which the first
 * character stood. */
static uint8_t had_shape[2][SHAPES][2][NUMBERS];

/* ---- A stream, one way round -------------------------------------------- */

struct way {
    const struct track *t;
    const uint8_t *bytes;
    size_t bits, first; /* first: the place of the first one bit, or the end */
    bool reversed;
};

/* Where the bit that is read at a place lies in the bytes. */
static size_t lies_at(const struct way *w, size_t place)
{
    return w->reversed ? w->bits - 1 - place : place;
}

static unsigned bit(const struct way *w, size_t place)
{
    size_t at = lies_at(w, place);
    return w->bytes[at / 8] >> at % 8 & 1;
}

static struct way way_round(const struct request *r, const struct lent *l, bool reversed)
{
    const struct track *t = r->call == TRACK1_READ ? &track1 : &track2;
    struct way w = {t, l->buffer[0], r->bits, 0, reversed};
    while (w.first < w.bits && !bit(&w, w.first))
        w.first++;
    return w;
}

/* The bits of a character, the first lowest; none if it's cut off. */
static unsigned bits_of(const struct way *w, size_t character)
{
    size_t at = w->first + character * w->t->width;
    unsigned bits = 0;
    for (unsigned i = 0; i < w->t->width && at + w->t->width <= w->bits; i++)
        bits |= bit(w, at + i) << i;
    return bits;
}

static bool is_odd(const struct track *t, unsigned bits)
{
    return bits == with_parity(t, bits & ((1u << (t->width - 1)) - 1));
}

/* ---- Noting ------------------------------------------------------------- */

static void note(const struct way *w, enum shape shape, size_t number)
{
    unsigned at = 1u << lies_at(w, w->first) % 8;
    if (number < NUMBERS)
        had_shape[w->t == &track1][shape][w->reversed][number] |= (uint8_t)at;
}

/* A track that was read: start, characters, end and LRC; and the zeros on that side of
 * it where the lent bytes end. */
static void note_read(const struct way *w, size_t bytes, size_t count)
{
    size_t track = w->t->width * (count + 3);
    size_t zeros = w->reversed ? w->first : w->bits - w->first - track;
    note(w, READ, count);
    if (w->bits == 8 * bytes && zeros == 0)
        note(w, TIGHT, count);
}

static void note_refused(const struct way *w, uint32_t answer)
{
    size_t good = 0, zeros = 0;
    while (is_odd(w->t, bits_of(w, good)))
        good++;
    while (zeros < w->bits && !bit(w, w->bits - 1 - zeros))
        zeros++;
    unsigned next = bits_of(w, good + 1);
    if (answer == 9)
        note(w, CUT, good);
    if (answer == 10)
        note(w, EVEN, good);
    if (answer == 10 && next != 0 && !is_odd(w->t, next))
        note(w, EVEN_TWICE, good);
    if (answer == 13)
        note(w, LATE, zeros);
}

/* Where the stream starts forward, a refusal is that of reading it forward. */
void note_shape(const struct request *r, const struct lent *l, uint32_t answer)
{
    bool track = r->call == TRACK2_READ || r->call == TRACK1_READ;
    if (track && answer == 0) {
        struct way w = way_round(r, l, l->word[1]);
        note_read(&w, r->n[0], l->word[0]);
    } else if (track && answer >= 9) {
        struct way w = way_round(r, l, false);
        if (bits_of(&w, 0) != with_parity(w.t, number_of(w.t, w.t->start)))
            w = way_round(r, l, true);
        note_refused(&w, answer);
    }
}

/* ---- What was met ------------------------------------------------------- */

/* Either way round, each number of one shape. */
static bool shape_reached(int track, enum shape shape)
{
    bool all = true;
    for (int way = 0; way < 2; way++)
        for (size_t n = shapes[shape].first; n <= shapes[shape].last[track]; n++) {
            uint8_t had = had_shape[track][shape][way][n];
            if (shape == READ ? had == 0xff : had != 0)
                continue;
            printf("%s%s: never %s: %zu\n", call_names[track ? TRACK1_READ : TRACK2_READ],
                   way ? ", reversed" : "", shapes[shape].words, n);
            all = false;
        }
    return all;
}

bool shapes_reached(void)
{
    bool all = true;
    for (int i = 0; i < 2 * SHAPES; i++)
        all = shape_reached(i / SHAPES, i % SHAPES) && all;
    return all;
}
