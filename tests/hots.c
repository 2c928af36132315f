#include <stdio.h>
#include <string.h>
#include "encode.h"
#include "hots.h"
#include "pans.h"
#include "reached.h"

/* Where a card stood in a list, or would have stood; or the one fault for which a list was
 * refused. Where a place matters there are three shapes, one behind the other: at the
 * beginning of the list, in the middle, and at its end. */
enum shape {
    FIRST, MIDDLE, LAST, LONG_FIRST, LONG_MIDDLE, LONG_LAST, ONLY,
    UNDER, BETWEEN, OVER, LONG_UNDER, LONG_BETWEEN, LONG_OVER, BESIDE, EMPTY,
    SHORTER, LONGER,
    EQUAL_FIRST, EQUAL_MIDDLE, EQUAL_LAST, FALL_FIRST, FALL_MIDDLE, FALL_LAST, LONG_PAIR,
    TOO_MANY, ALL_BITS, LENGTH_12, LENGTH_20, BYTE_INSIDE, EMPTY_12, EMPTY_20, SHAPES
};

/* The calls that ask, and how often each shape must have been met by each: less than OFTEN
 * is chance. Of lists as long as there may be, which take their time, there are few. */
enum { ASKS = 3, OFTEN = 10, ONCE = 1, MOST_NUMBERS = 8192 };

static const enum call asks[ASKS] = {HOT_FIND, SWIPE, SWIPE1};

static const struct {
    const char *words;
    uint32_t least;
} shapes[SHAPES] = {
    [FIRST] = {"a listed card, the first", OFTEN},
    [MIDDLE] = {"a listed card, neither the first nor the last", OFTEN},
    [LAST] = {"a listed card, the last", OFTEN},
    [LONG_FIRST] = {"a listed card, the first of 8192", ONCE},
    [LONG_MIDDLE] = {"a listed card, neither the first nor the last of 8192", ONCE},
    [LONG_LAST] = {"a listed card, the last of 8192", ONCE},
    [ONLY] = {"a listed card, the only one", OFTEN},
    [UNDER] = {"an unlisted card below all", OFTEN},
    [BETWEEN] = {"an unlisted card between two", OFTEN},
    [OVER] = {"an unlisted card above all", OFTEN},
    [LONG_UNDER] = {"an unlisted card below all of 8192", ONCE},
    [LONG_BETWEEN] = {"an unlisted card between two of 8192", ONCE},
    [LONG_OVER] = {"an unlisted card above all of 8192", ONCE},
    [BESIDE] = {"an unlisted card between the number before it and the number after it", OFTEN},
    [EMPTY] = {"an empty list", OFTEN},
    [SHORTER] = {"the card's number in a list of shorter PANs", OFTEN},
    [LONGER] = {"the card's number in a list of longer PANs", OFTEN},
    [EQUAL_FIRST] = {"two equal numbers, the first pair", OFTEN},
    [EQUAL_MIDDLE] = {"two equal numbers, neither the first pair nor the last", OFTEN},
    [EQUAL_LAST] = {"two equal numbers, the last pair", OFTEN},
    [FALL_FIRST] = {"a falling pair, the first", OFTEN},
    [FALL_MIDDLE] = {"a falling pair, neither the first nor the last", OFTEN},
    [FALL_LAST] = {"a falling pair, the last", OFTEN},
    [LONG_PAIR] = {"a pair of 8192 that doesn't rise", ONCE},
    [TOO_MANY] = {"8193 numbers", ONCE},
    [ALL_BITS] = {"18446744073709551615 in a list for 19 digits", OFTEN},
    [LENGTH_12] = {"PANs of 12 digits", OFTEN},
    [LENGTH_20] = {"PANs of 20 digits", OFTEN},
    [BYTE_INSIDE] = {"PANs of 272 digits, whose lowest byte is 16", OFTEN},
    [EMPTY_12] = {"an empty list of PANs of 12 digits", OFTEN},
    [EMPTY_20] = {"an empty list of PANs of 20 digits", OFTEN},
};

static uint32_t had_shape[ASKS][SHAPES];

/* For each PAN length from 13 on, the lists that end with the largest number of so many
 * digits, and those refused for the one behind it alone. */
enum { LENGTHS = 7 };

static uint32_t had_largest[ASKS][LENGTHS], had_too_large[ASKS][LENGTHS];

/* ---- A list ------------------------------------------------------------- */

struct hot_list {
    int asked; /* by which of the calls */
    const uint8_t *bytes;
    size_t n;
    uint32_t length;
};

static struct hot_list list_of(const struct request *r, const struct lent *l, int asked)
{
    int buffer = r->call == HOT_FIND ? 0 : 3;
    return (struct hot_list){asked, l->buffer[buffer], r->n[buffer] / 8, r->hot_length};
}

static uint64_t number(const struct hot_list *h, size_t at)
{
    uint64_t v;
    memcpy(&v, h->bytes + at * sizeof v, sizeof v);
    return v;
}

/* The number of the card that is asked for; how many digits it has in *n. */
static uint64_t card_of(const struct request *r, const struct lent *l, size_t *n)
{
    const uint8_t *pan = l->buffer[1];
    uint64_t v = 0;
    *n = r->n[1];
    if (r->call != HOT_FIND)
        pan = read_pan(r, l, n);
    for (size_t i = 0; i < *n; i++)
        v = 10 * v + (uint64_t)(pan[i] - '0');
    return v;
}

/* ---- Noting ------------------------------------------------------------- */

static void note(const struct hot_list *h, enum shape shape)
{
    had_shape[h->asked][shape]++;
}

/* One of three shapes, by a place from 0 to the last. */
static void note_place(const struct hot_list *h, enum shape first, size_t at, size_t last)
{
    note(h, first + (at == 0 ? 0 : at == last ? 2 : 1));
}

/* A card as long as the list's, which stands at a place or would stand there. */
static void note_card(const struct hot_list *h, size_t at, bool there)
{
    bool many = h->n == MOST_NUMBERS;
    if (h->n == 0)
        note(h, EMPTY);
    else if (there && h->n == 1)
        note(h, ONLY);
    else if (there)
        note_place(h, many ? LONG_FIRST : FIRST, at, h->n - 1);
    else
        note_place(h, many ? LONG_UNDER : UNDER, at, h->n);
    if (!there && 0 < at && at < h->n && number(h, at) - number(h, at - 1) == 2)
        note(h, BESIDE);
}

/* A list that isn't refused, asked for a card of n digits. */
static void note_asked(const struct hot_list *h, uint64_t card, size_t n)
{
    size_t at = 0;
    while (at < h->n && number(h, at) < card)
        at++;
    bool there = at < h->n && number(h, at) == card;
    if (n == h->length)
        note_card(h, at, there);
    else if (there)
        note(h, h->length < n ? SHORTER : LONGER);
    if (h->n > 0 && number(h, h->n - 1) == ten_to(h->length) - 1)
        had_largest[h->asked][h->length - 13]++;
}

/* A list refused for its PAN length alone. */
static void note_length(const struct hot_list *h)
{
    if (h->length == 12)
        note(h, h->n == 0 ? EMPTY_12 : LENGTH_12);
    else if (h->length == 20)
        note(h, h->n == 0 ? EMPTY_20 : LENGTH_20);
    else if (h->length == 256 + 16)
        note(h, BYTE_INSIDE);
}

/* A list refused for the pair at a place alone; of two numbers it is the first and the last. */
static void note_pair(const struct hot_list *h, size_t at)
{
    bool equal = number(h, at) == number(h, at + 1);
    if (h->n == MOST_NUMBERS)
        note(h, LONG_PAIR);
    else if (h->n > 2)
        note_place(h, equal ? EQUAL_FIRST : FALL_FIRST, at, h->n - 2);
}

/* A list refused for its largest number alone. */
static void note_too_large(const struct hot_list *h, uint64_t largest)
{
    if (largest == ten_to(h->length))
        had_too_large[h->asked][h->length - 13]++;
    if (largest == UINT64_MAX && h->length == 19)
        note(h, ALL_BITS);
}

/* A list that is refused: noted is the fault that is its only one. */
static void note_refused(const struct hot_list *h)
{
    uint64_t largest = 0;
    size_t pairs = 0, at = 0;
    for (size_t i = 0; i < h->n; i++)
        largest = number(h, i) > largest ? number(h, i) : largest;
    for (size_t i = 0; i + 1 < h->n; i++)
        if (number(h, i) >= number(h, i + 1)) {
            pairs++;
            at = i;
        }
    bool off = h->length < 13 || h->length > 19, many = h->n > MOST_NUMBERS;
    bool large = !off && largest >= ten_to(h->length);
    if (pairs + off + many + large != 1)
        return;
    if (off)
        note_length(h);
    else if (many)
        note(h, TOO_MANY);
    else if (large)
        note_too_large(h, largest);
    else
        note_pair(h, at);
}

void note_hot_list(const struct request *r, const struct lent *l, uint32_t answer)
{
    for (int asked = 0; asked < ASKS; asked++) {
        if (r->call != asks[asked])
            continue;
        struct hot_list h = list_of(r, l, asked);
        size_t n;
        if (answer == 21) {
            note_refused(&h);
        } else if (answer == 0 || answer == 22) {
            uint64_t card = card_of(r, l, &n);
            note_asked(&h, card, n);
        }
    }
}

/* ---- What was met ------------------------------------------------------- */

static bool met(uint32_t had, uint32_t least, int ask, const char *words)
{
    if (had < least)
        printf("%s, the hot list: only %u times %s\n", call_names[asks[ask]], (unsigned)had,
               words);
    return had >= least;
}

/* By one call. */
static bool lists_reached(int ask)
{
    bool all = true;
    for (int s = 0; s < SHAPES; s++)
        all = met(had_shape[ask][s], shapes[s].least, ask, shapes[s].words) && all;
    for (int i = 0; i < LENGTHS; i++) {
        char words[64];
        snprintf(words, sizeof words, "the largest number of %d digits", 13 + i);
        all = met(had_largest[ask][i], OFTEN, ask, words) && all;
        snprintf(words, sizeof words, "the least number too large for %d digits", 13 + i);
        all = met(had_too_large[ask][i], OFTEN, ask, words) && all;
    }
    return all;
}

bool hot_lists_reached(void)
{
    bool all = true;
    for (int ask = 0; ask < ASKS; ask++)
        all = lists_reached(ask) && all;
    return all;
}
