#include <stdio.h>
#include "encode.h"
#include "pans.h"
#include "reached.h"
#include "tables.h"

/* What the chosen record was, and where it stood among those that fit. */
enum chosen { ALONE, FIRST, MIDDLE, LAST, OF_MANY, ONE_NUMBER, ALL_NUMBERS, OUTDONE, CHOSEN };

static const char *const chosen_words[CHOSEN] = {
    [ALONE] = "the only one that fits",
    [FIRST] = "the first of those that fit",
    [MIDDLE] = "neither the first nor the last of those that fit",
    [LAST] = "the last of those that fit",
    [OF_MANY] = "one of 16 or more that fit",
    [ONE_NUMBER] = "one of width 0, where others fit",
    [ALL_NUMBERS] = "one from 0 to 4294967295",
    [OUTDONE] = "a wider one than fits in the acquirer's table",
};

/* What another record of the chosen one's table was. */
enum other {
    AROUND, ACROSS, ALL, SAME, SHIFTED, OTHER_NUMBERS, OTHER_LENGTHS, WRAPPED, OTHERS
};

static const char *const other_words[OTHERS] = {
    [AROUND] = "a wider one, around the chosen one",
    [ACROSS] = "a wider one, across an end of the chosen one",
    [ALL] = "a wider one, from 0 to 4294967295",
    [SAME] = "one of the same numbers",
    [SHIFTED] = "one of the same width and other numbers",
    [OTHER_NUMBERS] = "a narrower one of other numbers",
    [OTHER_LENGTHS] = "a narrower one for other lengths",
    [WRAPPED] = "one of low above high, high less low wrapping to less",
};

/* The calls that look up, and how often each shape must have been met by each: less than
 * that is chance. */
enum { ASKS = 3, OFTEN = 50 };

static const enum call asks[ASKS] = {RANGE_FIND, SWIPE, SWIPE1};

/* Of each of them and each table the look-ups, by what was chosen; and by what else stood
 * there, before the chosen one and behind it. */
static uint32_t had_chosen[ASKS][2][CHOSEN], had_other[ASKS][2][OTHERS][2];

/* ---- A look-up ---------------------------------------------------------- */

/* A card number looked up in both tables, and the record found. */
struct look {
    int asked; /* by which of the calls */
    struct request r;
    struct lent l;
    uint32_t number; /* the card's first eight digits */
    uint32_t table, at;
};

/* The look-up that a request is, or that a swipe makes; false if it finds nothing. */
static bool look_up(const struct request *r, const struct lent *l, struct look *k)
{
    k->r = *r;
    k->l = *l;
    if (r->call != RANGE_FIND) {
        for (int t = 0; t < 2; t++) {
            k->r.n[t] = r->n[t + 1];
            k->l.buffer[t] = l->buffer[t + 1];
        }
        k->l.buffer[2] = read_pan(r, l, &k->r.n[2]);
    }
    k->r.call = RANGE_FIND;
    if (reference_call(&k->r, &k->l) != 0)
        return false;
    k->number = 0;
    for (int i = 0; i < 8; i++)
        k->number = 10 * k->number + (uint32_t)(k->l.buffer[2][i] - '0');
    k->table = k->l.word[0];
    k->at = k->l.word[1];
    return true;
}

static struct range range_at(const uint8_t *s)
{
    return (struct range){number_at(s), number_at(s + 4), 0, s[10], s[11]};
}

static uint32_t width_of(const struct range *r)
{
    return r->high - r->low;
}

static bool has_number(const struct look *k, const struct range *r)
{
    return r->low <= k->number && k->number <= r->high;
}

static bool has_length(const struct look *k, const struct range *r)
{
    return r->shortest <= k->r.n[2] && k->r.n[2] <= r->longest;
}

static bool fits(const struct look *k, const struct range *r)
{
    return has_number(k, r) && has_length(k, r);
}

/* ---- Noting ------------------------------------------------------------- */

/* What a record is that fits beside the chosen one. */
static enum other fitting_other(const struct range *chosen, const struct range *r)
{
    if (width_of(r) == width_of(chosen))
        return r->low == chosen->low ? SAME : SHIFTED;
    if (width_of(r) == UINT32_MAX)
        return ALL;
    return r->low <= chosen->low && chosen->high <= r->high ? AROUND : ACROSS;
}

/* What a record is that doesn't fit, and would be chosen if it did; OTHERS for any other. */
static enum other missing_other(const struct look *k, const struct range *chosen,
                                const struct range *r)
{
    if (width_of(r) >= width_of(chosen))
        return OTHERS;
    if (has_number(k, r))
        return OTHER_LENGTHS;
    if (!has_length(k, r))
        return OTHERS;
    return r->low > r->high ? WRAPPED : OTHER_NUMBERS;
}

/* Each other record of the table; how many fit before the chosen one, and behind it. */
static void note_others(const struct look *k, const struct range *chosen, uint32_t fitting[2])
{
    bool seen[OTHERS + 1][2] = {{false}};
    for (uint32_t at = 0; at < k->r.n[k->table]; at += 16) {
        struct range r = range_at(k->l.buffer[k->table] + at);
        bool behind = at > k->at, fit = fits(k, &r);
        if (at == k->at)
            continue;
        seen[fit ? fitting_other(chosen, &r) : missing_other(k, chosen, &r)][behind] = true;
        fitting[behind] += fit;
    }
    for (int i = 0; i < 2 * OTHERS; i++)
        had_other[k->asked][k->table][i / 2][i % 2] += seen[i / 2][i % 2];
}

/* Whether the acquirer has a record that fits and is narrower. */
static bool is_outdone(const struct look *k, const struct range *chosen)
{
    for (size_t at = 0; at < k->r.n[1]; at += 16) {
        struct range r = range_at(k->l.buffer[1] + at);
        if (fits(k, &r) && width_of(&r) < width_of(chosen))
            return true;
    }
    return false;
}

static void note_chosen(const struct look *k)
{
    uint32_t *had = had_chosen[k->asked][k->table];
    struct range chosen = range_at(k->l.buffer[k->table] + k->at);
    uint32_t fitting[2] = {0, 0};
    note_others(k, &chosen, fitting);
    uint32_t others = fitting[0] + fitting[1];
    had[!others ? ALONE : !fitting[0] ? FIRST : !fitting[1] ? LAST : MIDDLE]++;
    had[OF_MANY] += others >= 15;
    had[ONE_NUMBER] += others > 0 && width_of(&chosen) == 0;
    had[ALL_NUMBERS] += width_of(&chosen) == UINT32_MAX;
    had[OUTDONE] += is_outdone(k, &chosen);
}

void note_tables(const struct request *r, const struct lent *l, uint32_t answer)
{
    struct look k;
    for (k.asked = 0; k.asked < ASKS; k.asked++)
        if (answer == 0 && r->call == asks[k.asked] && look_up(r, l, &k))
            note_chosen(&k);
}

/* ---- What was met ------------------------------------------------------- */

static bool met(uint32_t had, int ask, int table, const char *where, const char *words)
{
    if (had < OFTEN)
        printf("%s, the %s table: only %u times %s%s\n", call_names[asks[ask]],
               table ? "acquirer's" : "site's", (unsigned)had, where, words);
    return had >= OFTEN;
}

/* By one call, in one of its tables. Of the same width, the earlier is chosen; and the
 * acquirer's aren't chosen where the site's fit. */
static bool table_reached(int ask, int table)
{
    bool all = true;
    for (int c = 0; c < (table ? OUTDONE : CHOSEN); c++)
        all = met(had_chosen[ask][table][c], ask, table, "chosen ", chosen_words[c]) && all;
    for (int o = 0; o < OTHERS; o++)
        for (int behind = o == SAME || o == SHIFTED; behind < 2; behind++)
            all = met(had_other[ask][table][o][behind], ask, table,
                      behind ? "behind the chosen one " : "before the chosen one ",
                      other_words[o]) && all;
    return all;
}

bool tables_reached(void)
{
    bool all = true;
    for (int ask = 0; ask < ASKS; ask++)
        for (int table = 0; table < 2; table++)
            all = table_reached(ask, table) && all;
    return all;
}
