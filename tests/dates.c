#include <stdio.h>
#include <string.h>
#include "cases.h"
#include "dates.h"
#include "encode.h"
#include "pans.h"
#include "reached.h"

/* What a date was to a card that was booked, or refused as expired; the one fault for which a
 * date was refused; or another reason beside the one that was answered. */
enum shape {
    NO_EXPIRY, FIRST_DAY, MONTH_BEFORE, YEAR_BEFORE, CENTURY_BEFORE, FIRST_DATE, LAST_DATE,
    LEAP_2000, LEAP_DAY,
    MONTH_AFTER, YEAR_AFTER, CENTURY_AFTER,
    YEAR_0, YEAR_1999, YEAR_2100, YEAR_LARGE, YEAR_HALF, MONTH_0, MONTH_13, MONTH_LARGE,
    MONTH_BYTE, DAY_0, DAY_32, DAY_LARGE, DAY_BYTE, FEBRUARY_29, FEBRUARY_30, DAY_31,
    LIST_AND_DATE, AMOUNT_AND_DATE, DATE_AND_SERIALS, DATE_AND_FULL, DATE_AND_READING,
    CHECK_AND_EXPIRED, RANGE_AND_EXPIRED, EXPIRED_AND_LISTED, SHAPES
};

static const char *const words[SHAPES] = {
    [NO_EXPIRY] = "a card without an expiry",
    [FIRST_DAY] = "the first day of the expiry month",
    [MONTH_BEFORE] = "the month before the expiry's",
    [YEAR_BEFORE] = "the expiry month, a year before",
    [CENTURY_BEFORE] = "the year 2000, and an expiry in 2099",
    [FIRST_DATE] = "1 January 2000",
    [LAST_DATE] = "31 December 2099",
    [LEAP_2000] = "29 February 2000",
    [LEAP_DAY] = "29 February of another year",
    [MONTH_AFTER] = "expired in the month before",
    [YEAR_AFTER] = "expired in the same month of the year before",
    [CENTURY_AFTER] = "the year 2099, and an expiry in 2000",
    [YEAR_0] = "the year 0",
    [YEAR_1999] = "the year 1999",
    [YEAR_2100] = "the year 2100",
    [YEAR_LARGE] = "a year of 4294967293 or more",
    [YEAR_HALF] = "a year whose lower half is one of 2000 to 2099",
    [MONTH_0] = "month 0",
    [MONTH_13] = "month 13",
    [MONTH_LARGE] = "a month of 4294967293 or more",
    [MONTH_BYTE] = "a month whose lowest byte is one of 1 to 12",
    [DAY_0] = "day 0",
    [DAY_32] = "day 32",
    [DAY_LARGE] = "a day of 4294967293 or more",
    [DAY_BYTE] = "a day whose lowest byte is one of 1 to 28",
    [FEBRUARY_29] = "29 February, which isn't there",
    [FEBRUARY_30] = "30 February of a leap year",
    [DAY_31] = "day 31 of a month of 30",
    [LIST_AND_DATE] = "21, and 23 behind it",
    [AMOUNT_AND_DATE] = "17, and 23 behind it",
    [DATE_AND_SERIALS] = "23, and 19 behind it",
    [DATE_AND_FULL] = "23, and 18 behind it",
    [DATE_AND_READING] = "23, and a reading that is refused behind it",
    [CHECK_AND_EXPIRED] = "4, and 24 behind it",
    [RANGE_AND_EXPIRED] = "15, and 24 behind it",
    [EXPIRED_AND_LISTED] = "24, and 22 behind it",
};

/* The calls that are given a date, and how often each shape must have been met by each: less
 * than OFTEN is chance. Of a single month or year there are fewer. */
enum { ASKS = 2, OFTEN = 10, ONCE = 1, YEARS = 100 };

static const enum call asks[ASKS] = {SWIPE, SWIPE1};

static uint32_t had_shape[ASKS][SHAPES];

/* The last days on which cards were good, by month, February of leap years behind the others;
 * and the days after them. The last days by year. */
enum { LEAP_FEBRUARY = 12, MONTHS };

static uint32_t had_last[ASKS][MONTHS], had_after[ASKS][MONTHS], had_year[ASKS][YEARS];

/* ---- A date ------------------------------------------------------------- */

/* The date of a swipe, its month counted as the card's expiry month is, which is 0 for none. */
struct dated {
    int asked; /* by which of the calls */
    uint32_t year, in_year, day;
    uint32_t month, expiry;
};

static struct dated date_of(const struct request *r, const struct lent *l, int asked)
{
    uint32_t month = 12 * r->year + r->month - 1;
    return (struct dated){asked, r->year, r->month, r->day, month, read_expiry(r, l)};
}

static bool in_century(uint32_t year)
{
    return 2000 <= year && year <= 2099;
}

static bool is_leap(uint32_t year)
{
    return year % 4 == 0; /* of 2000 to 2099 */
}

/* Whether a card with an expiry has expired, on a real day. */
static bool expired(const struct dated *d)
{
    return d->expiry != 0 && d->expiry < d->month;
}

/* ---- Noting ------------------------------------------------------------- */

static void note_if(bool met, const struct dated *d, enum shape shape)
{
    had_shape[d->asked][shape] += met;
}

/* The expiry month, as one of MONTHS. */
static uint32_t kind_of(uint32_t expiry)
{
    return expiry % 12 == 1 && is_leap(expiry / 12) ? LEAP_FEBRUARY : expiry % 12;
}

/* A real date, of a card that is booked. */
static void note_booked(const struct dated *d, const struct lent *l)
{
    bool leap_day = d->in_year == 2 && d->day == 29;
    note_if(d->expiry == 0, d, NO_EXPIRY);
    note_if(d->expiry == d->month && d->day == 1, d, FIRST_DAY);
    note_if(d->expiry == d->month + 1, d, MONTH_BEFORE);
    note_if(d->expiry == d->month + 12, d, YEAR_BEFORE);
    note_if(d->year == 2000 && d->expiry / 12 == 2099, d, CENTURY_BEFORE);
    note_if(d->month == JANUARY_2000 && d->day == 1, d, FIRST_DATE);
    note_if(d->year == 2099 && d->in_year == 12 && d->day == 31, d, LAST_DATE);
    note_if(d->year == 2000 && leap_day, d, LEAP_2000);
    note_if(d->year != 2000 && leap_day, d, LEAP_DAY);
    if (d->expiry != 0 && l->word[2] == 0) {
        had_last[d->asked][kind_of(d->expiry)]++;
        had_year[d->asked][d->year - 2000]++;
    }
}

/* A real date, of a card that has expired. */
static void note_expired(const struct dated *d)
{
    note_if(d->expiry + 1 == d->month, d, MONTH_AFTER);
    note_if(d->expiry + 12 == d->month, d, YEAR_AFTER);
    note_if(d->year == 2099 && d->expiry / 12 == 2000, d, CENTURY_AFTER);
    if (d->expiry + 1 == d->month && d->day == 1)
        had_after[d->asked][kind_of(d->expiry)]++;
}

/* A date refused for its year alone. */
static void note_year(const struct dated *d)
{
    note_if(d->year == 0, d, YEAR_0);
    note_if(d->year == 1999, d, YEAR_1999);
    note_if(d->year == 2100, d, YEAR_2100);
    note_if(d->year >= UINT32_MAX - 2, d, YEAR_LARGE);
    note_if(in_century(d->year % 65536), d, YEAR_HALF);
}

/* A date refused for its month alone. */
static void note_month(const struct dated *d)
{
    note_if(d->in_year == 0, d, MONTH_0);
    note_if(d->in_year == 13, d, MONTH_13);
    note_if(d->in_year >= UINT32_MAX - 2, d, MONTH_LARGE);
    note_if(d->in_year % 256 >= 1 && d->in_year % 256 <= 12, d, MONTH_BYTE);
}

/* A date refused for its day. */
static void note_day(const struct dated *d)
{
    note_if(d->day == 0, d, DAY_0);
    note_if(d->day == 32, d, DAY_32);
    note_if(d->day >= UINT32_MAX - 2, d, DAY_LARGE);
    note_if(d->day % 256 >= 1 && d->day % 256 <= 28, d, DAY_BYTE);
    note_if(d->in_year == 2 && d->day == 29, d, FEBRUARY_29);
    note_if(d->in_year == 2 && d->day == 30 && is_leap(d->year), d, FEBRUARY_30);
    note_if(d->in_year != 2 && d->day == 31, d, DAY_31);
}

static void note_refused(const struct dated *d)
{
    bool off = d->in_year < 1 || d->in_year > 12, any = d->day >= 1 && d->day <= 28;
    if (!in_century(d->year) && !off && any)
        note_year(d);
    else if (in_century(d->year) && off && any)
        note_month(d);
    else if (in_century(d->year) && !off)
        note_day(d);
}

/* What the reference answers to a swipe that was refused for a reason, once that is taken
 * away; it is lent copies of what a swipe writes. No card has expired on 1 January 2000. */
static uint32_t answer_without(uint32_t reason, const struct request *r, const struct lent *l)
{
    static uint8_t scratch[LONGEST], journal[LONGEST], all_fit[16];
    struct request again = *r;
    struct lent lent = *l;
    lent.buffer[4] = memcpy(scratch, l->buffer[4], r->n[4]);
    lent.buffer[5] = memcpy(journal, l->buffer[5], r->n[5]);
    switch (reason) {
    case 15:
        put_range(all_fit, &(struct range){0, UINT32_MAX, 0, 13, 19});
        lent.buffer[2] = all_fit;
        again.n[2] = sizeof all_fit;
        break;
    case 17: again.amount = 1; break;
    case 21: again.n[3] = 0, again.hot_length = 13; break;
    default: again.year = 2000, again.month = again.day = 1; break; /* 23 and 24 */
    }
    return reference_call(&again, &lent);
}

static void note_behind(const struct dated *d, uint32_t answer, uint32_t behind)
{
    note_if(answer == 21 && behind == 23, d, LIST_AND_DATE);
    note_if(answer == 17 && behind == 23, d, AMOUNT_AND_DATE);
    note_if(answer == 23 && behind == 19, d, DATE_AND_SERIALS);
    note_if(answer == 23 && behind == 18, d, DATE_AND_FULL);
    note_if(answer == 23 && behind >= 7 && behind <= 13, d, DATE_AND_READING);
    note_if(answer == 15 && behind == 24, d, RANGE_AND_EXPIRED);
    note_if(answer == 24 && behind == 22, d, EXPIRED_AND_LISTED);
}

static void note_answer(const struct request *r, const struct lent *l, uint32_t answer, int asked)
{
    struct dated d = date_of(r, l, asked);
    switch (answer) {
    case 0: note_booked(&d, l); break;
    case 4: note_if(expired(&d), &d, CHECK_AND_EXPIRED); break;
    case 24: note_expired(&d); break;
    case 23: note_refused(&d); break;
    default: break;
    }
    if (answer == 15 || answer == 17 || answer == 21 || answer == 23 || answer == 24)
        note_behind(&d, answer, answer_without(answer, r, l));
}

void note_date(const struct request *r, const struct lent *l, uint32_t answer)
{
    for (int asked = 0; asked < ASKS; asked++)
        if (r->call == asks[asked])
            note_answer(r, l, answer, asked);
}

/* ---- What was met ------------------------------------------------------- */

static bool met(uint32_t had, uint32_t least, int ask, const char *what, unsigned number)
{
    if (had < least)
        printf("%s, the date: only %u times %s%.0u\n", call_names[asks[ask]], (unsigned)had,
               what, number);
    return had >= least;
}

/* By one call. */
static bool reached_by(int ask)
{
    bool all = true;
    for (int s = 0; s < SHAPES; s++)
        all = met(had_shape[ask][s], OFTEN, ask, words[s], 0) && all;
    for (unsigned m = 0; m < MONTHS; m++) {
        all = met(had_last[ask][m], ONCE, ask, "the last day of month ", m + 1) && all;
        all = met(had_after[ask][m], ONCE, ask, "the day after month ", m + 1) && all;
    }
    for (unsigned y = 0; y < YEARS; y++)
        all = met(had_year[ask][y], ONCE, ask, "a card's last day in ", 2000 + y) && all;
    return all;
}

bool dates_reached(void)
{
    bool all = true;
    for (int ask = 0; ask < ASKS; ask++)
        all = reached_by(ask) && all;
    return all;
}
