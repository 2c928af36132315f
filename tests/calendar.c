/*
 * Every day from 2000 to 2099, with the C library's calendar as a third opinion.
 *
 * On each day cards are swiped on either track that expire in the day's month, in the month
 * before it and the month behind it, in some other months, and one that has no expiry. Each
 * answer, and the days left, must be what timegm and difftime say. Then every day 0 to 33 of
 * every month 0 to 14 of 1990 to 2109, and larger numbers: a date is taken exactly where it
 * is one of those days. tests/run runs it against the library, and against the reference too.
 */
#define _DEFAULT_SOURCE
#include <inttypes.h>
#include <stdbool.h>
#include <stdio.h>
#include <stdlib.h>
#include <string.h>
#include <time.h>
#include "encode.h"
#include "goltwarden.h"

enum { MONTHS = 1200, NONE = MONTHS, DAY = 86400, KEPT = 77777 };

struct date {
    uint32_t year, month, day;
};

/* ---- The C library's calendar ------------------------------------------- */

/* The last day of each month from January 2000 on. */
static time_t last_day[MONTHS];

/* Day 0 of a month is the last of the one before it. */
static void find_last_days(void)
{
    for (int m = 0; m < MONTHS; m++) {
        struct tm t = {.tm_year = 100 + m / 12, .tm_mon = m % 12 + 1, .tm_mday = 0};
        last_day[m] = timegm(&t);
    }
}

/* A day from 2000 to 2099. A day that isn't there would come back as another one. */
static bool is_there(const struct date *d)
{
    if (d->year < 2000 || d->year > 2099 || d->month > 99 || d->day > 99)
        return false;
    struct tm t = {.tm_year = (int)d->year - 1900, .tm_mon = (int)d->month - 1,
                   .tm_mday = (int)d->day};
    struct tm given = t;
    timegm(&t);
    return t.tm_year == given.tm_year && t.tm_mon == given.tm_mon && t.tm_mday == given.tm_mday;
}

static struct date date_of(time_t day)
{
    struct tm t;
    gmtime_r(&day, &t);
    return (struct date){(uint32_t)t.tm_year + 1900, (uint32_t)t.tm_mon + 1, (uint32_t)t.tm_mday};
}

/* ---- The cards ---------------------------------------------------------- */

static const struct track *const tracks[2] = {&track2, &track1};

/* A card on each track for each expiry month, and one without an expiry. */
static struct stripe {
    uint8_t bytes[32];
    uint64_t bits;
} cards[2][MONTHS + 1];

/* YYMM, or a mark for none. */
struct expiry {
    char text[8];
};

static struct expiry expiry_of(int month, uint8_t mark)
{
    struct expiry e = {{(char)mark}};
    if (month != NONE)
        snprintf(e.text, sizeof e.text, "%02d%02d", month / 12 % 100, month % 12 + 1);
    return e;
}

static struct stripe card_of(const struct track *t, int month)
{
    struct stripe s = {{0}, 0};
    struct expiry expiry = expiry_of(month, t->mark);
    char card[48];
    if (t == &track1)
        snprintf(card, sizeof card, "%%B4111111111111111^JD^%s101?", expiry.text);
    else
        snprintf(card, sizeof card, ";4111111111111111=%s101?", expiry.text);
    put_track(t, s.bytes, card);
    s.bits = t->width * (strlen(card) + 1);
    return s;
}

static void write_cards(void)
{
    for (int t = 0; t < 2; t++)
        for (int m = 0; m <= MONTHS; m++)
            cards[t][m] = card_of(tracks[t], m);
}

/* ---- Swiping ------------------------------------------------------------ */

/* What a swipe answers. */
struct swiped {
    uint32_t answer, expires, days;
};

static uint64_t swipes;

static struct swiped swiped(int track, int month, const struct date *d)
{
    static const uint64_t none[1];
    const struct stripe *s = &cards[track][month];
    uint8_t table[16], scratch[76], journal[32] = {0};
    uint32_t serial;
    struct swiped got = {KEPT, KEPT, KEPT};
    struct gw_swipe_inputs in = {
        .stream = s->bytes, .stream_n = sizeof s->bytes, .bits = s->bits,
        .site = table, .site_n = 0, .acquirer = table, .acquirer_n = sizeof table,
        .hot = none, .hot_n = 0, .hot_length = 16,
        .amount = 250, .year = d->year, .month = d->month, .day = d->day, .clock = 0,
        .scratch = scratch, .scratch_n = sizeof scratch, .journal = journal, .journal_n = 32,
    };
    put_range(table, &(struct range){40000000, 49999999, 7, 13, 19});
    got.answer = (track ? gw_swipe1_with : gw_swipe_with)(&in, &serial, &got.expires, &got.days);
    swipes++;
    return got;
}

static void expect(int track, int month, const struct date *d, struct swiped right)
{
    struct swiped got = swiped(track, month, d);
    if (got.answer == right.answer && got.expires == right.expires && got.days == right.days)
        return;
    printf("calendar: track %d, expiry %s, on %" PRIu32 " %" PRIu32 " %" PRIu32 ": %" PRIu32
           ", %" PRIu32 ", %" PRIu32 ", and %" PRIu32 ", %" PRIu32 ", %" PRIu32 " is right\n",
           track ? 1 : 2, expiry_of(month, '-').text, d->year, d->month, d->day, got.answer,
           got.expires, got.days, right.answer, right.expires, right.days);
    exit(1);
}

/* A card that expires in a month, on either track, on a day. */
static void expect_left(int month, time_t day)
{
    struct date d = date_of(day);
    double left = difftime(last_day[month], day) / DAY;
    struct swiped right = {24, KEPT, KEPT};
    if (left >= 0)
        right = (struct swiped){0, 1, (uint32_t)left};
    for (int t = 0; t < 2; t++)
        expect(t, month, &d, right);
}

/* A card without an expiry, on either track, on what may be a date. */
static void expect_taken(const struct date *d)
{
    struct swiped right = {23, KEPT, KEPT};
    if (is_there(d))
        right = (struct swiped){0, 0, KEPT};
    for (int t = 0; t < 2; t++)
        expect(t, NONE, d, right);
}

/* ---- Days --------------------------------------------------------------- */

/* Beside the day's own month and its neighbours: the first and the last expiry month, and
 * Februaries of leap years and of others. */
static void swipe_on(time_t day)
{
    static const int months[] = {0, 1, 13, 12 * 24 + 1, 12 * 25 + 1, 12 * 96 + 1, MONTHS - 1};
    struct date d = date_of(day);
    int own = 12 * (int)(d.year - 2000) + (int)d.month - 1;
    for (int m = own - 1; m <= own + 1; m++)
        if (0 <= m && m < MONTHS)
            expect_left(m, day);
    for (size_t i = 0; i < sizeof months / sizeof months[0]; i++)
        expect_left(months[i], day);
    expect_taken(&d);
}

static uint32_t every_day(void)
{
    struct tm first = {.tm_year = 100, .tm_mon = 0, .tm_mday = 1};
    uint32_t days = 0;
    for (time_t day = timegm(&first); day <= last_day[MONTHS - 1]; day += DAY, days++)
        swipe_on(day);
    return days;
}

static void dates_near(void)
{
    for (uint32_t year = 1990; year < 2110; year++)
        for (uint32_t month = 0; month < 15; month++)
            for (uint32_t day = 0; day < 34; day++)
                expect_taken(&(struct date){year, month, day});
}

/* Each of three numbers any of these. */
static void dates_far(void)
{
    static const uint32_t odd[] = {0, 1, 12, 28, 31, 99, 127, 128, 255, 256, 257, 256 + 12, 2000,
                                   2024, 2099, 32768, 65535, 65536, 65536 + 2024, INT32_MAX,
                                   UINT32_C(1) << 31, UINT32_MAX - 1, UINT32_MAX};
    enum { ODD = sizeof odd / sizeof odd[0] };
    for (int i = 0; i < ODD * ODD * ODD; i++)
        expect_taken(&(struct date){odd[i / ODD / ODD], odd[i / ODD % ODD], odd[i % ODD]});
}

int main(void)
{
    find_last_days();
    write_cards();
    uint32_t days = every_day();
    dates_near();
    dates_far();
    printf("calendar: %" PRIu32 " days, %" PRIu64 " swipes, as the C library's calendar has it\n",
           days, swipes);
    return 0;
}
