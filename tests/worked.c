/*
 * The worked cases of document 01, known texts, cards of track 1 whose bits are
 * written out by hand, range tables whose records overlap, hot lists, dates, and
 * messages to the host, with the answers. tests/run runs them against the library, and
 * against the reference too: what judges the library is itself held to the paper's own
 * examples.
 */
#include <inttypes.h>
#include <stdbool.h>
#include <stdio.h>
#include <string.h>
#include "encode.h"
#include "goltwarden.h"

static int wrong;

static void expect(const char *what, uint32_t answer, uint32_t right)
{
    if (answer == right)
        return;
    printf("%s: %" PRIu32 ", and %" PRIu32 " is right\n", what, answer, right);
    wrong++;
}

static const uint8_t *bytes(const char *s)
{
    return (const uint8_t *)s;
}

typedef uint32_t text_test(const uint8_t *, size_t);

/* Whether characters of track 1 are divided; into what, is not looked at. */
static uint32_t divides(const uint8_t *chars, size_t n)
{
    uint32_t part[5];
    return gw_layout1_read(chars, n, &part[0], &part[1], &part[2], &part[3], &part[4]);
}

struct known {
    text_test *test;
    const char *text;
    uint32_t answer;
};

static const struct known known[] = {
    {gw_luhn_test, "4111111111111111", 0}, /* W1 */
    {gw_luhn_test, "378282246310005", 0},  /* W2 */
    {gw_luhn_test, "18", 0},               /* W3 */
    {gw_luhn_test, "81", 4},
    {gw_luhn_test, "091", 0}, /* W4 */
    {gw_luhn_test, "901", 0},
    {gw_luhn_test, "224", 0}, /* W5 */
    {gw_luhn_test, "554", 0},
    {gw_luhn_test, "0", 2},
    {gw_luhn_test, "1:", 3},
    {gw_creditor_test, "RF18539007547034", 0}, /* W6 */
    {gw_creditor_test, "RF14B1", 0},           /* W7 */
    {gw_creditor_test, "RF141B", 0},
    {gw_creditor_test, "RF14B2", 4},
    {gw_creditor_test, "XX14B1", 6},
    {gw_iban_test, "GB82WEST12345698765432", 0},      /* W8 */
    {gw_iban_test, "DE89370400440532013000", 0},      /* W9 */
    {gw_iban_test, "FR1420041010050500013M02606", 0}, /* W10 */
    {gw_iban_test, "XX89370400440532013000", 5},
    {gw_iban_test, "DE8937040044053201300", 6},
    {gw_iban_test, "DE88370400440532013000", 4},
#define EXAMPLE(text) {gw_iban_test, text, 0},
#include "examples.inc"
    {divides, "B4111111111111111^DOE/JANE^2512101", 0},
    {divides, "B4111111111111111^DOE/JANE^^^", 0}, /* neither expiry nor service code */
    {divides, "B4111111111111111^DOE/JANE^2512^", 0},
    {divides, "B4111111111111111^DOE/JANE^^101", 0},
    {divides, "B4111111111111111^DOE/JANE^", 6},
    {divides, "B4111111111111111^DOE/JANE^==", 6},
    {divides, "A4111111111111111^DOE/JANE^2512101", 6}, /* another format code, and none */
    {divides, "b4111111111111111^DOE/JANE^2512101", 6},
    {divides, "4111111111111111^DOE/JANE^2512101", 6},
    {divides, "", 6},
    {divides, "B123456789012^DOE/JANE^2512101", 6}, /* PANs of 12, 13, 19 and 20 digits */
    {divides, "B1234567890123^DOE/JANE^2512101", 0},
    {divides, "B1234567890123456789^DOE/JANE^2512101", 0},
    {divides, "B12345678901234567890^DOE/JANE^2512101", 6},
    {divides, "B4111111111111111^J^2512101", 6}, /* names of 1, 2, 26 and 27 characters */
    {divides, "B4111111111111111^JD^2512101", 0},
    {divides, "B4111111111111111^ABCDEFGHIJKLMNOPQRSTUVWXYZ^2512101", 0},
    {divides, "B4111111111111111^ABCDEFGHIJKLMNOPQRSTUVWXYZ/^2512101", 6},
    {divides, "B4111111111111111^ !\"#$&'()*+,-./:;<=>@[\\]_^2512101", 0}, /* what a name holds */
    {divides, "B4111111111111111^DOE^JANE^2512101", 6}, /* and what it doesn't */
    {divides, "B4111111111111111^DOE%JANE^2512101", 6},
    {divides, "B4111111111111111^DOE?JANE^2512101", 6},
    {divides, "B4111111111111111^Doe/Jane^2512101", 6},
    {divides, "B4111111111111111^DOE`JANE^2512101", 6},
    {divides, "B4111111111111111^DOE\037JANE^2512101", 6},
    {divides, "B4111111111111111^DOE/JANE^2500101", 6}, /* months 00, 01 and 13 */
    {divides, "B4111111111111111^DOE/JANE^2501101", 0},
    {divides, "B4111111111111111^DOE/JANE^2513101", 6},
    {divides, "B4111111111111111^DOE/JANE^2512101 _=[A]", 0}, /* discretionary data */
    {divides, "B4111111111111111^DOE/JANE^2512101^", 6},
    {divides, "B4111111111111111^DOE/JANE^2512101%", 6},
    {divides, "B4111111111111111^DOE/JANE^2512101?", 6},
    {divides, "B4111111111111111^DOE/JANE^2512101fleet", 6},
    {divides, "B4111111111111111^DOE/JANE^2512101`", 6},
};

static void known_texts(void)
{
    for (size_t i = 0; i < sizeof known / sizeof known[0]; i++) {
        const char *s = known[i].text;
        expect(s, known[i].test(bytes(s), strlen(s)), known[i].answer);
    }
}

/* W11 */
static void track(void)
{
    static const char card[] = ";4111111111111111=2512101?";
    uint8_t stream[32] = {0}, out[37];
    uint32_t count = 0, reversed = 9, part[4];
    expect("W11's LRC", put_track(&track2, stream, card), 8);
    expect("W11", gw_track2_read(stream, 17, 135, out, 37, &count, &reversed), 0);
    expect("W11's count", count, 24);
    expect("W11's direction", reversed, 0);
    expect("W11's characters", memcmp(out, card + 1, 24) == 0, 1);
    expect("W11 divided", gw_layout_read(out, count, &part[0], &part[1], &part[2], &part[3]), 0);
    expect("W11's PAN", part[0], 16);
    expect("W11's expiry", part[1], 17);
    expect("W11's service code", part[2], 21);
    expect("W11's rest", part[3], 24);
}

/* Tracks of 40 characters, LRC included, and of 41. */
static void long_tracks(void)
{
    uint8_t stream[32] = {0}, longer[32] = {0}, out[37];
    uint32_t count, reversed;
    put_track(&track2, stream, ";0123456789012345678901234567890123456?");
    put_track(&track2, longer, ";01234567890123456789012345678901234567?");
    expect("40 characters", gw_track2_read(stream, 25, 200, out, 37, &count, &reversed), 0);
    expect("41 characters", gw_track2_read(longer, 26, 205, out, 37, &count, &reversed), 11);
}

/* ---- Track 1 ------------------------------------------------------------ */

/* A card of ISO/IEC 7813's format B, its bits in the order in which they pass the
 * head: %B4111111111111111^DOE/JANE^2512101FLEET 7? and the LRC, clocking zeros around. */
static const char fleet_card[] =
    "000 1010001 0100011 "                                             /* %B */
    "0010101 1000101 1000101 1000101 1000101 1000101 1000101 1000101 " /* 41111111 */
    "1000101 1000101 1000101 1000101 1000101 1000101 1000101 1000101 " /* 11111111 */
    "0111110 0010011 1111010 1010010 1111001 "                         /* ^DOE/ */
    "0101010 1000011 0111011 1010010 0111110 "                         /* JANE^ */
    "0100101 1010100 1000101 0100101 1000101 0000100 1000101 "         /* 2512101 */
    "0110010 0011010 1010010 1010010 0010110 0000001 1110101 "         /* FLEET 7 */
    "1111100 1000011 00000";                                           /* ?, LRC A */

/* The characters %\ W? and the LRC 1, which read both ways round. */
static const char both_ways[] = "1010001 0011111 0000001 1110110 1111100 1000101";

/* Written bits as a stream, the first of them first or last. */
struct stripe {
    uint8_t bytes[80];
    uint64_t bits;
};

static struct stripe stripe_of(const char *written, bool reversed)
{
    struct stripe s = {{0}, 0};
    size_t n = strlen(written);
    for (size_t i = 0; i < n; i++) {
        char bit = written[reversed ? n - 1 - i : i];
        if (bit == ' ')
            continue;
        s.bytes[s.bits / 8] |= (uint8_t)((bit - '0') << s.bits % 8);
        s.bits++;
    }
    return s;
}

/* The characters that a stream must be read as, and which way round. */
static void reads(const char *written, bool turned, const char *chars, uint32_t way)
{
    struct stripe s = stripe_of(written, turned);
    uint8_t out[76];
    uint32_t count = 99, reversed = 99;
    expect(chars, gw_track1_read(s.bytes, sizeof s.bytes, s.bits, out, 76, &count, &reversed), 0);
    expect("its count", count, (uint32_t)strlen(chars));
    expect("its direction", reversed, way);
    expect("its characters", memcmp(out, chars, strlen(chars)) == 0, 1);
}

static void track1_reads(void)
{
    static const char card[] = "B4111111111111111^DOE/JANE^2512101FLEET 7";
    uint32_t part[5];
    reads(fleet_card, false, card, 0);
    reads(fleet_card, true, card, 1);
    reads(both_ways, false, "\\ W", 0);
    reads(both_ways, true, "\\V!", 0);
    expect("the card divided", gw_layout1_read(bytes(card), strlen(card), &part[0], &part[1],
                                               &part[2], &part[3], &part[4]), 0);
    expect("its PAN", part[0], 16);
    expect("its name", part[1], 8);
    expect("its expiry", part[2], 27);
    expect("its service code", part[3], 31);
    expect("its rest", part[4], 34);
}

/* Whichever bit of the fleet card is flipped, it no longer reads forward. */
static void flips(void)
{
    struct stripe s = stripe_of(fleet_card, false);
    uint8_t out[76];
    uint32_t count, reversed = 0;
    for (uint64_t i = 0; i < s.bits; i++) {
        s.bytes[i / 8] ^= (uint8_t)(1 << i % 8);
        expect("a bit flipped", gw_track1_read(s.bytes, sizeof s.bytes, s.bits, out, 76, &count,
                                               &reversed) != 0 || reversed == 1, 1);
        s.bytes[i / 8] ^= (uint8_t)(1 << i % 8);
    }
}

/* Tracks of 79 characters, LRC included, and of 80. */
static void long_tracks1(void)
{
    uint8_t stream[70] = {0}, longer[70] = {0}, out[76];
    uint32_t count, reversed;
    put_track(&track1, stream, "%B4111111111111111^ABCDEFGHIJKLMNOPQRSTUVWXYZ^2512101"
                               "ABCDEFGHIJKLMNOPQRSTUVWX?");
    put_track(&track1, longer, "%B4111111111111111^ABCDEFGHIJKLMNOPQRSTUVWXYZ^2512101"
                               "ABCDEFGHIJKLMNOPQRSTUVWXY?");
    expect("79 characters", gw_track1_read(stream, 70, 553, out, 76, &count, &reversed), 0);
    expect("all that fit", count, 76);
    expect("75 bytes", gw_track1_read(stream, 70, 553, out, 75, &count, &reversed), 1);
    expect("80 characters", gw_track1_read(longer, 70, 560, out, 76, &count, &reversed), 11);
}

/* W12, and PANs of 12, 13, 19 and 20 digits */
static void masks(void)
{
    uint8_t out[20];
    const uint8_t *pan = bytes("4111111111111111");
    const uint8_t *digits = bytes("12345678901234567890");
    expect("W12", gw_pan_mask(pan, 16, out, 20), 0);
    expect("W12's text", memcmp(out, "411111******1111", 16) == 0, 1);
    expect("12 digits", gw_pan_mask(digits, 12, out, 20), 2);
    expect("13 digits", gw_pan_mask(digits, 13, out, 20), 0);
    expect("19 digits", gw_pan_mask(digits, 19, out, 20), 0);
    expect("20 digits", gw_pan_mask(digits, 20, out, 20), 2);
}

/* W13's record. */
static const uint8_t w13[32] = {1, 0, 0, 0, 0, 0, 0, 0, 0xfa, 0, 0, 0, 7, 0, 0x10, 1,
                                '4', '1', '1', '1', '1', '1', '1', '1', '1', '1'};

/* W13, then the slot full, released, and booked again. */
static void journal(void)
{
    const uint8_t *pan = bytes("4111111111111111");
    uint8_t slot[32] = {0};
    uint32_t serial = 0, count = 0;
    uint64_t sum = 0;
    expect("W13", gw_journal_book(slot, 32, pan, 16, 7, 250, 0, &serial), 0);
    expect("W13's serial", serial, 1);
    expect("W13's bytes", memcmp(slot, w13, 32) == 0, 1);
    expect("a full journal", gw_journal_book(slot, 32, pan, 16, 7, 250, 0, &serial), 18);
    expect("release", gw_journal_release(slot, 32, 1, &count, &sum), 0);
    expect("released", count, 1);
    expect("released sum", (uint32_t)sum, 250);
    expect("booked again", gw_journal_book(slot, 32, pan, 16, 7, 250, 0, &serial), 0);
    expect("next serial", serial, 2);
    memset(slot, 0xff, 4);
    expect("at the last serial", gw_journal_book(slot, 32, pan, 16, 7, 250, 0, &serial), 19);
}

enum { KEPT = 99 }; /* what stands behind a pointer before a call */

/* What a swipe answers. */
struct swiped {
    uint32_t answer, serial, expires, days;
};

static struct swiped swiped(const struct track *t, const struct gw_swipe_inputs *in)
{
    struct swiped s = {KEPT, KEPT, KEPT, KEPT};
    s.answer = (t == &track1 ? gw_swipe1_with : gw_swipe_with)(in, &s.serial, &s.expires, &s.days);
    return s;
}

/* W13's payment on 1 December 2025 by a stripe: no table yet, and an empty hot list. */
static struct gw_swipe_inputs paying(const struct stripe *s, uint8_t scratch[76],
                                     uint8_t *journal, size_t journal_n)
{
    static const uint64_t none[1];
    return (struct gw_swipe_inputs){
        .stream = s->bytes, .stream_n = sizeof s->bytes, .bits = s->bits,
        .site = w13, .site_n = 0, .acquirer = w13, .acquirer_n = 0,
        .hot = none, .hot_n = 0, .hot_length = 16,
        .amount = 250, .year = 2025, .month = 12, .day = 1, .clock = 0,
        .scratch = scratch, .scratch_n = 76, .journal = journal, .journal_n = journal_n,
    };
}

/* W13's payment by the fleet card, either way round; a scratch too short before it. */
static void swipe1(bool turned)
{
    static const uint8_t zeros[76];
    struct stripe s = stripe_of(fleet_card, turned);
    uint8_t slot[32] = {0}, acquirer[16] = {0}, scratch[76];
    struct gw_swipe_inputs in = paying(&s, scratch, slot, 32);
    put_range(acquirer, &(struct range){40000000, 49999999, 7, 13, 19});
    in.acquirer = acquirer;
    in.acquirer_n = 16;
    memset(scratch, 0x5a, 76);
    in.scratch_n = 75;
    struct swiped got = swiped(&track1, &in);
    expect("a scratch of 75", got.answer, 1);
    expect("it stays", scratch[0] == 0x5a && scratch[74] == 0x5a && got.serial == KEPT, 1);
    in.scratch_n = 76;
    got = swiped(&track1, &in);
    expect("a scratch of 76", got.answer, 0);
    expect("it is zero", memcmp(scratch, zeros, 76) == 0, 1);
    expect("the swipe's serial", got.serial, 1);
    expect("the swipe's record", memcmp(slot, w13, 32) == 0, 1);
}

/* ---- Range tables ------------------------------------------------------- */

/* W1's card: its PAN, and its number. */
#define W1 "4111111111111111"
#define CARD UINT64_C(4111111111111111)

/* A card on a track, by its PAN and its expiry, which is the track's mark for none. */
static struct stripe card_of(const struct track *t, const char *pan, const char *expiry)
{
    struct stripe s = {{0}, 0};
    const char *form = t == &track1 ? "%%B%s^DOE/JANE^%s101?" : ";%s=%s101?";
    char card[64], mark[2] = {(char)t->mark};
    snprintf(card, sizeof card, form, pan, *expiry ? expiry : mark);
    put_track(t, s.bytes, card);
    s.bits = t->width * (strlen(card) + 1);
    return s;
}

/* Records by a letter. The first five fit W1's PAN, and the last three don't. */
static const struct {
    char letter;
    struct range range;
} ranges[] = {
    {'a', {0, UINT32_MAX, 0x0101, 13, 19}},        /* all numbers */
    {'w', {40000000, 49999999, 0x0201, 13, 19}},   /* a wide one */
    {'n', {41000000, 41999999, 0x0301, 13, 19}},   /* a narrow one inside it */
    {'s', {40500000, 41499999, 0x0401, 13, 19}},   /* as narrow, and shifted */
    {'o', {41111111, 41111111, 0x0501, 16, 16}},   /* one number */
    {'b', {41111112, 41111112, 0x0601, 13, 19}},   /* the number beside it */
    {'l', {41111111, 41111111, 0x0701, 13, 15}},   /* for other lengths */
    {'r', {UINT32_MAX, 41111111, 0x0801, 13, 19}}, /* low above high, which wraps to 41111112 */
};

/* Two tables, written by the letters of their records, and what is found: in the site's
 * (0) or the acquirer's (1) the record of that number, from 0 on. */
struct choice {
    const char *site, *acquirer;
    uint32_t table, record;
};

static const struct choice choices[] = {
    {"", "wn", 1, 1}, /* a narrow one inside a wide one, in both orders */
    {"", "nw", 1, 0},
    {"wn", "", 0, 1},
    {"nw", "", 0, 0},
    {"", "awno", 1, 3}, /* all inside one another, from outside, from inside, in no order */
    {"", "onwa", 1, 0},
    {"", "noaw", 1, 1},
    {"naw", "", 0, 0},
    {"", "nn", 1, 0}, /* of equals the earlier: of the same numbers, and shifted */
    {"", "ns", 1, 0},
    {"", "sn", 1, 0},
    {"", "wsnw", 1, 1},
    {"oo", "", 0, 0},
    {"aa", "", 0, 0},
    {"w", "n", 0, 0}, /* the site's wide one before the acquirer's narrow one */
    {"a", "o", 0, 0},
    {"wn", "o", 0, 1},
    {"n", "w", 0, 0},
    {"b", "wn", 1, 1}, /* none of the site's fits */
    {"l", "nw", 1, 0},
    {"r", "aw", 1, 1},
    {"", "a", 1, 0}, /* from 0 to 4294967295, and narrower ones that don't fit */
    {"", "ba", 1, 1},
    {"", "la", 1, 1},
    {"", "ra", 1, 1},
    {"ablr", "o", 0, 0},
};

static size_t put_table(uint8_t *table, const char *letters)
{
    size_t n = 0;
    for (; *letters; letters++)
        for (size_t i = 0; i < sizeof ranges / sizeof ranges[0]; i++)
            if (ranges[i].letter == *letters) {
                memset(table + n, 0xff, 16); /* 12 to 15 are ignored */
                put_range(table + n, &ranges[i].range);
                n += 16;
            }
    return n;
}

/* Both tables as they are lent. */
struct tables {
    char written[32];
    uint8_t bytes[2][64];
    size_t n[2];
};

static struct tables tables_of(const struct choice *c)
{
    struct tables t;
    snprintf(t.written, sizeof t.written, "tables '%s' and '%s'", c->site, c->acquirer);
    t.n[0] = put_table(t.bytes[0], c->site);
    t.n[1] = put_table(t.bytes[1], c->acquirer);
    return t;
}

/* W1's card swiped on a track: the record has this label. */
static void swipes_label(const struct tables *tables, const uint8_t *label, const struct track *t)
{
    struct stripe s = card_of(t, W1, "2512");
    uint8_t scratch[76], slot[32] = {0};
    struct gw_swipe_inputs in = paying(&s, scratch, slot, 32);
    in.site = tables->bytes[0];
    in.site_n = tables->n[0];
    in.acquirer = tables->bytes[1];
    in.acquirer_n = tables->n[1];
    expect(tables->written, swiped(t, &in).answer, 0);
    expect("the swipe's label", memcmp(slot + 12, label, 2) == 0, 1);
}

static void chooses(const struct choice *c)
{
    struct tables t = tables_of(c);
    uint32_t table = 99, at = 99;
    expect(t.written, gw_range_find(t.bytes[0], t.n[0], t.bytes[1], t.n[1],
                                    bytes("4111111111111111"), 16, &table, &at), 0);
    expect(t.written, table, c->table);
    expect(t.written, at, 16 * c->record);
    swipes_label(&t, t.bytes[c->table] + 16 * c->record + 8, &track2);
    swipes_label(&t, t.bytes[c->table] + 16 * c->record + 8, &track1);
}

/* Each of the choices; and where none fits, nothing is found. */
static void range_tables(void)
{
    uint8_t none[64];
    uint32_t table = 99, at = 99;
    for (size_t i = 0; i < sizeof choices / sizeof choices[0]; i++)
        chooses(&choices[i]);
    size_t n = put_table(none, "blr");
    expect("none fits", gw_range_find(none, n, none, n, bytes("4111111111111111"), 16, &table,
                                      &at), 15);
    expect("a refusal's numbers", table == 99 && at == 99, 1);
}

/* ---- Hot lists ---------------------------------------------------------- */

/* The least number too large for 16 digits, and for 19. */
#define SIXTEEN UINT64_C(10000000000000000)
#define NINETEEN UINT64_C(10000000000000000000)

/* A card asked for in a list: the answer, and yes (1) or no (0), or what was there. */
struct question {
    const char *what;
    uint64_t list[3];
    size_t n;
    uint32_t length;
    const char *pan;
    uint32_t answer, listed;
};

static const struct question questions[] = {
    {"an empty list", {0}, 0, 16, W1, 0, 0},
    {"the only one", {CARD}, 1, 16, W1, 0, 1},
    {"the first of three", {CARD, CARD + 1, CARD + 9}, 3, 16, W1, 0, 1},
    {"the second of three", {0, CARD, CARD + 1}, 3, 16, W1, 0, 1},
    {"the last of three", {CARD - 9, CARD - 1, CARD}, 3, 16, W1, 0, 1},
    {"below all", {CARD + 1, CARD + 2, CARD + 9}, 3, 16, W1, 0, 0},
    {"between two", {CARD - 1, CARD + 1, CARD + 2}, 3, 16, W1, 0, 0},
    {"above all", {CARD - 9, CARD - 2, CARD - 1}, 3, 16, W1, 0, 0},
    {"15 digits", {UINT64_C(378282246310005)}, 1, 15, "378282246310005", 0, 1},
    {"15 digits on a list for 16", {UINT64_C(378282246310005)}, 1, 16, "378282246310005", 0, 0},
    {"13 digits", {UINT64_C(4222222222222)}, 1, 13, "4222222222222", 0, 1},
    {"zeros before them", {UINT64_C(4222222222222)}, 1, 13, "0004222222222222", 0, 0},
    {"these on a list for 16", {UINT64_C(4222222222222)}, 1, 16, "0004222222222222", 0, 1},
    {"13 digits on that list", {UINT64_C(4222222222222)}, 1, 16, "4222222222222", 0, 0},
    {"nothing but zeros", {0, 1, 2}, 3, 13, "0000000000000", 0, 1},
    {"the largest of 16 digits", {CARD, SIXTEEN - 1}, 2, 16, "9999999999999999", 0, 1},
    {"the largest of 19", {NINETEEN - 1}, 1, 19, "9999999999999999999", 0, 1},
    {"63 bits and 64", {INT64_MAX, NINETEEN - 1}, 2, 19, "9999999999999999999", 0, 1},
    {"too large for 16 digits", {CARD, SIXTEEN}, 2, 16, W1, 21, KEPT},
    {"large enough for 17", {CARD, SIXTEEN}, 2, 17, "10000000000000000", 0, 1},
    {"too large for 19 digits", {NINETEEN}, 1, 19, "9999999999999999999", 21, KEPT},
    {"the largest of 64 bits", {UINT64_MAX}, 1, 19, "9999999999999999999", 21, KEPT},
    {"two equal numbers", {CARD, CARD}, 2, 16, W1, 21, KEPT},
    {"an equal first pair", {CARD, CARD, CARD + 1}, 3, 16, W1, 21, KEPT},
    {"an equal last pair", {CARD, CARD + 1, CARD + 1}, 3, 16, W1, 21, KEPT},
    {"a falling first pair", {CARD, CARD - 1, CARD + 1}, 3, 16, W1, 21, KEPT},
    {"a falling last pair", {CARD, CARD + 9, CARD + 1}, 3, 16, W1, 21, KEPT},
    {"a list for 12 digits", {1}, 1, 12, "411111111111", 21, KEPT},
    {"a list for 20 digits", {1}, 1, 20, "41111111111111111111", 21, KEPT},
    {"an empty list for 12", {0}, 0, 12, W1, 21, KEPT},
    {"an empty list for 20", {0}, 0, 20, W1, 21, KEPT},
    {"an empty list for 0", {0}, 0, 0, W1, 21, KEPT},
    {"a PAN of 12 digits", {CARD}, 1, 16, "411111111111", 2, KEPT},
    {"a PAN of 20 digits", {CARD}, 1, 16, "41111111111111111111", 2, KEPT},
    {"a PAN with a colon", {CARD}, 1, 16, "411111111111111:", 3, KEPT},
    {"12 bytes with a colon", {CARD}, 1, 16, "41111111111:", 2, KEPT},
    {"21 before 2", {CARD, CARD}, 2, 16, "411111111111", 21, KEPT},
    {"21 before 3", {CARD, CARD}, 2, 16, "411111111111111:", 21, KEPT},
};

static void asks(const char *what, const uint64_t *list, size_t n, uint32_t length,
                 const char *pan, uint32_t answer, uint32_t listed)
{
    uint32_t got = KEPT;
    expect(what, gw_hot_find(list, n, length, bytes(pan), strlen(pan), &got), answer);
    expect(what, got, listed);
}

/* Every number of a list is found, and none beside it; with one number more than there may
 * be, none is. Then the last number is as large as may be, too large, and not above the one
 * before it. */
static void counted_list(size_t n)
{
    static uint64_t list[GW_HOT_NUMBERS + 1];
    uint32_t refused = n > GW_HOT_NUMBERS ? 21 : 0;
    char pan[20];
    for (size_t i = 0; i < n; i++)
        list[i] = CARD + 2 * i;
    for (size_t i = 0; i <= 2 * n; i++) {
        snprintf(pan, sizeof pan, "%" PRIu64, CARD - 1 + i);
        asks(pan, list, n, 16, pan, refused, refused ? KEPT : i % 2);
    }
    list[n - 1] = SIXTEEN - 1;
    asks("the largest", list, n, 16, "9999999999999999", refused, refused ? KEPT : 1);
    list[n - 1] = SIXTEEN;
    asks("one too large", list, n, 16, W1, 21, KEPT);
    list[n - 1] = list[n - 2];
    asks("the last pair equal", list, n, 16, W1, 21, KEPT);
    list[n - 1] = SIXTEEN - 1;
    list[n / 2] = list[n / 2 - 1];
    asks("a pair in the middle equal", list, n, 16, W1, 21, KEPT);
    list[n / 2] = CARD + 2 * (n / 2);
    list[0] = list[1];
    asks("the first pair equal", list, n, 16, W1, 21, KEPT);
}

/* A swipe: its card, the acquirer's table by the letters of its records, how many of its
 * last bytes aren't lent, the hot list, the amount, and the answer. */
struct attempt {
    const char *what, *pan, *table;
    size_t cut;
    uint64_t list[2];
    size_t n;
    uint32_t length, amount, answer;
};

static const struct attempt attempts[] = {
    {"a listed card", W1, "w", 0, {CARD}, 1, 16, 250, 22},
    {"a card above those listed", W1, "w", 0, {1, CARD - 1}, 2, 16, 250, 0},
    {"a number listed for 17 digits", W1, "w", 0, {CARD}, 1, 17, 250, 0},
    {"an empty list", W1, "w", 0, {0}, 0, 13, 250, 0},
    {"a list that doesn't rise", W1, "w", 0, {CARD, CARD}, 2, 16, 250, 21},
    {"a number too large", W1, "w", 0, {CARD, SIXTEEN}, 2, 16, 250, 21},
    {"an empty list for 12 digits", W1, "w", 0, {0}, 0, 12, 250, 21},
    {"14 before 21", W1, "w", 1, {CARD, CARD}, 2, 16, 250, 14},
    {"21 before 17", W1, "w", 0, {CARD, CARD}, 2, 16, 0, 21},
    {"17 before 22", W1, "w", 0, {CARD}, 1, 16, 0, 17},
    {"4 before 22", "4111111111111112", "w", 0, {CARD + 1}, 1, 16, 250, 4},
    {"15 before 22", W1, "b", 0, {CARD}, 1, 16, 250, 15},
};

/* On either track a refusal leaves the journal and the numbers, and zeros the scratch. */
static void attempt(const struct attempt *a, const struct track *t)
{
    static const uint8_t zeros[76];
    struct stripe s = card_of(t, a->pan, "2512");
    uint8_t table[16], scratch[76], slot[32] = {0};
    struct gw_swipe_inputs in = paying(&s, scratch, slot, 32);
    in.acquirer = table;
    in.acquirer_n = put_table(table, a->table) - a->cut;
    in.hot = a->list;
    in.hot_n = a->n;
    in.hot_length = a->length;
    in.amount = a->amount;
    memset(scratch, 0x5a, sizeof scratch);
    struct swiped got = swiped(t, &in);
    expect(a->what, got.answer, a->answer);
    expect("its serial", got.serial, a->answer ? KEPT : 1);
    expect("its expiry", got.expires, a->answer ? KEPT : 1);
    expect("its days left", got.days, a->answer ? KEPT : 30);
    expect("its journal as it was", memcmp(slot, zeros, sizeof slot) == 0, a->answer != 0);
    expect("its scratch zero", memcmp(scratch, zeros, t->most) == 0, 1);
}

static void hot_lists(void)
{
    static const size_t counts[] = {2, 3, 4, 7, 8, 9, 8191, 8192, 8193};
    for (size_t i = 0; i < sizeof questions / sizeof questions[0]; i++) {
        const struct question *q = &questions[i];
        asks(q->what, q->list, q->n, q->length, q->pan, q->answer, q->listed);
    }
    for (size_t i = 0; i < sizeof counts / sizeof counts[0]; i++)
        counted_list(counts[i]);
    for (size_t i = 0; i < sizeof attempts / sizeof attempts[0]; i++) {
        attempt(&attempts[i], &track2);
        attempt(&attempts[i], &track1);
    }
}

/* ---- Dates -------------------------------------------------------------- */

/* A swipe of W1's card with an expiry, or with none, on a date: its answer, whether the card
 * expires, and the days left. Letters name what else is wrong with it:
 *   h the hot list doesn't rise     a the amount is 0            s the serials are used up
 *   f the journal is full           b there are no bits          c the check digit is wrong
 *   r no range fits                 l the card is listed */
struct dated {
    const char *what, *expiry;
    uint32_t year, month, day;
    const char *faults;
    uint32_t answer, expires, days;
};

#define REFUSED(number) (number), KEPT, KEPT

static const struct dated dated[] = {
    {"the last day", "2512", 2025, 12, 31, "", 0, 1, 0},
    {"the day before it", "2512", 2025, 12, 30, "", 0, 1, 1},
    {"the first of the month", "2512", 2025, 12, 1, "", 0, 1, 30},
    {"the day after", "2512", 2026, 1, 1, "", REFUSED(24)},
    {"the last of the month after", "2512", 2026, 1, 31, "", REFUSED(24)},
    {"a year after", "2512", 2026, 12, 31, "", REFUSED(24)},
    {"an earlier month of the next year", "2512", 2026, 3, 1, "", REFUSED(24)},
    {"a later month of the year before", "2503", 2024, 12, 31, "", 0, 1, 90},
    {"a year before", "2512", 2024, 12, 31, "", 0, 1, 365},
    {"a year with a leap day", "2412", 2023, 12, 31, "", 0, 1, 366},
    {"the last of April", "2504", 2025, 4, 30, "", 0, 1, 0},
    {"the first of May after it", "2504", 2025, 5, 1, "", REFUSED(24)},
    {"February of a leap year", "2402", 2024, 2, 28, "", 0, 1, 1},
    {"its 29th", "2402", 2024, 2, 29, "", 0, 1, 0},
    {"the day after that", "2402", 2024, 3, 1, "", REFUSED(24)},
    {"February of another year", "2302", 2023, 2, 28, "", 0, 1, 0},
    {"the day after it", "2302", 2023, 3, 1, "", REFUSED(24)},
    {"29 February 2000", "0002", 2000, 2, 29, "", 0, 1, 0},
    {"1 March 2000", "0002", 2000, 3, 1, "", REFUSED(24)},
    {"January 2000 to its end", "0001", 2000, 1, 1, "", 0, 1, 30},
    {"00 isn't 2100", "0001", 2099, 12, 31, "", REFUSED(24)},
    {"2000 to 2099", "9912", 2000, 1, 1, "", 0, 1, 36524},
    {"their last day", "9912", 2099, 12, 31, "", 0, 1, 0},
    {"their last February", "9902", 2099, 2, 28, "", 0, 1, 0},
    {"no expiry", "", 2025, 12, 31, "", 0, 0, KEPT},
    {"none in 2000", "", 2000, 1, 1, "", 0, 0, KEPT},
    {"none in 2099", "", 2099, 12, 31, "", 0, 0, KEPT},
    {"1999", "", 1999, 12, 31, "", REFUSED(23)},
    {"2100", "", 2100, 1, 1, "", REFUSED(23)},
    {"month 0", "", 2025, 0, 1, "", REFUSED(23)},
    {"month 13", "", 2025, 13, 1, "", REFUSED(23)},
    {"day 0", "", 2025, 1, 0, "", REFUSED(23)},
    {"day 32", "", 2025, 1, 32, "", REFUSED(23)},
    {"31 April", "", 2025, 4, 31, "", REFUSED(23)},
    {"31 November", "", 2025, 11, 31, "", REFUSED(23)},
    {"29 February 2023", "", 2023, 2, 29, "", REFUSED(23)},
    {"30 February 2024", "", 2024, 2, 30, "", REFUSED(23)},
    {"no date yet", "", 0, 0, 0, "", REFUSED(23)},
    {"a year and 2^16", "", 65536 + 2025, 12, 31, "", REFUSED(23)},
    {"a month and 2^8", "", 2025, 256 + 12, 31, "", REFUSED(23)},
    {"a day and 2^8", "", 2025, 12, 256 + 31, "", REFUSED(23)},
    {"the largest year", "", UINT32_MAX, 12, 31, "", REFUSED(23)},
    {"the largest month", "", 2025, UINT32_MAX, 31, "", REFUSED(23)},
    {"the largest day", "", 2025, 12, UINT32_MAX, "", REFUSED(23)},
    {"21 before 23", "2512", 2025, 2, 29, "h", REFUSED(21)},
    {"17 before 23", "2512", 2025, 2, 29, "a", REFUSED(17)},
    {"23 before 19", "2512", 2025, 2, 29, "s", REFUSED(23)},
    {"23 before 18", "2512", 2025, 2, 29, "f", REFUSED(23)},
    {"23 before 8", "2512", 2025, 2, 29, "b", REFUSED(23)},
    {"19 alone", "2512", 2025, 2, 28, "s", REFUSED(19)},
    {"18 alone", "2512", 2025, 2, 28, "f", REFUSED(18)},
    {"8 before 24", "2512", 2026, 1, 1, "b", REFUSED(8)},
    {"4 before 24", "2512", 2026, 1, 1, "c", REFUSED(4)},
    {"15 before 24", "2512", 2026, 1, 1, "r", REFUSED(15)},
    {"24 before 22", "2512", 2026, 1, 1, "l", REFUSED(24)},
    {"22 alone", "2512", 2025, 12, 31, "l", REFUSED(22)},
    {"22 without an expiry", "", 2025, 12, 31, "l", REFUSED(22)},
};

/* What is wrong with the inputs beside the date and the stripe. */
static void put_faults(struct gw_swipe_inputs *in, const char *faults)
{
    static const uint64_t list[2] = {CARD, CARD};
    in->hot = list;
    in->hot_n = strchr(faults, 'h') ? 2 : strchr(faults, 'l') ? 1 : 0;
    in->amount = strchr(faults, 'a') ? 0 : 250;
    in->bits = strchr(faults, 'b') ? 0 : in->bits;
    in->acquirer_n = strchr(faults, 'r') ? 0 : in->acquirer_n;
    if (strpbrk(faults, "sf"))
        memcpy(in->journal, w13, 32);
    if (strchr(faults, 's'))
        memset(in->journal, 0xff, 4);
}

static void swipes_on(const struct dated *d, const struct track *t)
{
    struct stripe s = card_of(t, strchr(d->faults, 'c') ? "4111111111111112" : W1, d->expiry);
    uint8_t table[16], scratch[76], slot[32] = {0};
    struct gw_swipe_inputs in = paying(&s, scratch, slot, 32);
    in.acquirer = table;
    in.acquirer_n = put_table(table, "w");
    in.year = d->year;
    in.month = d->month;
    in.day = d->day;
    put_faults(&in, d->faults);
    struct swiped got = swiped(t, &in);
    expect(d->what, got.answer, d->answer);
    expect("its serial", got.serial, d->answer ? KEPT : 1);
    expect("its expiry", got.expires, d->expires);
    expect("its days left", got.days, d->days);
}

static void dates(void)
{
    for (size_t i = 0; i < sizeof dated / sizeof dated[0]; i++) {
        swipes_on(&dated[i], &track2);
        swipes_on(&dated[i], &track1);
    }
}

/* ---- The walk, and the host --------------------------------------------- */

/* A step of the walk that checks once: the record's offset, and the serial to go on with. */
static void step(const uint8_t *slots, uint32_t serial, uint32_t at, uint32_t next)
{
    uint32_t got[2] = {99, 99};
    expect("a step", gw_walk_step(slots, 96, serial, &got[0], &got[1]), 0);
    expect("a step's offset", got[0], at);
    expect("the serial after", got[1], next);
}

/* Three slots, four payments, two released: the walk from the oldest held to the newest. */
static void walk(void)
{
    uint8_t slots[96] = {0};
    uint32_t serial = 0, at = 99, next = 99, count;
    uint64_t sum;
    for (int i = 0; i < 4; i++) {
        gw_journal_book(slots, 96, bytes("4111111111111111"), 16, 7, 250, 0, &serial);
        gw_journal_release(slots, 96, i < 2 ? (uint32_t)i + 1 : 1, &count, &sum);
    }
    expect("the walk's start", gw_walk_start(slots, 96, &serial), 0);
    expect("the oldest held", serial, 3);
    step(slots, 3, 64, 4);
    step(slots, 4, 0, 0);
    expect("a released one", gw_walk_step(slots, 96, 2, &at, &next), 20);
    expect("none such", gw_walk_step(slots, 96, 5, &at, &next), 20);
    expect("serial 0", gw_walk_step(slots, 96, 0, &at, &next), 20);
    slots[32] ^= 1; /* the released one's serial */
    expect("a malformed journal", gw_walk_start(slots, 96, &serial), 16);
    step(slots, 3, 64, 4);
    expect("a refusal's numbers", at == 99 && next == 99 && serial == 3, 1);
}

/* A message to a ledger, its answer, and the ledger that it leads to. */
struct ledger {
    uint32_t taken;
    uint64_t total;
};

static void hears(const char *what, const uint8_t *message, size_t n, struct ledger l,
                  uint32_t answer, struct ledger after)
{
    expect(what, gw_ledger_take(message, n, &l.taken, &l.total), answer);
    expect("its last serial taken", l.taken, after.taken);
    expect("its total", l.total == after.total, 1);
}

/* W13's record as a message: wanted by a fresh ledger alone. Around the last serial,
 * and at the bounds of what messages can have led to. */
static void ledger(void)
{
    const struct ledger fresh = {0, 0}, one = {1, 250}, two = {2, 500};
    const uint64_t most = UINT64_C(4294967295) * 4294967295;
    const struct ledger last = {UINT32_MAX, most}, before = {UINT32_MAX - 1, most - UINT32_MAX};
    uint8_t message[33];
    memcpy(message, w13, 32);
    message[32] = 0;
    hears("the first", message, 32, fresh, 0, one);
    hears("a repeat", message, 32, one, 0, one);
    hears("an earlier one", message, 32, two, 0, two);
    hears("31 bytes", message, 31, fresh, 6, fresh);
    hears("33 bytes", message, 33, fresh, 6, fresh);
    hears("no bytes", message, 0, one, 6, one);
    hears("a total too low", message, 32, (struct ledger){2, 1}, 6, (struct ledger){2, 1});
    hears("a total too high", message, 32, (struct ledger){0, 1}, 6, (struct ledger){0, 1});
    message[0] = 3;
    hears("a gap", message, 32, one, 0, one);
    hears("the next", message, 32, two, 0, (struct ledger){3, 750});
    memset(message, 0xff, 4);
    memset(message + 8, 0xff, 4);
    hears("the last serial", message, 32, before, 0, last);
    hears("it again", message, 32, last, 0, last);
    put_number(message, 4, 1);
    hears("and the first again", message, 32, last, 0, last);
    put_number(message, 4, 0);
    hears("serial 0", message, 32, last, 6, last);
}

/* A box and its host: the box releases by the answers alone, of which 0 meets 20. */
static void released_by_answers(void)
{
    uint8_t slots[64] = {0};
    uint32_t serial, taken = 0, count = 99;
    uint64_t total = 0, sum = 99;
    for (int i = 0; i < 2; i++)
        gw_journal_book(slots, 64, bytes("4111111111111111"), 16, 7, 250, 0, &serial);
    expect("the second is heard first", gw_ledger_take(slots + 32, 32, &taken, &total), 0);
    expect("an answer of 0", gw_journal_release(slots, 64, taken, &count, &sum), 20);
    expect("it does no harm", count == 99 && sum == 99 && slots[15] == 1 && slots[47] == 1, 1);
    expect("the first", gw_ledger_take(slots, 32, &taken, &total), 0);
    expect("the second again", gw_ledger_take(slots + 32, 32, &taken, &total), 0);
    expect("the last answer", gw_journal_release(slots, 64, taken, &count, &sum), 0);
    expect("both released", count == 2 && sum == total && total == 500, 1);
    expect("a released record", gw_ledger_take(slots, 32, &taken, &total), 6);
}

int main(void)
{
    expect("version", gw_version(), GW_VERSION);
    known_texts();
    track();
    long_tracks();
    track1_reads();
    flips();
    long_tracks1();
    masks();
    journal();
    swipe1(false);
    swipe1(true);
    range_tables();
    hot_lists();
    dates();
    walk();
    ledger();
    released_by_answers();
    printf("worked cases, cards of track 1, range tables, hot lists, dates, messages to the host: "
           "%s\n", wrong ? "WRONG" : "as written");
    return wrong ? 1 : 0;
}
