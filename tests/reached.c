#include <inttypes.h>
#include <stdio.h>
#include "cases.h"
#include "reached.h"

/* The numbers 0 to 24, and one place for any other, which no call may answer. */
enum { REASONS = 25, OTHER = REASONS, NUMBERS, BITS = 4100 };

const char *const call_names[CALLS] = {
    "version", "luhn_test", "luhn_make", "pan_mask", "range_find", "hot_find", "track2_read",
    "layout_read", "track1_read", "layout1_read", "iban_test", "iban_make", "creditor_test",
    "creditor_make", "ledger_take", "journal_book", "journal_release", "journal_show",
    "journal_tell", "journal_walk", "walk_start", "walk_step", "journal_survey", "swipe",
    "swipe1",
};

/* The reasons that the paper gives for each call, a bit for each number. */
#define R(n) (UINT32_C(1) << (n))
#define READING (R(7) | R(8) | R(9) | R(10) | R(11) | R(12) | R(13))
#define SWIPING (R(1) | R(4) | R(6) | READING | R(14) | R(15) | R(16) | R(17) | R(18) | R(19) \
                 | R(21) | R(22) | R(23) | R(24))
static const uint32_t call_reasons[CALLS] = {
    [LUHN_TEST] = R(2) | R(3) | R(4), [LUHN_MAKE] = R(2) | R(3),
    [PAN_MASK] = R(1) | R(2) | R(3), [RANGE_FIND] = R(2) | R(3) | R(14) | R(15),
    [HOT_FIND] = R(2) | R(3) | R(21),
    [TRACK2_READ] = R(1) | READING, [LAYOUT_READ] = R(6),
    [TRACK1_READ] = R(1) | READING, [LAYOUT1_READ] = R(6),
    [IBAN_TEST] = R(2) | R(3) | R(4) | R(5) | R(6), [IBAN_MAKE] = R(2) | R(3) | R(5) | R(6),
    [CREDITOR_TEST] = R(2) | R(3) | R(4) | R(6), [CREDITOR_MAKE] = R(2) | R(3),
    [LEDGER_TAKE] = R(6),
    [JOURNAL_BOOK] = R(2) | R(3) | R(4) | R(16) | R(17) | R(18) | R(19),
    [JOURNAL_RELEASE] = R(16) | R(20), [JOURNAL_SHOW] = R(16) | R(20), [JOURNAL_TELL] = R(16),
    [JOURNAL_WALK] = R(16), [WALK_START] = R(16), [WALK_STEP] = R(20),
    [JOURNAL_SURVEY] = R(1) | R(16),
    [SWIPE] = SWIPING, [SWIPE1] = SWIPING,
};

/* The lengths, first to last by a step, that a lent buffer must have had. */
struct lengths {
    enum call call;
    int buffer;
    size_t first, last, step;
};

static const struct lengths call_lengths[] = {
    {LUHN_TEST, 0, 0, 43, 1}, {LUHN_MAKE, 0, 0, 42, 1},
    {PAN_MASK, 0, 0, 22, 1}, {PAN_MASK, 1, 0, 22, 1},
    {RANGE_FIND, 0, 0, 66, 1}, {RANGE_FIND, 0, 65520, 65552, 16}, {RANGE_FIND, 0, 65535, 65537, 1},
    {RANGE_FIND, 1, 0, 66, 1}, {RANGE_FIND, 1, 65520, 65552, 16}, {RANGE_FIND, 1, 65535, 65537, 1},
    {RANGE_FIND, 0, 256, 1024, 16}, {RANGE_FIND, 1, 256, 1024, 16}, {RANGE_FIND, 2, 0, 22, 1},
    {HOT_FIND, 0, 0, 800, 8}, {HOT_FIND, 0, 65528, 65544, 8}, {HOT_FIND, 1, 0, 22, 1},
    {TRACK2_READ, 0, 0, 39, 1}, {TRACK2_READ, 0, 511, 513, 1}, {TRACK2_READ, 1, 0, 44, 1},
    {LAYOUT_READ, 0, 0, 37, 1},
    {TRACK1_READ, 0, 0, 80, 1}, {TRACK1_READ, 0, 511, 513, 1}, {TRACK1_READ, 1, 0, 83, 1},
    {LAYOUT1_READ, 0, 0, 78, 1},
    {IBAN_TEST, 0, 0, 37, 1}, {IBAN_MAKE, 0, 0, 4, 1}, {IBAN_MAKE, 1, 0, 33, 1},
    {CREDITOR_TEST, 0, 0, 28, 1}, {CREDITOR_MAKE, 0, 0, 24, 1}, {LEDGER_TAKE, 0, 0, 65, 1},
    {JOURNAL_BOOK, 0, 0, 65, 1}, {JOURNAL_BOOK, 0, 65504, 65568, 32},
    {JOURNAL_BOOK, 0, 65535, 65537, 1}, {JOURNAL_BOOK, 1, 0, 22, 1},
    {JOURNAL_RELEASE, 0, 0, 65, 1}, {JOURNAL_RELEASE, 0, 65504, 65568, 32},
    {JOURNAL_SHOW, 0, 0, 65, 1}, {JOURNAL_SHOW, 0, 65504, 65568, 32},
    {JOURNAL_TELL, 0, 0, 65, 1}, {JOURNAL_TELL, 0, 65504, 65568, 32},
    {JOURNAL_WALK, 0, 0, 65, 1}, {JOURNAL_WALK, 0, 65504, 65568, 32},
    {WALK_START, 0, 0, 65, 1}, {WALK_START, 0, 65504, 65568, 32},
    {WALK_STEP, 0, 0, 65, 1}, {WALK_STEP, 0, 65504, 65568, 32},
    {JOURNAL_SURVEY, 0, 0, 65, 1}, {JOURNAL_SURVEY, 0, 65504, 65568, 32},
    {JOURNAL_SURVEY, 1, 0, 42, 1}, {JOURNAL_SURVEY, 1, 2047, 2049, 1},
    {SWIPE, 1, 0, 66, 1}, {SWIPE, 1, 65520, 65552, 16}, {SWIPE, 2, 65535, 65537, 1},
    {SWIPE, 1, 256, 1024, 16}, {SWIPE, 2, 256, 1024, 16},
    {SWIPE, 3, 0, 800, 8}, {SWIPE, 3, 65528, 65544, 8},
    {SWIPE, 4, 0, 40, 1}, {SWIPE, 5, 0, 65, 1}, {SWIPE, 5, 65504, 65568, 32},
    {SWIPE1, 1, 0, 66, 1}, {SWIPE1, 1, 65520, 65552, 16}, {SWIPE1, 2, 65535, 65537, 1},
    {SWIPE1, 1, 256, 1024, 16}, {SWIPE1, 2, 256, 1024, 16},
    {SWIPE1, 3, 0, 800, 8}, {SWIPE1, 3, 65528, 65544, 8},
    {SWIPE1, 4, 0, 79, 1}, {SWIPE1, 5, 0, 65, 1}, {SWIPE1, 5, 65504, 65568, 32},
};

static uint64_t reached[CALLS][NUMBERS];
static bool had_length[CALLS][BUFFERS][LONGEST];
static bool had_bits[CALLS][BITS];

void note_reached(const struct request *r, uint32_t answer)
{
    if (r->call != VERSION)
        reached[r->call][answer < REASONS ? answer : OTHER]++;
    for (int b = 0; b < BUFFERS; b++)
        had_length[r->call][b][r->n[b]] = true;
    if (r->bits < BITS)
        had_bits[r->call][r->bits] = true;
}

static bool expected(enum call call, int number)
{
    return number == 0 || call_reasons[call] & R(number);
}

/* One number that a call answers, or may not answer. */
static bool number_fits(enum call call, int n)
{
    if (expected(call, n) == (reached[call][n] > 0))
        return true;
    printf("%s: %s%d %s\n", call_names[call], n == OTHER ? "a number from " : "", n,
           expected(call, n) ? "never reached" : "isn't among its answers");
    return false;
}

static uint64_t print_call(enum call call)
{
    uint64_t calls = 0;
    printf("%-16s", call_names[call]);
    for (int n = 0; n < NUMBERS; n++) {
        calls += reached[call][n];
        if (expected(call, n))
            printf(" %d:%" PRIu64, n, reached[call][n]);
    }
    printf("\n");
    return calls;
}

static void print_refusal(int number)
{
    uint64_t times = 0;
    for (int call = 0; call < CALLS; call++)
        times += reached[call][number];
    printf(" %d:%" PRIu64, number, times);
}

uint64_t print_reached(void)
{
    uint64_t calls = 0;
    printf("answers of each call, 0 and its refusals, and how often each was reached:\n");
    for (int call = VERSION + 1; call < CALLS; call++)
        calls += print_call(call);
    printf("refusals in all:");
    for (int n = 1; n < REASONS; n++)
        print_refusal(n);
    printf("\n");
    return calls;
}

bool refusals_reached(void)
{
    bool all = true;
    for (int call = VERSION + 1; call < CALLS; call++)
        for (int n = 0; n < NUMBERS; n++)
            all = number_fits(call, n) && all;
    return all;
}

static bool run_reached(const struct lengths *l)
{
    bool all = true;
    for (size_t n = l->first; n <= l->last; n += l->step)
        if (!had_length[l->call][l->buffer][n]) {
            printf("%s: buffer %d never had %zu bytes\n", call_names[l->call], l->buffer, n);
            all = false;
        }
    return all;
}

/* The counts up to a full track and some zeros around it, and those at the bound. */
static bool bits_reached(enum call call, int full)
{
    bool all = true;
    for (int bits = 0; bits < BITS; bits++) {
        bool asked = bits < full || (bits >= 4094 && bits <= 4097);
        if (asked && !had_bits[call][bits]) {
            printf("%s: never %d bits\n", call_names[call], bits);
            all = false;
        }
    }
    return all;
}

bool lengths_reached(void)
{
    bool all = bits_reached(TRACK2_READ, 250) & bits_reached(SWIPE, 250)
             & bits_reached(TRACK1_READ, 600) & bits_reached(SWIPE1, 600);
    for (size_t i = 0; i < sizeof call_lengths / sizeof call_lengths[0]; i++)
        all = run_reached(&call_lengths[i]) && all;
    return all;
}
