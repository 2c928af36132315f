/*
 * The benchmark's program: each call on fixed inputs, by the library, by the
 * reference (plain C at -O3) and by calls that do nothing, which cost what the
 * way to a call and back costs; track 2's reading also with bench/pairs.c in the
 * reference's place.
 *
 * Run by bench/run under bench/count.c. Standard output: `row LINE NAME SIZE
 * CALLS`, then of each side its answer and its deepest stack, and `input NAME SIZE
 * TEXT`; the three sides' counts have the numbers 3 * LINE + 1, + 2 and + 3.
 */
#include <stdio.h>
#include <string.h>
#include "cases.h"
#include "encode.h"
#include "mark.h"

door pairs_call, nothing_call;

static door *const sides[3] = {library_call, reference_call, nothing_call};
static door *const by_table[3] = {library_call, pairs_call, nothing_call};

static struct made made;
static struct lent lent;
static _Alignas(uint64_t) uint8_t space[BUFFERS][LONGEST];
static int line;
static unsigned held; /* records, in a row that is a whole walk */

/* ---- One row ------------------------------------------------------------ */

static void mark(long number)
{
    long answer;
    __asm__ volatile("syscall" : "=a"(answer) : "a"((long)MARK), "D"(number)
                     : "rcx", "r11", "memory");
}

static void lend_all(void)
{
    for (int b = 0; b < BUFFERS; b++) {
        memcpy(space[b], made.bytes[b], made.r.n[b]);
        lent.buffer[b] = space[b];
    }
}

/* The instructions of one call. */
static uint32_t count(door *call, int number)
{
    lend_all();
    mark(0);
    uint32_t answer = call(&made.r, &lent);
    mark(number);
    return answer;
}

enum { STACK = 65536, PAINT = 0x5a };

/* Call on a stack of its own. */
static void call_on(uint8_t *top, door *call)
{
    const struct request *r = &made.r;
    struct lent *l = &lent;
    __asm__ volatile("movq %%rsp, %%rbx\n\t"
                     "movq %2, %%rsp\n\t"
                     "call *%3\n\t"
                     "movq %%rbx, %%rsp"
                     : "+D"(r), "+S"(l)
                     : "r"(top), "r"(call)
                     : "rax", "rbx", "rcx", "rdx", "r8", "r9", "r10", "r11", "memory", "cc",
                       "xmm0", "xmm1", "xmm2", "xmm3", "xmm4", "xmm5", "xmm6", "xmm7", "xmm8",
                       "xmm9", "xmm10", "xmm11", "xmm12", "xmm13", "xmm14", "xmm15");
}

/* How far down a call writes its stack. */
static int deepest(door *call)
{
    static _Alignas(16) uint8_t stack[STACK];
    memset(stack, PAINT, STACK);
    lend_all();
    call_on(stack + STACK, call);
    int at = 0;
    while (at < STACK && stack[at] == PAINT)
        at++;
    return STACK - at;
}

/* A row: what each side does is one call, or as many as a whole walk takes. */
static void measure(const char *name, unsigned size, unsigned calls, door *const does[3])
{
    printf("row %d %s %u %u", line, name, size, calls);
    for (int s = 0; s < 3; s++) {
        uint32_t answer = count(does[s], 3 * line + s + 1);
        printf(" %u %d", answer, deepest(does[s]));
    }
    printf("\n");
    line++;
}

static void row(const char *name, unsigned size)
{
    measure(name, size, 1, sides);
}

/* ---- Inputs ------------------------------------------------------------- */

static const char pan[] = "4111111111111111";
static const char card[] = "4111111111111111=2512101";
static const char card1[] = "B4111111111111111^DOE/JANE^2512101";

/* Each track with as many characters between its sentinels as it can have. */
static const char full_track2[] = ";4111111111111111=25121010000000000000?";
static const char full_track1[] =
    "%B4111111111111111^ABCDEFGHIJKLMNOPQRSTUVWXYZ^2512101FLEET 0123456789 ABCDEFG?";
static const char no_expiry[] = ";4111111111111111==1010000000000000000?";

static void start(enum call call)
{
    memset(&made.r, 0, sizeof made.r);
    made.r.call = call;
    made.r.label = 7;
    made.r.amount = 250;
    made.r.year = 2025;
    made.r.month = 12;
    made.r.day = 24;
}

static void lend_text(int buffer, const char *text)
{
    made.r.n[buffer] = strlen(text);
    memcpy(made.bytes[buffer], text, made.r.n[buffer]);
}

static void text_row(const char *name, enum call call, const char *first, const char *second)
{
    start(call);
    lend_text(0, first);
    lend_text(1, second);
    printf("input %s 0 %s %s\n", name, first, call == PAN_MASK ? "" : second);
    row(name, 0);
}

static void text_rows(void)
{
    text_row("luhn_test", LUHN_TEST, pan, "");
    text_row("luhn_make", LUHN_MAKE, "411111111111111", "");
    text_row("pan_mask", PAN_MASK, pan, pan);
    text_row("layout_read", LAYOUT_READ, card, "");
    text_row("layout1_read", LAYOUT1_READ, card1, "");
    text_row("creditor_test", CREDITOR_TEST, "RF18539007547034", "");
    text_row("creditor_make", CREDITOR_MAKE, "539007547034", "");
    text_row("iban_test.DE", IBAN_TEST, "DE89370400440532013000", "");
    text_row("iban_test.GB", IBAN_TEST, "GB82WEST12345698765432", "");
    text_row("iban_test.MT", IBAN_TEST, "MT84MALT011000012345MTLCAST001S", "");
    text_row("iban_make.DE", IBAN_MAKE, "DE", "370400440532013000");
}

static const char *full_track(const struct track *t)
{
    return t == &track1 ? full_track1 : full_track2;
}

/* A full track in buffer 0: sixteen zeros, the characters with their LRC, sixteen
 * zeros. */
static void lend_track(const struct track *t, const char *chars, bool reversed)
{
    uint8_t stream[80] = {0};
    put_track(t, stream + 2, chars);
    made.r.bits = 16 + t->width * (t->most + 3) + 16;
    made.r.n[0] = (made.r.bits + 7) / 8;
    memset(made.bytes[0], 0, made.r.n[0]);
    for (size_t i = 0; i < made.r.bits; i++) {
        size_t to = reversed ? made.r.bits - 1 - i : i;
        made.bytes[0][to / 8] |= (uint8_t)((stream[i / 8] >> i % 8 & 1) << to % 8);
    }
}

static void track_row(const char *name, const struct track *t, bool reversed,
                      door *const does[3])
{
    start(t == &track1 ? TRACK1_READ : TRACK2_READ);
    lend_track(t, full_track(t), reversed);
    made.r.n[1] = t->most;
    printf("input %s 0 %s with LRC, sixteen zeros before and after%s\n", name, full_track(t),
           reversed ? ", last bit first" : "");
    measure(name, 0, 1, does);
}

static void track_rows(void)
{
    track_row("track2_read.forward", &track2, false, sides);
    track_row("track2_read.reversed", &track2, true, sides);
    track_row("track2_read.forward.same_table", &track2, false, by_table);
    track_row("track2_read.reversed.same_table", &track2, true, by_table);
    track_row("track1_read.forward", &track1, false, sides);
    track_row("track1_read.reversed", &track1, true, sides);
}

/* A table whose last record alone fits; the others lie below and above in turn. */
static void lend_table(int buffer, unsigned records)
{
    made.r.n[buffer] = 16 * (size_t)records;
    for (unsigned i = 0; i < records; i++) {
        uint32_t low = i % 2 ? 50000000 + i : 30000000 + i;
        struct range r = {low, low, 7, 13, 19};
        if (i + 1 == records)
            r = (struct range){40000000, 49999999, 7, 13, 19};
        put_range(made.bytes[buffer] + 16 * (size_t)i, &r);
    }
}

/* A table all of whose records fit, each inside the one before it. */
static void lend_nest(int buffer, unsigned records)
{
    made.r.n[buffer] = 16 * (size_t)records;
    for (unsigned i = 0; i < records; i++) {
        uint32_t beside = records - 1 - i;
        struct range r = {41111111 - beside, 41111111 + beside, 7, 13, 19};
        put_range(made.bytes[buffer] + 16 * (size_t)i, &r);
    }
}

static void range_row(const char *name, unsigned records, void (*lend)(int, unsigned),
                      const char *what)
{
    start(RANGE_FIND);
    lend(1, records);
    lend_text(2, pan);
    printf("input %s %u %s; no site's table; %s\n", name, records, pan, what);
    row(name, records);
}

static void range_rows(unsigned records)
{
    range_row("range_find", records, lend_table, "the acquirer's last record alone fits");
    range_row("range_find.all_fit", records, lend_nest,
              "all the acquirer's records fit, each narrower than the one before it");
}

/* A hot list for 16 digits, of the card's number and those behind it; or of the latter
 * alone. No number takes more looks to find than the first one. */
static void lend_hot_list(int buffer, unsigned numbers, bool listed)
{
    uint64_t first = UINT64_C(4111111111111111) + !listed;
    made.r.hot_length = 16;
    made.r.n[buffer] = 8 * (size_t)numbers;
    for (unsigned i = 0; i < numbers; i++)
        put_number(made.bytes[buffer] + 8 * (size_t)i, 8, first + i);
}

static void hot_row(const char *name, unsigned numbers, bool listed, const char *what)
{
    start(HOT_FIND);
    lend_hot_list(0, numbers, listed);
    lend_text(1, pan);
    printf("input %s %u %s, %s\n", name, numbers, pan, what);
    row(name, numbers);
}

static void hot_rows(void)
{
    static const unsigned numbers[] = {1, 8192};
    hot_row("hot_find.empty", 0, false, "and an empty list");
    for (int i = 0; i < 2; i++) {
        hot_row("hot_find.listed", numbers[i], true, "the first number of the list");
        hot_row("hot_find.unlisted", numbers[i], false, "below all numbers of the list");
    }
}

/* A journal that has wrapped, its newest records held, the others released. */
static uint32_t lend_journal(int buffer, unsigned slots, unsigned newer)
{
    uint32_t newest = slots + slots / 2;
    made.r.n[buffer] = (size_t)slots * SLOT;
    for (uint32_t s = newest - slots + 1; s <= newest; s++) {
        struct record r = {s, 1000 + s, 250, 7, 16, s > newest - newer ? 1 : 2};
        put_record(made.bytes[buffer] + (size_t)((s - 1) % slots) * SLOT, &r,
                   (const uint8_t *)"4111111111");
    }
    return newest;
}

static void print_journal(const char *name, unsigned slots, const char *beside)
{
    printf("input %s %u wrapped, older half released, newer half held%s\n", name, slots, beside);
}

static void journal_row(const char *name, enum call call, unsigned slots)
{
    start(call);
    uint32_t newest = lend_journal(0, slots, slots / 2), before = newest - slots / 2;
    made.r.serial = call == JOURNAL_WALK ? before : call == WALK_STEP ? before + 1 : newest;
    if (call == JOURNAL_BOOK)
        lend_text(1, pan);
    else if (call == JOURNAL_SURVEY)
        made.r.n[1] = slots;
    print_journal(name, slots, call == JOURNAL_BOOK ? "; 4111111111111111, amount 250" :
                  call == JOURNAL_RELEASE ? "; up to the newest" : "");
    row(name, slots);
}

/* A whole walk by gw_journal_walk: a call for each held record, and one that says done. */
static uint32_t walk_anew(door *call, const struct request *r, struct lent *l)
{
    struct request step = *r;
    uint32_t answer = 0;
    step.call = JOURNAL_WALK;
    for (unsigned i = 0; i <= held; i++, step.serial = l->word[0])
        answer |= call(&step, l);
    return answer | l->word[0];
}

/* A whole walk by gw_walk_start, and gw_walk_step for each held record. */
static uint32_t walk_once(door *call, const struct request *r, struct lent *l)
{
    struct request step = *r;
    step.call = WALK_START;
    uint32_t answer = call(&step, l);
    step.call = WALK_STEP;
    step.serial = l->word[0];
    for (unsigned i = 0; i < held; i++, step.serial = l->word[1])
        answer |= call(&step, l);
    return answer | l->word[1];
}

#define WALK(name, side, walk)                                       \
    static uint32_t name(const struct request *r, struct lent *l)    \
    {                                                                \
        return walk(side, r, l);                                     \
    }
WALK(library_anew, library_call, walk_anew)
WALK(reference_anew, reference_call, walk_anew)
WALK(nothing_anew, nothing_call, walk_anew)
WALK(library_once, library_call, walk_once)
WALK(reference_once, reference_call, walk_once)
WALK(nothing_once, nothing_call, walk_once)

/* Whole walks over a journal that is full. */
static void walk_rows(unsigned slots)
{
    static door *const anew[3] = {library_anew, reference_anew, nothing_anew};
    static door *const once[3] = {library_once, reference_once, nothing_once};
    start(JOURNAL_WALK);
    memset(&lent, 0, sizeof lent);
    lend_journal(0, slots, slots);
    held = slots;
    printf("input walk.anew %u all held: gw_journal_walk until it says done\n", slots);
    measure("walk.anew", slots, slots + 1, anew);
    memset(&lent, 0, sizeof lent);
    printf("input walk.once %u all held: gw_walk_start, and gw_walk_step until it says done\n",
           slots);
    measure("walk.once", slots, slots + 1, once);
}

/* A record of a serial and a state as a message to a ledger that has taken 1,000
 * payments of 250 each. */
static void ledger_row(const char *name, uint32_t serial, uint8_t state, const char *what)
{
    struct record r = {serial, 1000 + serial, 250, 7, 16, state};
    start(LEDGER_TAKE);
    made.r.taken = 1000;
    made.r.total = 250000;
    made.r.n[0] = SLOT;
    put_record(made.bytes[0], &r, (const uint8_t *)"4111111111");
    printf("input %s 0 1,000 taken; serial %u, %s\n", name, (unsigned)serial, what);
    row(name, 0);
}

static void ledger_rows(void)
{
    ledger_row("ledger_take.wanted", 1001, 1, "held");
    ledger_row("ledger_take.repeat", 1000, 1, "held");
    ledger_row("ledger_take.refused", 1001, 2, "released");
}

/* A swipe of a card, which isn't on the hot list. */
static void card_row(const char *name, const struct track *t, const char *chars, bool reversed,
                     unsigned slots, unsigned numbers)
{
    start(t == &track1 ? SWIPE1 : SWIPE);
    lend_track(t, chars, reversed);
    lend_table(2, 16);
    lend_hot_list(3, numbers, false);
    made.r.n[4] = t->most;
    lend_journal(5, slots, slots / 2);
    char rest[160];
    snprintf(rest, sizeof rest, "; the full track%s, the 16 records, a hot list of %u numbers, "
             "amount 250, 24 December 2025", chars == no_expiry ? ", = for its expiry" : "",
             numbers);
    print_journal(name, slots, rest);
    row(name, slots);
}

static void swipe_row(const char *name, const struct track *t, bool reversed, unsigned slots,
                      unsigned numbers)
{
    card_row(name, t, full_track(t), reversed, slots, numbers);
}

static void journal_rows(unsigned slots)
{
    journal_row("journal_book", JOURNAL_BOOK, slots);
    journal_row("journal_release", JOURNAL_RELEASE, slots);
    journal_row("journal_show", JOURNAL_SHOW, slots);
    journal_row("journal_tell", JOURNAL_TELL, slots);
    journal_row("journal_walk", JOURNAL_WALK, slots);
    journal_row("walk_start", WALK_START, slots);
    journal_row("walk_step", WALK_STEP, slots);
    journal_row("journal_survey", JOURNAL_SURVEY, slots);
    swipe_row("swipe", &track2, false, slots, 0);
    swipe_row("swipe.reversed", &track2, true, slots, 0);
    swipe_row("swipe1", &track1, false, slots, 0);
    swipe_row("swipe1.reversed", &track1, true, slots, 0);
}

int main(void)
{
    static const unsigned records[] = {16, 64, 256, 1024, 4096};
    static const unsigned slots[] = {16, 64, 256, 1024, 2048};
    text_rows();
    track_rows();
    ledger_rows();
    for (int i = 0; i < 5; i++)
        range_rows(records[i]);
    hot_rows();
    for (int i = 0; i < 5; i++)
        journal_rows(slots[i]);
    swipe_row("swipe.hot_list", &track2, false, 16, 8192);
    card_row("swipe.no_expiry", &track2, no_expiry, false, 16, 0);
    walk_rows(16);
    walk_rows(2048);
    return 0;
}
