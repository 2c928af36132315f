/*
 * Hold the library against the reference, case by case.
 *
 *   compare [--seed S] [--cases N]     run cases 0 to N - 1
 *   compare --seed S --case K          run one case alone and print it
 *
 * Compared are the answer, every number behind a pointer, every lent byte, and
 * the bytes before each lent buffer. Exit status: 0 no difference, 1 a
 * difference, 2 something else.
 */
#include <inttypes.h>
#include <signal.h>
#include <stdio.h>
#include <stdlib.h>
#include <string.h>
#include <unistd.h>
#include "cases.h"
#include "dates.h"
#include "hots.h"
#include "lent.h"
#include "reached.h"
#include "shapes.h"
#include "tables.h"

enum {
    STREAMS = 8, STEPS = 48, HISTORY = CALLS, KINDS = CALLS + 1, PATIENCE = 60, ENOUGH = 1000000
};

/* How many buffers each call is lent. */
static const int call_buffers[CALLS] = {0, 1, 1, 2, 3, 2, 2, 1, 2, 1, 1, 2, 1, 1, 1, 2, 1, 1,
                                        1, 1, 1, 1, 2, 6, 6};

static uint64_t seed = 1;
static uint64_t case_number;
static const char *under_way = "";
static struct made made;
static struct lent lent[SIDES];
static uint32_t answers[SIDES];

/* ---- Printing ----------------------------------------------------------- */

static void print_bytes(const char *name, int i, const uint8_t *s, size_t n)
{
    printf("  %s %d, %zu bytes:", name, i, n);
    for (size_t k = 0; k < n; k++)
        printf("%s%02x", k % 32 ? " " : "\n    ", s[k]);
    printf("\n");
}

static void print_request(void)
{
    const struct request *r = &made.r;
    printf("gw_%s\n", call_names[r->call]);
    printf("  bits %" PRIu64 ", PAN length of the hot list %" PRIu32 ", serial %" PRIu32
           ", amount %" PRIu32 ", date %" PRIu32 " %" PRIu32 " %" PRIu32 ", clock %" PRIu32
           ", label %u, taken %" PRIu32 ", total %" PRIu64 "\n", r->bits, r->hot_length, r->serial,
           r->amount, r->year, r->month, r->day, r->clock, r->label, r->taken, r->total);
    for (int b = 0; b < call_buffers[r->call]; b++)
        print_bytes("lent", b, made.bytes[b], r->n[b]);
}

static void print_answer(enum side side)
{
    const struct lent *l = &lent[side];
    printf("%s answers %" PRIu32 "; numbers", side == LIBRARY ? "the library" : "the reference",
           answers[side]);
    for (int w = 0; w < WORDS; w++)
        printf(" %" PRIu32, l->word[w]);
    printf(", sum %" PRIu64 ", digit %u\n", l->sum, l->digit);
    for (int b = 0; b < call_buffers[made.r.call]; b++)
        if (memcmp(l->buffer[b], made.bytes[b], made.r.n[b]) != 0)
            print_bytes("changed", b, l->buffer[b], made.r.n[b]);
}

static void print_again(void)
{
    printf("run it again alone: compare --seed %" PRIu64 " --case %" PRIu64 "\n", seed,
           case_number);
}

static void print_all(void)
{
    print_request();
    for (int s = 0; s < SIDES; s++)
        print_answer(s);
}

/* A call that touched what it wasn't lent, or didn't end. */
static void stopped(int signal)
{
    printf("%s: %s\n", under_way,
           signal == SIGALRM ? "a call that doesn't end" : "a byte touched that wasn't lent");
    print_request();
    print_again();
    fflush(stdout);
    _exit(1);
}

/* ---- Comparing ---------------------------------------------------------- */

static void ask(enum side side, door *call, uint32_t mark)
{
    struct lent *l = &lent[side];
    under_way = side == LIBRARY ? "the library" : "the reference";
    for (int b = 0; b < BUFFERS; b++)
        l->buffer[b] = lend(side, b, made.bytes[b], made.r.n[b]);
    for (int w = 0; w < WORDS; w++)
        l->word[w] = mark + (uint32_t)w;
    l->sum = mark;
    l->digit = (uint8_t)mark;
    answers[side] = call(&made.r, l);
}

static bool same_buffer(int b)
{
    const uint8_t *one = lent[LIBRARY].buffer[b], *other = lent[REFERENCE].buffer[b];
    return memcmp(one, other, made.r.n[b]) == 0 && untouched_before(one)
        && untouched_before(other);
}

static bool same(void)
{
    const struct lent *l = &lent[LIBRARY], *r = &lent[REFERENCE];
    bool agree = answers[LIBRARY] == answers[REFERENCE] && l->sum == r->sum
              && l->digit == r->digit && memcmp(l->word, r->word, sizeof l->word) == 0;
    for (int b = 0; b < BUFFERS; b++)
        agree = agree && same_buffer(b);
    return agree;
}

/* Ask both sides. */
static bool compare(bool print)
{
    uint32_t mark = (uint32_t)draw();
    ask(LIBRARY, library_call, mark);
    ask(REFERENCE, reference_call, mark);
    note_reached(&made.r, answers[REFERENCE]);
    note_shape(&made.r, &lent[REFERENCE], answers[REFERENCE]);
    note_tables(&made.r, &lent[REFERENCE], answers[REFERENCE]);
    note_hot_list(&made.r, &lent[REFERENCE], answers[REFERENCE]);
    note_date(&made.r, &lent[REFERENCE], answers[REFERENCE]);
    bool agree = same();
    if (!agree)
        printf("A CASE THAT DIFFERS\n");
    if (print || !agree)
        print_all();
    return agree;
}

/* A history: calls one after another on the journal as the library left it. */
static bool compare_history(bool print)
{
    static uint8_t journal[LONGEST];
    make_first_journal(&made);
    size_t n = made.r.n[0];
    memcpy(journal, made.bytes[0], n);
    for (int i = 0; i < STEPS; i++) {
        make_next_request(&made, journal, n);
        if (!compare(print))
            return false;
        memcpy(journal, lent[LIBRARY].buffer[journal_buffer(made.r.call)], n);
    }
    return true;
}

/* One request; of a track eight, for its streams have the most shapes. */
static bool compare_call(enum call call, bool print)
{
    bool track = call == TRACK2_READ || call == TRACK1_READ, agree = true;
    for (int i = 0; agree && i < (track ? STREAMS : 1); i++) {
        make_request(&made, call);
        agree = compare(print);
    }
    return agree;
}

static bool run_case(uint64_t number, bool print)
{
    case_number = number;
    begin_case(seed, number);
    if (number % KINDS == HISTORY)
        return compare_history(print);
    return compare_call((enum call)(number % KINDS), print);
}

/* ---- Running ------------------------------------------------------------ */

/* What was reached; lengths, shapes, tables, hot lists and dates too, where cases enough were
 * run for them. All five are asked, so that each prints what is missing. */
static bool report(uint64_t cases)
{
    uint64_t calls = print_reached();
    printf("%" PRIu64 " cases, %" PRIu64 " calls compared, seed %" PRIu64 ": no difference\n",
           cases, calls, seed);
    return refusals_reached()
        && (cases < ENOUGH || (lengths_reached() & shapes_reached() & tables_reached()
                               & hot_lists_reached() & dates_reached()));
}

static bool run_cases(uint64_t cases)
{
    for (uint64_t i = 0; i < cases; i++) {
        if (i % 1024 == 0)
            alarm(PATIENCE);
        if (!run_case(i, false)) {
            print_again();
            return false;
        }
    }
    return report(cases);
}

static void usage(void)
{
    fprintf(stderr, "usage: compare [--seed S] [--cases N | --case K]\n");
    exit(2);
}

int main(int argc, char **argv)
{
    uint64_t cases = ENOUGH, alone = UINT64_MAX;
    for (int i = 1; i < argc; i += 2) {
        if (i + 1 == argc)
            usage();
        uint64_t v = strtoull(argv[i + 1], NULL, 10);
        if (strcmp(argv[i], "--seed") == 0)
            seed = v;
        else if (strcmp(argv[i], "--cases") == 0)
            cases = v;
        else if (strcmp(argv[i], "--case") == 0)
            alone = v;
        else
            usage();
    }
    signal(SIGSEGV, stopped);
    signal(SIGBUS, stopped);
    signal(SIGALRM, stopped);
    open_pages();
    printf("seed %" PRIu64 "\n", seed);
    bool fine = alone == UINT64_MAX ? run_cases(cases) : run_case(alone, true);
    return fine ? 0 : 1;
}
