/*
 * A box and its host as two processes, and the radio between them.
 *
 *   radio [--seed S] [--payments N] [--slots K]
 *
 * The box has a journal of K slots. It books and swipes until N payments are booked,
 * sends held records, and releases by the host's answers alone. The host has a ledger,
 * and answers. Neither hears of the other but by this program, the radio: by the seed
 * it loses, repeats and delays whole messages, so that they come out of order, and lets
 * the host hear noise. It sees both sides' books too, and holds them against each other
 * after whatever happens. Once all is booked it loses nothing more, and goes on until
 * the box holds nothing and nothing is under way; then the books must be equal. Without
 * --slots there are five journals, one after another.
 *
 * -DWRONG_HOST=k makes one of the wrong hosts that the tests must catch. Exit status:
 * 0 the books are equal; 1 they differ, or the host answers otherwise than it should; 2
 * something else, such as a run that stalls, which says nothing of the books.
 */
#define _DEFAULT_SOURCE
#include <inttypes.h>
#include <signal.h>
#include <stdio.h>
#include <stdlib.h>
#include <string.h>
#include <sys/socket.h>
#include <sys/wait.h>
#include <time.h>
#include <unistd.h>
#include "cases.h"
#include "encode.h"
#include "goltwarden.h"

#ifndef WRONG_HOST
#define WRONG_HOST 0
#endif

enum { ANSWER = 4, BYTES = 64, UNDER_WAY = 4096, PATIENCE = 200000, SECONDS = 5 };

struct message {
    uint32_t n;
    uint8_t bytes[BYTES];
};

/* What a side has in its books. */
struct books {
    uint32_t booked, held, refused, zeros; /* the box's; answers of 0 that met 20 */
    uint64_t booked_sum, held_sum, released_sum;
    uint32_t taken; /* the host's */
    uint64_t total;
};

/* What a side does on a message: perhaps it sends one. */
struct report {
    bool sends;
    struct message sent;
    struct books books;
};

typedef void side(const struct message *, struct report *);

static uint64_t seed = 1, payments = 2500, slots;

/* ---- The box ------------------------------------------------------------ */

static uint8_t journal[GW_JOURNAL_SLOTS * SLOT];

static void box_stops(const char *what, uint32_t refusal)
{
    printf("the box: %s, refused with %" PRIu32 "\n", what, refusal);
    fflush(stdout);
    _exit(1);
}

/* The clock runs, and is back at the epoch now and then. */
static uint32_t read_clock(void)
{
    static uint32_t clock;
    return clock = one_in(300) ? 0 : clock + below(100);
}

/* The date that the host sent: it goes on whatever the clock does, on the days that every
 * month has, and from 2099 to 2000 again. */
static void read_date(struct request *r)
{
    static uint32_t day;
    day = (day + below(30)) % (100 * 12 * 28);
    r->year = 2000 + day / (12 * 28);
    r->month = 1 + day / 28 % 12;
    r->day = 1 + day % 28;
}

/* What is held, after a call that may have changed it. */
static void count_held(struct books *b)
{
    uint32_t oldest, newest;
    uint32_t refusal = gw_journal_tell(journal, slots * SLOT, &b->held, &b->held_sum, &oldest,
                                       &newest);
    if (refusal)
        box_stops("the takings", refusal);
}

/* Any call but a release, refused ones among them. */
static void work(struct books *b)
{
    static struct made made;
    struct lent lent;
    do
        make_next_request(&made, journal, slots * SLOT);
    while (made.r.call == JOURNAL_RELEASE);
    made.r.clock = read_clock();
    read_date(&made.r);
    for (int i = 0; i < BUFFERS; i++)
        lent.buffer[i] = made.bytes[i];
    uint32_t refusal = library_call(&made.r, &lent);
    memcpy(journal, made.bytes[journal_buffer(made.r.call)], slots * SLOT);
    if (made.r.call != JOURNAL_BOOK && made.r.call != SWIPE && made.r.call != SWIPE1)
        return;
    b->refused += refusal != 0;
    b->booked += refusal == 0;
    b->booked_sum += refusal == 0 ? made.r.amount : 0;
    count_held(b);
}

/* A held record: any one, the oldest, or the one after the last that was sent. */
static void send_record(struct report *r)
{
    static uint32_t serial;
    uint32_t oldest = r->books.booked - r->books.held + 1, at, next;
    if (r->books.held == 0)
        return;
    if (one_in(4))
        serial = oldest + below(r->books.held);
    else
        serial = one_in(4) || serial < oldest || serial == r->books.booked ? oldest : serial + 1;
    uint32_t refusal = gw_walk_step(journal, slots * SLOT, serial, &at, &next);
    if (refusal)
        box_stops("a held record", refusal);
    r->sends = true;
    r->sent.n = SLOT;
    memcpy(r->sent.bytes, journal + at, SLOT);
}

static void release(uint32_t answer, struct books *b)
{
    uint32_t count = 0;
    uint64_t sum = 0;
    uint32_t refusal = gw_journal_release(journal, slots * SLOT, answer, &count, &sum);
    if (refusal != (answer == 0 ? 20 : 0))
        box_stops("a release", refusal);
    b->zeros += answer == 0;
    b->released_sum += sum;
    count_held(b);
}

/* An answer of the host, or none: then the box goes about its own work. */
static void box(const struct message *heard, struct report *r)
{
    if (heard->n == ANSWER)
        release(number_at(heard->bytes), &r->books);
    else if (r->books.booked < payments && one_in(2))
        work(&r->books);
    else
        send_record(r);
}

/* ---- The host ----------------------------------------------------------- */

/* Wrong hosts: what each makes of a record beside the ledger's rule. */
static void go_wrong(const uint8_t *record, uint32_t before, struct report *r)
{
    uint32_t serial = number_at(record);
    bool again = WRONG_HOST == 2 && serial == before;    /* takes a repeat twice */
    bool ahead = WRONG_HOST == 3 && serial > before + 1; /* skips a gap */
    if (again || ahead) {
        r->books.taken = serial;
        r->books.total += number_at(record + 8);
    }
    if (WRONG_HOST == 4) /* takes nothing: its books are right, and the run stalls */
        r->books = (struct books){0};
    /* Host 1 answers the serial of any record that it sees. */
    put_number(r->sent.bytes, ANSWER, WRONG_HOST == 1 ? serial : r->books.taken);
}

static void host(const struct message *heard, struct report *r)
{
    uint32_t before = r->books.taken;
    r->sends = gw_ledger_take(heard->bytes, heard->n, &r->books.taken, &r->books.total) == 0;
    r->sent.n = ANSWER;
    put_number(r->sent.bytes, ANSWER, r->books.taken);
    if (WRONG_HOST && r->sends)
        go_wrong(heard->bytes, before, r);
}

/* ---- The two processes -------------------------------------------------- */

struct process {
    pid_t id;
    int line;
    struct books books; /* as it reported them last */
    uint64_t latest;    /* the message sent last of those that it has heard */
};

static struct process at_box, at_host;

/* A side lives in a process of its own until the line is closed. */
static void live(int line, side *does)
{
    struct message heard;
    struct report r;
    memset(&r, 0, sizeof r);
    while (read(line, &heard, sizeof heard) == sizeof heard) {
        r.sends = false;
        does(&heard, &r);
        if (write(line, &r, sizeof r) != sizeof r)
            break;
    }
    _exit(0);
}

static void start(struct process *p, side *does)
{
    int ends[2];
    memset(p, 0, sizeof *p);
    if (socketpair(AF_UNIX, SOCK_SEQPACKET, 0, ends) != 0 || (p->id = fork()) < 0) {
        perror("starting a process");
        exit(2);
    }
    if (p->id == 0) {
        close(ends[0]);
        begin_case(~seed, slots);
        live(ends[1], does);
    }
    close(ends[1]);
    p->line = ends[0];
}

/* The one started last first: it has the other's line open too. */
static void end(struct process *p)
{
    close(p->line);
    waitpid(p->id, NULL, 0);
}

/* ---- What the books must say -------------------------------------------- */

static uint64_t *paid;      /* by serial: the sum of the payments booked up to it */
static uint64_t now, moved; /* turns of the box, and the turn at which books moved last */

static void show_books(const char *verdict, const char *what)
{
    const struct books *b = &at_box.books, *h = &at_host.books;
    printf("%s: %s\n", verdict, what);
    printf("booked %" PRIu32 " payments of %" PRIu64 ", taken %" PRIu32 " of %" PRIu64
           ", released %" PRIu64 "\n", b->booked, b->booked_sum, h->taken, h->total,
           b->released_sum);
    printf("run it again alone: radio --seed %" PRIu64 " --payments %" PRIu64 " --slots %" PRIu64
           "\n", seed, payments, slots);
}

static void expect(bool right, const char *what)
{
    if (right)
        return;
    show_books("THE BOOKS DIFFER", what);
    exit(1);
}

/* A run that doesn't come to its end is no difference of the books. */
static void go_on(bool can, const char *what)
{
    if (can)
        return;
    show_books("THE RUN STALLS", what);
    exit(2);
}

static bool moves(const struct books *before, const struct books *after)
{
    return before->booked != after->booked || before->released_sum != after->released_sum
        || before->taken != after->taken || before->total != after->total;
}

/* What holds at any time, whatever the radio does. */
static void hold_books(void)
{
    const struct books *b = &at_box.books, *h = &at_host.books;
    expect(h->taken <= b->booked, "the host has taken what isn't booked");
    expect(h->total == paid[h->taken], "the host's total isn't that of the payments it has taken");
    expect(b->released_sum <= h->total, "a released payment is missing from the host's total");
    expect(b->booked_sum == b->released_sum + b->held_sum, "some is neither held nor released");
}

static void books_equal(void)
{
    const struct books *b = &at_box.books, *h = &at_host.books;
    expect(b->booked == payments && h->taken == b->booked, "not every payment is taken");
    expect(h->total == b->booked_sum, "the host's total isn't what was booked");
    expect(b->released_sum == b->booked_sum, "what was released isn't what was booked");
}

/* ---- The radio ---------------------------------------------------------- */

static struct {
    uint64_t journals, payments, refused, sum, noise, zeros;
} counts;

/* What became of the messages of each way. */
static struct traffic {
    uint64_t sent, lost, repeated, late;
} records, answers; /* to the host, to the box */

static struct traffic *traffic_to(const struct process *to)
{
    return to == &at_host ? &records : &answers;
}

/* A message under way. */
struct flight {
    uint64_t due, number;
    struct process *to;
    struct message message;
};

static struct flight air[UNDER_WAY];
static size_t flying;
static uint64_t silent_until; /* nothing comes through before */
static bool loses;

static uint32_t draw_delay(void)
{
    if (one_in(60))
        return below(4096);
    return one_in(2) ? 0 : below(one_in(4) ? 64 : 6);
}

/* A message sent to a side: lost, or under way in one copy or in some. */
static void transmit(struct process *to, const struct message *m)
{
    struct traffic *way = traffic_to(to);
    way->sent++;
    if (loses && (now < silent_until || one_in(5))) {
        way->lost++;
        return;
    }
    uint32_t copies = one_in(6) ? 2 + below(3) : 1;
    way->repeated += copies - 1;
    for (; copies > 0; copies--) {
        go_on(flying < UNDER_WAY, "too much is under way");
        air[flying++] = (struct flight){now + draw_delay(), records.sent + answers.sent, to, *m};
    }
}

/* A message arrives at a side, and what the side sends goes out: whether it did. */
static bool arrive(struct process *to, const struct message *m)
{
    struct report r;
    if (write(to->line, m, sizeof *m) != sizeof *m || read(to->line, &r, sizeof r) != sizeof r)
        go_on(false, to == &at_box ? "the box has stopped" : "the host has stopped");
    if (moves(&to->books, &r.books))
        moved = now;
    to->books = r.books;
    if (to == &at_box)
        paid[r.books.booked] = r.books.booked_sum;
    if (r.sends)
        transmit(to == &at_box ? &at_host : &at_box, &r.sent);
    hold_books();
    return r.sends;
}

/* The message under way that is due first, if any is due: of those due at once the
 * one sent first. */
static struct flight *first_due(void)
{
    struct flight *first = NULL;
    for (struct flight *f = air; f < air + flying; f++) {
        if (f->due > now)
            continue;
        if (!first || f->due < first->due || (f->due == first->due && f->number < first->number))
            first = f;
    }
    return first;
}

/* All that is due arrives. The host refuses no record that was sent; and its last
 * answer, where it arrives, has all released that the host has taken. */
static void deliver(void)
{
    for (struct flight *f = first_due(); f; f = first_due()) {
        struct flight due = *f;
        *f = air[--flying];
        traffic_to(due.to)->late += due.number < due.to->latest;
        due.to->latest = due.number > due.to->latest ? due.number : due.to->latest;
        bool answered = arrive(due.to, &due.message);
        if (due.to == &at_host)
            expect(answered, "the host has refused a held record");
        else if (number_at(due.message.bytes) == at_host.books.taken)
            expect(at_box.books.released_sum == at_host.books.total, "the last answer leaves some");
    }
}

/* Bytes that are no held record: any, or a record under way with one rule broken. */
static void make_noise(struct message *m)
{
    const struct flight *f = flying ? &air[below((uint32_t)flying)] : NULL;
    uint32_t kind = f && f->to == &at_host ? below(8) : 7;
    *m = f ? f->message : (struct message){0};
    switch (kind) {
    case 0: m->bytes[15] = GW_SLOT_RELEASED; break;
    case 1: m->n = SLOT - 1; break;
    case 2: m->n = SLOT + 1; break;
    case 3: put_number(m->bytes, 4, 0); break;
    case 4: put_number(m->bytes + 8, 4, 0); break;
    case 5: m->bytes[16 + below(10)] = ':'; break;
    case 6: m->bytes[26 + below(6)] = 1; break;
    default:
        m->n = below(BYTES + 1);
        for (uint32_t i = 0; i < m->n; i++)
            m->bytes[i] = (uint8_t)draw();
    }
}

static void hear_noise(void)
{
    struct books before = at_host.books;
    struct message noise;
    make_noise(&noise);
    counts.noise++;
    expect(!arrive(&at_host, &noise), "the host has answered to noise");
    expect(!moves(&before, &at_host.books), "noise has changed the ledger");
}

/* ---- Running ------------------------------------------------------------ */

static void show_progress(void)
{
    static time_t shown;
    time_t second = time(NULL);
    if (shown == 0)
        shown = second;
    if (second - shown < SECONDS)
        return;
    shown = second;
    printf("radio: %" PRIu64 " slots, %" PRIu32 " of %" PRIu64 " payments booked, %" PRIu32
           " taken, %" PRIu32 " held\n", slots, at_box.books.booked, payments,
           at_host.books.taken, at_box.books.held);
    fflush(stdout);
}

/* The box has its turn; then all that is due arrives. */
static void turn(void)
{
    static const struct message none;
    now++;
    if (now > silent_until && one_in(3000))
        silent_until = now + below(1000);
    arrive(&at_box, &none);
    if (one_in(20))
        hear_noise();
    deliver();
    go_on(now - moved < PATIENCE, "nothing is booked, taken or released any more");
    show_progress();
}

/* One journal, from its first payment until nothing is held or under way. The radio is
 * silent until about every slot is held: what comes through first may be any of them. */
static void run(void)
{
    begin_case(seed, slots);
    start(&at_box, box);
    start(&at_host, host);
    now = moved = 0;
    silent_until = 12 * slots;
    for (loses = true; at_box.books.booked < payments;)
        turn();
    for (loses = false; at_box.books.held > 0;)
        turn();
    for (; flying > 0; deliver())
        now++;
    books_equal();
    end(&at_host);
    end(&at_box);
    counts.journals++;
    counts.payments += at_box.books.booked;
    counts.refused += at_box.books.refused;
    counts.zeros += at_box.books.zeros;
    counts.sum += at_box.books.booked_sum;
}

static void print_traffic(const char *way, const struct traffic *t)
{
    printf("%s sent %" PRIu64 ", lost %" PRIu64 ", repeated %" PRIu64 ", out of order %" PRIu64
           "; ", way, t->sent, t->lost, t->repeated, t->late);
}

static void print_counts(void)
{
    printf("radio, seed %" PRIu64 ": journals %" PRIu64 ", payments booked %" PRIu64
           ", refused %" PRIu64 "; ", seed, counts.journals, counts.payments, counts.refused);
    print_traffic("records", &records);
    print_traffic("answers", &answers);
    printf("answers of zero %" PRIu64 ", noise %" PRIu64 "; booked = taken = released = %" PRIu64
           "\n", counts.zeros, counts.noise, counts.sum);
}

static void read_options(int argc, char **argv)
{
    static const struct { const char *name; uint64_t *value, low, high; } options[] = {
        {"--seed", &seed, 0, UINT64_MAX}, {"--payments", &payments, 1, UINT32_MAX - 1},
        {"--slots", &slots, 1, GW_JOURNAL_SLOTS},
    };
    for (int i = 1; i < argc; i += 2) {
        int k = 0;
        while (k < 3 && strcmp(argv[i], options[k].name) != 0)
            k++;
        if (k < 3 && i + 1 < argc)
            *options[k].value = strtoull(argv[i + 1], NULL, 10);
        if (k == 3 || i + 1 == argc || *options[k].value < options[k].low
            || *options[k].value > options[k].high) {
            fprintf(stderr, "usage: radio [--seed S] [--payments N] [--slots K]\n");
            exit(2);
        }
    }
}

int main(int argc, char **argv)
{
    static const uint64_t sizes[] = {1, 2, 5, 64, GW_JOURNAL_SLOTS};
    read_options(argc, argv);
    signal(SIGPIPE, SIG_IGN);
    paid = calloc(payments + 1, sizeof *paid);
    if (!paid) {
        perror("room for the payments");
        return 2;
    }
    bool one = slots != 0;
    for (int i = 0; i < (one ? 1 : 5); i++) {
        slots = one ? slots : sizes[i];
        run();
    }
    print_counts();
    free(paid);
    return 0;
}
