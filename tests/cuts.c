/*
 * The power fails after every single byte. Histories of bookings and releases are
 * kept by the example's own store (examples/store.h), whose writes and syncs come
 * here: the bytes that a cut leaves are those of the first k writes. The store is
 * opened on them again, and every payment that was answered as booked, and isn't
 * released, must be held there, byte for byte, and no other; and no serial comes
 * again, of two slots or more.
 *
 *   cuts FOLDER [HISTORIES]
 */
#define _DEFAULT_SOURCE
#include <inttypes.h>
#include <stdio.h>
#include <stdlib.h>
#include <string.h>
#include <unistd.h>

static ssize_t cut_pwrite(int file, const void *from, size_t n, off_t at);
static int cut_fsync(int file);
#define pwrite cut_pwrite
#define fsync cut_fsync
#include "store.h"
#undef pwrite
#undef fsync
#include "cases.h"

/* Calls of a history; payments before every second and third one's first call, so that
 * serials take a second byte on the way. */
enum { CALLS_EACH = 1000, LATER = 240, MOST = 2 * LATER + CALLS_EACH, SLOT = GW_SLOT_BYTES };

static char path[PATH_MAX], again_path[PATH_MAX];
static struct store store, again;
static int left_file; /* at again_path */
static uint64_t cuts, malformed, histories;
static bool uncut; /* the payments before a history's first: nothing is cut */

/* What the caller was answered: each booked record, and how far the release went. */
static uint8_t booked[MOST + 1][SLOT]; /* by serial */
static uint32_t newest, released;

static void expect(bool right, const char *what)
{
    if (right)
        return;
    printf("%s: %u slots, newest %" PRIu32 ", released %" PRIu32 ", history %" PRIu64 "\n", what,
           store.slots, newest, released, histories);
    exit(1);
}

/* ---- The memory that outlives the power --------------------------------- */

static uint8_t memory[GW_JOURNAL_SLOTS * SLOT];

/* The writes of the call under way, a byte each, and how many are synced. */
static struct { size_t at; uint8_t byte; } writes[GW_JOURNAL_SLOTS + SLOT];
static size_t written, synced;

static ssize_t cut_pwrite(int file, const void *from, size_t n, off_t at)
{
    (void)file;
    for (size_t i = 0; i < n; i++, written++) {
        writes[written].at = (size_t)at + i;
        writes[written].byte = ((const uint8_t *)from)[i];
        expect(writes[written].at / SECTOR == writes[synced].at / SECTOR,
               "two sectors unsynced at once");
    }
    return (ssize_t)n;
}

static int cut_fsync(int file)
{
    (void)file;
    synced = written;
    return 0;
}

/* ---- A start after a cut ------------------------------------------------ */

/* The store opened on what a cut left. */
static void start_again(const uint8_t *left)
{
    size_t n = store_bytes(&store);
    expect(pwrite(left_file, left, n, 0) == (ssize_t)n, "no file to start from");
    expect(store_open(&again, again_path, store.slots), "the store doesn't open");
    close(again.file);
}

/* The held serials are those above `low` up to `high`, each as it was booked. */
static bool holds(uint32_t low, uint32_t high)
{
    uint32_t serial, at, next = 0, wanted = low + 1;
    if (gw_walk_start(again.journal, store_bytes(&again), &serial) != 0)
        return false;
    for (; serial != 0; serial = next, wanted++) {
        if (gw_walk_step(again.journal, store_bytes(&again), serial, &at, &next) != 0)
            return false;
        if (serial != wanted || memcmp(again.journal + at, booked[serial], SLOT) != 0)
            return false;
    }
    return wanted == high + 1;
}

/* The same of a journal that isn't well formed, by its survey. */
static bool surveyed(uint32_t low, uint32_t high)
{
    static uint8_t states[GW_JOURNAL_SLOTS];
    uint32_t formed, held = 0;
    if (gw_journal_survey(again.journal, store_bytes(&again), states, again.slots, &formed) != 0)
        return false;
    for (uint32_t i = 0; i < again.slots; i++)
        held += states[i] == GW_SLOT_HELD;
    for (uint32_t s = low + 1; s <= high; s++) {
        size_t at = store_place(&again, s);
        if (states[at / SLOT] != GW_SLOT_HELD || memcmp(again.journal + at, booked[s], SLOT) != 0)
            return false;
    }
    return formed == 0 && held == high - low;
}

/* The newest serial is that of the booking under way, or the one before it. */
static bool serials_go_on(void)
{
    uint32_t count, oldest, found;
    uint64_t sum;
    return gw_journal_tell(again.journal, store_bytes(&again), &count, &sum, &oldest, &found) == 0
        && (found == newest || found + 1 == newest);
}

/* ---- Every cut of one call ---------------------------------------------- */

/* A booking cut short of its last byte was not taken; one that is whole was. */
static void booking_cut(size_t k)
{
    if (k == SLOT) {
        expect(holds(released, newest), "a booking written whole isn't held");
    } else if (holds(released, newest - 1)) {
        expect(serials_go_on() || again.slots == 1, "a serial comes again");
    } else {
        expect(k > 0 && surveyed(released, newest - 1), "a booking cut short");
        malformed++;
    }
}

/* A release cut after k bytes has released the k oldest. */
static void release_cut(uint32_t before, size_t k)
{
    expect(holds(before + (uint32_t)k, newest), "a release cut short");
}

static void cut_at(bool booking, uint32_t before, size_t k, const uint8_t *left)
{
    cuts++;
    start_again(left);
    if (booking)
        booking_cut(k);
    else
        release_cut(before, k);
}

/* The bytes of the first k writes, for every k; `before` is how far the release went. */
static void cut_everywhere(bool booking, uint32_t before)
{
    static uint8_t left[sizeof memory];
    expect(synced == written, "answered before it was synced");
    memcpy(left, memory, store_bytes(&store));
    for (size_t k = 0; k <= written; k++) {
        if (k > 0)
            left[writes[k - 1].at] = writes[k - 1].byte;
        if (!uncut)
            cut_at(booking, before, k, left);
    }
    memcpy(memory, left, store_bytes(&store));
    expect(memcmp(memory, store.journal, store_bytes(&store)) == 0, "not all was written");
    written = synced = 0;
}

/* ---- Histories ---------------------------------------------------------- */

static void book(void)
{
    static const char *const pans[] = {"4111111111111111", "378282246310005", "4222222222222"};
    const char *pan = pans[below(3)];
    uint32_t serial;
    uint32_t refusal = gw_journal_book(store.journal, store_bytes(&store), (const uint8_t *)pan,
                                       strlen(pan), (uint16_t)draw(), 1 + below(100000),
                                       (uint32_t)draw(), &serial);
    if (refusal == 18)
        return;
    expect(refusal == 0 && serial == newest + 1, "a booking");
    newest = serial;
    memcpy(booked[serial], store.journal + store_place(&store, serial), SLOT);
    expect(store_booked(&store, serial), "a booking isn't kept");
    cut_everywhere(true, released);
}

static void release(uint32_t up_to)
{
    uint32_t oldest, count, before = released;
    uint64_t sum;
    expect(gw_walk_start(store.journal, store_bytes(&store), &oldest) == 0, "a walk's start");
    if (gw_journal_release(store.journal, store_bytes(&store), up_to, &count, &sum) == 20)
        return;
    released = up_to > released ? up_to : released;
    expect(count == released - before, "a release");
    expect(store_released(&store, oldest, count), "a release isn't kept");
    cut_everywhere(false, before);
}

/* A history that begins after so many payments. */
static void history(uint32_t slots, uint32_t begin)
{
    newest = released = 0;
    unlink(path);
    memset(memory, 0, sizeof memory);
    left_file = open(again_path, O_RDWR | O_CREAT | O_TRUNC, 0600);
    expect(store_open(&store, path, slots), "a new store doesn't open");
    for (uncut = true; newest < begin; release(newest))
        book();
    uncut = false;
    for (int i = 0; i < CALLS_EACH; i++)
        one_in(3) ? release(1 + below(newest + 1)) : book();
    close(store.file);
    close(left_file);
    histories++;
}

int main(int argc, char **argv)
{
    static const uint32_t slots[] = {1, 2, 3, 7, 16, 33, 64};
    uint64_t rounds = argc > 2 ? strtoull(argv[2], NULL, 10) : 3;
    if (argc < 2)
        return 2;
    snprintf(path, sizeof path, "%s/cuts.journal", argv[1]);
    snprintf(again_path, sizeof again_path, "%s/cuts.again", argv[1]);
    for (uint64_t r = 0; r < rounds; r++)
        for (size_t i = 0; i < sizeof slots / sizeof slots[0]; i++) {
            begin_case(r, i);
            history(slots[i], (uint32_t)(r % 3) * LATER);
        }
    printf("cuts: %" PRIu64 " in %" PRIu64 " histories of %d calls, %" PRIu64
           " not well formed; every payment found\n", cuts, histories, CALLS_EACH, malformed);
    return 0;
}
