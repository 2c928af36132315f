/*
 * The host: a ledger's file, what the host does with a message, and the date that it
 * sends. The ledger's two numbers are kept together, in one write, and synced before the
 * host answers. Here it stands beside the terminal; in the field the radio is between
 * them, and may lose, repeat and reorder what either side sends.
 */
#ifndef HOST_H
#define HOST_H

#include <string.h>
#include "store.h"

enum { LEDGER_BYTES = 12 }; /* both numbers, within one sector */

struct host {
    int file;
    uint32_t taken;
    uint64_t total;
};

static bool host_keep(const struct host *h)
{
    uint8_t kept[LEDGER_BYTES];
    memcpy(kept, &h->taken, 4);
    memcpy(kept + 4, &h->total, 8);
    return pwrite(h->file, kept, LEDGER_BYTES, 0) == LEDGER_BYTES && fsync(h->file) == 0;
}

/* The ledger as it was kept. Answers how many bytes are kept: 0 where none are yet, and
 * both numbers are 0; -1, with errno set, where that isn't known. No file is made. */
static ssize_t host_read(struct host *h, const char *path)
{
    uint8_t kept[LEDGER_BYTES] = {0};
    int file = open(path, O_RDONLY | O_CLOEXEC);
    if (file < 0 && errno != ENOENT)
        return -1;
    ssize_t n = file < 0 ? 0 : pread(file, kept, LEDGER_BYTES, 0);
    if (file >= 0)
        close(file);
    if (n > 0 && n < LEDGER_BYTES) {
        errno = EINVAL;
        return -1;
    }
    memcpy(&h->taken, kept, 4);
    memcpy(&h->total, kept + 4, 8);
    return n;
}

/* The file that is there, or a new one. */
static bool host_open(struct host *h, const char *path)
{
    if (host_read(h, path) < 0)
        return false;
    h->file = open(path, O_RDWR | O_CREAT | O_CLOEXEC, 0600);
    return h->file >= 0 && host_keep(h) && store_sync_folder(path);
}

/* A message arrives: whether the host answers, and then what. What isn't kept isn't
 * answered. Where the write was done and its sync failed, the file may be ahead of
 * memory. That does no harm: what the file has was taken, the box got no answer and
 * sends the record again, and to a host that goes on by the file it is a repeat. */
static bool host_hears(struct host *h, const uint8_t *message, size_t n, uint32_t *answer)
{
    struct host after = *h;
    if (gw_ledger_take(message, n, &after.taken, &after.total) != 0 || !host_keep(&after))
        return false;
    *h = after;
    *answer = after.taken;
    return true;
}

struct date {
    uint32_t year, month, day;
};

/* The date that the host sends. A real host asks its own calendar; this one says the same
 * every day, so that what the example prints can be compared. */
static struct date host_date(void)
{
    return (struct date){2025, 12, 24};
}

#endif
