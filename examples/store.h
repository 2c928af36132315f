/*
 * The store: a journal's file, and the working copy in memory that the calls of
 * goltwarden.h are lent. What a call changed is written to the file in the order
 * that the header asks for under "Where the power may fail", and synced before it
 * counts. Each function answers false where that couldn't be done, with errno set:
 * then the file and the copy may differ, and the copy isn't used any further.
 */
#ifndef STORE_H
#define STORE_H

#include <errno.h>
#include <fcntl.h>
#include <libgen.h>
#include <limits.h>
#include <stdbool.h>
#include <stdio.h>
#include <sys/file.h>
#include <sys/stat.h>
#include <unistd.h>
#include "goltwarden.h"

enum { SECTOR = 512 }; /* bytes that a disk writes at once or not at all */

struct store {
    int file;
    uint32_t slots;
    uint8_t journal[GW_JOURNAL_SLOTS * GW_SLOT_BYTES]; /* the first slots count */
};

static size_t store_bytes(const struct store *s)
{
    return (size_t)s->slots * GW_SLOT_BYTES;
}

/* ---- Opening ------------------------------------------------------------ */

/* A new name in a folder is on the disk once the folder is. */
static bool store_sync_folder(const char *path)
{
    char folder[PATH_MAX];
    if (snprintf(folder, sizeof folder, "%s", path) >= (int)sizeof folder)
        return false;
    int file = open(dirname(folder), O_RDONLY | O_DIRECTORY | O_CLOEXEC);
    bool done = file >= 0 && fsync(file) == 0;
    if (file >= 0)
        close(file);
    return done;
}

/* A new file of zero bytes, which is an empty journal, under a name that no file has. */
static bool store_make(struct store *s, const char *path)
{
    s->file = open(path, O_RDWR | O_CREAT | O_EXCL | O_CLOEXEC, 0600);
    return s->file >= 0 && ftruncate(s->file, (off_t)store_bytes(s)) == 0 && fsync(s->file) == 0
        && store_sync_folder(path);
}

/* The file that is there, or a new one where there is none: any other failure is no
 * reason to make one. Where a standard stream was closed, the file would take its
 * number, and what is printed would go into the journal. */
static bool store_find(struct store *s, const char *path)
{
    s->file = open(path, O_RDWR | O_CLOEXEC);
    if (s->file < 0 && (errno != ENOENT || !store_make(s, path)))
        return false;
    if (s->file > STDERR_FILENO)
        return true;
    close(s->file);
    errno = EBADF;
    return false;
}

/* The file opened, locked against every other program, and read. What was read is on
 * the disk before it is used: a program that was stopped before its sync may have
 * written it. Assumed: no sync has failed since the machine started. After one that
 * did, the system may show bytes that the disk hasn't; start the machine anew. */
static bool store_open(struct store *s, const char *path, uint32_t slots)
{
    struct stat found;
    s->slots = slots;
    if (!store_find(s, path) || flock(s->file, LOCK_EX | LOCK_NB) != 0
        || fstat(s->file, &found) != 0)
        return false;
    if (found.st_size != (off_t)store_bytes(s)) {
        errno = EINVAL;
        return false;
    }
    return pread(s->file, s->journal, store_bytes(s), 0) == (ssize_t)store_bytes(s)
        && fsync(s->file) == 0;
}

/* ---- Keeping what a call changed ---------------------------------------- */

static size_t store_place(const struct store *s, uint32_t serial)
{
    return (size_t)((serial - 1) % s->slots) * GW_SLOT_BYTES;
}

static bool store_write(struct store *s, size_t at, size_t n)
{
    return pwrite(s->file, s->journal + at, n, (off_t)at) == (ssize_t)n;
}

/* After a booking: the 32 bytes of its slot, 16 to 31 and then 0 to 15. They lie in
 * one sector. */
static bool store_booked(struct store *s, uint32_t serial)
{
    size_t at = store_place(s, serial);
    return store_write(s, at + 16, 16) && store_write(s, at, 16) && fsync(s->file) == 0;
}

/* After a release: the state bytes of the records that it released, which are as many
 * as it answered from the oldest that was held, by rising serial. A sector is synced
 * before the next one is written. */
static bool store_released(struct store *s, uint32_t oldest, uint32_t count)
{
    size_t last = 0;
    for (uint32_t i = 0; i < count; i++) {
        size_t at = store_place(s, oldest + i) + 15;
        if (i > 0 && at / SECTOR != last / SECTOR && fsync(s->file) != 0)
            return false;
        if (!store_write(s, at, 1))
            return false;
        last = at;
    }
    return fsync(s->file) == 0;
}

#endif
