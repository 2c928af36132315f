#define _DEFAULT_SOURCE
#include <stdio.h>
#include <stdlib.h>
#include <string.h>
#include <sys/mman.h>
#include "cases.h"
#include "lent.h"

enum { PAGE = 65536, ROOM = 2 * PAGE, BEFORE = 64, MARK = 0xa5 };

static uint8_t *ends[SIDES][BUFFERS];

/* The end of a new run of pages, where a page that must not be touched starts. */
static uint8_t *open_run(void)
{
    uint8_t *run = mmap(NULL, ROOM + PAGE, PROT_READ | PROT_WRITE,
                        MAP_PRIVATE | MAP_ANONYMOUS, -1, 0);
    if (run == MAP_FAILED || mprotect(run + ROOM, PAGE, PROT_NONE) != 0) {
        perror("setting pages aside");
        exit(2);
    }
    return run + ROOM;
}

void open_pages(void)
{
    for (int s = 0; s < SIDES; s++)
        for (int b = 0; b < BUFFERS; b++)
            ends[s][b] = open_run();
}

uint8_t *lend(enum side side, int buffer, const uint8_t *bytes, size_t n)
{
    uint8_t *lent = ends[side][buffer] - n;
    memset(lent - BEFORE, MARK, BEFORE);
    memcpy(lent, bytes, n);
    return lent;
}

bool untouched_before(const uint8_t *lent)
{
    for (int i = 1; i <= BEFORE; i++)
        if (lent[-i] != MARK)
            return false;
    return true;
}
