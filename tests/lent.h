/*
 * Lent buffers. Each ends at a page that must not be touched, and the bytes
 * before it are known, so that a call that leaves what it was lent shows.
 */
#ifndef LENT_H
#define LENT_H

#include <stdbool.h>
#include "door.h"

/* The sides that are lent the same: the library and the reference. */
enum side { LIBRARY, REFERENCE, SIDES };

/* Set the pages aside, once. */
void open_pages(void);

/* Lend a side a copy of the bytes, ending at a page that must not be touched; so a hot
 * list is aligned as its numbers ask. */
uint8_t *lend(enum side side, int buffer, const uint8_t *bytes, size_t n);

/* Whether the bytes before a lent buffer are as they were. */
bool untouched_before(const uint8_t *lent);

#endif
