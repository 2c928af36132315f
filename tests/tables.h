/*
 * The shapes of the range tables that the cases look a card number up in.
 */
#ifndef TABLES_H
#define TABLES_H

#include <stdbool.h>
#include "door.h"

/* Note the tables of a look-up, or of a swipe, by the reference's answer to it. */
void note_tables(const struct request *r, const struct lent *l, uint32_t answer);

/* Whether every shape was met often, in either table, by each call; what is missing is
 * printed. */
bool tables_reached(void);

#endif
