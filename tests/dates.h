/*
 * The dates that the cases swipe a card on.
 */
#ifndef DATES_H
#define DATES_H

#include <stdbool.h>
#include "door.h"

/* Note the date of a swipe, by the reference's answer to it. */
void note_date(const struct request *r, const struct lent *l, uint32_t answer);

/* Whether dates of every kind were met as often as they must be, by each call; what is
 * missing is printed. */
bool dates_reached(void);

#endif
