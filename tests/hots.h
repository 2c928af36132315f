/*
 * The shapes of the hot lists that the cases ask for a card in.
 */
#ifndef HOTS_H
#define HOTS_H

#include <stdbool.h>
#include "door.h"

/* Note the hot list of a question, or of a swipe, by the reference's answer to it. */
void note_hot_list(const struct request *r, const struct lent *l, uint32_t answer);

/* Whether every shape was met as often as it must be, by each call; what is missing is
 * printed. */
bool hot_lists_reached(void);

#endif
