/*
 * The shapes of the streams that the cases read a track from.
 */
#ifndef SHAPES_H
#define SHAPES_H

#include <stdbool.h>
#include "door.h"

/* Note the stream of a request to read a track, by the reference's answer to it. */
void note_shape(const struct request *r, const struct lent *l, uint32_t answer);

/* Whether every shape was met, either way round; what is missing is printed. */
bool shapes_reached(void);

#endif
