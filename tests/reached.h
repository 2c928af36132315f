/*
 * What the cases reached: each refusal of each call, and each length at and
 * around each bound.
 */
#ifndef REACHED_H
#define REACHED_H

#include <stdbool.h>
#include "door.h"

extern const char *const call_names[CALLS];

/* Note a request and the reference's answer to it. */
void note_reached(const struct request *r, uint32_t answer);

/* Print how often each refusal was reached; the calls compared. */
uint64_t print_reached(void);

/* Whether every refusal of every call was reached, and no other; what is
 * missing is printed. */
bool refusals_reached(void);

/* Whether every length was reached; what is missing is printed. */
bool lengths_reached(void);

#endif
