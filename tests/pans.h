/*
 * The card number and the expiry of a swipe.
 */
#ifndef PANS_H
#define PANS_H

#include "door.h"

/* Read the stripe of a swipe once more: the card's digits, which stay until the next
 * reading, and how many they are in *n. */
uint8_t *read_pan(const struct request *r, const struct lent *l, size_t *n);

/* Months are counted from January of the year 0 on: the first that an expiry can name. */
enum { JANUARY_2000 = 12 * 2000 };

/* The month in which a card expires whose characters are swiped by this call; 0 if they
 * name none, or aren't divided. */
uint32_t expiry_month(enum call swipe, uint8_t *chars, size_t n);

/* The same by the stripe of a swipe, read once more. */
uint32_t read_expiry(const struct request *r, const struct lent *l);

#endif
