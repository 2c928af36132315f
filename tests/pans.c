#include <stdbool.h>
#include "pans.h"

/* The characters of a swipe's stripe, which stay until the next reading. */
static uint8_t *read_stripe(const struct request *r, const struct lent *l, size_t *n)
{
    static uint8_t chars[80];
    struct request read = {.call = r->call == SWIPE ? TRACK2_READ : TRACK1_READ,
                           .n = {r->n[0], sizeof chars}, .bits = r->bits};
    struct lent lent = {.buffer = {l->buffer[0], chars}};
    reference_call(&read, &lent);
    *n = lent.word[0];
    return chars;
}

uint8_t *read_pan(const struct request *r, const struct lent *l, size_t *n)
{
    uint8_t *pan = read_stripe(r, l, n) + (r->call == SWIPE1), *end = pan;
    while (*end >= '0' && *end <= '9')
        end++;
    *n = (size_t)(end - pan);
    return pan;
}

static uint32_t two_digits(const uint8_t *s)
{
    return 10 * (uint32_t)(s[0] - '0') + (uint32_t)(s[1] - '0');
}

uint32_t expiry_month(enum call swipe, uint8_t *chars, size_t n)
{
    bool one = swipe == SWIPE1;
    struct request divide = {.call = one ? LAYOUT1_READ : LAYOUT_READ, .n = {n}};
    struct lent lent = {.buffer = {chars}};
    uint32_t at = reference_call(&divide, &lent) == 0 ? lent.word[one ? 2 : 1] : 0;
    return at ? JANUARY_2000 + 12 * two_digits(chars + at) + two_digits(chars + at + 2) - 1 : 0;
}

uint32_t read_expiry(const struct request *r, const struct lent *l)
{
    size_t n;
    uint8_t *chars = read_stripe(r, l, &n);
    return expiry_month(r->call, chars, n);
}
