/*
 * The library's text calls for scripts: one question a line, `call text` (for
 * iban_make `iban_make COUNTRY BODY`), one answer a line: the number answered
 * and, from a call that makes something, what it made (0 on a refusal).
 */
#include <inttypes.h>
#include <stdbool.h>
#include <stdio.h>
#include <string.h>
#include "goltwarden.h"

static void answer_test(uint32_t answer)
{
    printf("%" PRIu32 "\n", answer);
}

static void answer_made(uint32_t answer, uint32_t made)
{
    printf("%" PRIu32 " %" PRIu32 "\n", answer, made);
}

static bool answer_tested(const char *call, const uint8_t *text, size_t n)
{
    if (strcmp(call, "luhn_test") == 0)
        answer_test(gw_luhn_test(text, n));
    else if (strcmp(call, "creditor_test") == 0)
        answer_test(gw_creditor_test(text, n));
    else if (strcmp(call, "iban_test") == 0)
        answer_test(gw_iban_test(text, n));
    else
        return false;
    return true;
}

static bool answer_making(const char *call, const uint8_t *text, size_t n)
{
    uint8_t digit = '0';
    uint32_t answer, pair = 0;
    if (strcmp(call, "luhn_make") == 0) {
        answer = gw_luhn_make(text, n, &digit);
        pair = digit - '0';
    } else if (strcmp(call, "creditor_make") == 0) {
        answer = gw_creditor_make(text, n, &pair);
    } else if (strcmp(call, "iban_make") == 0 && n > 3) {
        answer = gw_iban_make(text, 2, text + 3, n - 3, &pair);
    } else {
        return false;
    }
    answer_made(answer, pair);
    return true;
}

int main(void)
{
    char line[256];
    while (fgets(line, sizeof line, stdin)) {
        line[strcspn(line, "\n")] = 0;
        char *space = strchr(line, ' ');
        if (!space)
            return 2;
        *space = 0;
        const uint8_t *text = (const uint8_t *)space + 1;
        size_t n = strlen(space + 1);
        if (!answer_tested(line, text, n) && !answer_making(line, text, n))
            return 2;
    }
    return 0;
}
