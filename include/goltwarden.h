/*
 * Goltwarden: the card side of unattended payment terminals.
 *
 * This header is the whole C interface of the static library `goltwarden`
 * (x86-64). The library holds no memory and no state of its own, reads no
 * clock and no file, and never stops the program: every call ends, with an
 * answer.
 *
 * WHAT A CALL ANSWERS
 *
 * Every call returns 0, or the number of the reason for which it refuses
 * (enum gw_reason below). A call gives the first reason, in the order stated
 * for it, whose condition holds. Numbers answered go through pointers. On a
 * refusal nothing behind any pointer changes (exception: a swipe's
 * scratch). A part of a lent buffer is answered as its byte offset in that
 * buffer; nothing is copied.
 *
 * WHAT THE CALLER OWES
 *
 * - A lent buffer is a pointer and a count of bytes; that many bytes can be
 *   read, and written where the pointer isn't const. A lent hot list is a pointer
 *   and a count of 64-bit numbers. Any count is allowed, and 0 too.
 * - No pointer is NULL. For a buffer of 0 bytes or an empty list pass any other
 *   address: nothing is read or written there. Pointers to numbers are aligned as
 *   their type asks, an empty list's too.
 * - What a call writes (a buffer or number whose pointer isn't const) overlaps
 *   nothing else lent to that call.
 * - No other thread writes what a call reads, or touches what it writes, while
 *   it is under way. So at most one call that writes a journal is under way on
 *   it, and none that reads it beside that one.
 * - A journal's bytes are kept from call to call as the calls left them.
 * - Stack: a reading of either track and a swipe take some 3 kB of it, 2 kB for
 *   the table by which track 2 is read; any other call takes less than half a
 *   kB. docs/BENCHMARK.md has what was measured.
 *
 * WHERE THE POWER MAY FAIL
 *
 * The calls promise which bytes a journal has when they return, and no order in
 * which they write them: a compiler may join and move stores. So don't lend a
 * call the memory that outlives the power. Lend it a working copy, copy what
 * changed to that memory afterwards, in this order, and answer nobody before all
 * of it is there:
 *
 * - After a booking, by gw_journal_book, gw_swipe or gw_swipe1: the 32 bytes of
 *   its slot, which begins at 32 * ((serial - 1) % slots). First bytes 16 to 31,
 *   then 0 to 15, by rising address, so that the state byte, 15, comes last.
 * - After a release: the state byte (15) of each slot that became released, by
 *   rising serial, and no other byte.
 *
 * Copied in this order, the bytes may be cut off after any one of them:
 *
 * - A booking cut short: every slot that was held is held as it was, byte for
 *   byte, and no other slot is. The payment under way wasn't taken. The journal
 *   may then not be well formed, and calls answer 16: gw_journal_survey still
 *   says which slots are held. Memory that writes 32 aligned bytes at once never
 *   shows this; a journal of one slot needs such memory, since there a cut within
 *   the four bytes of a serial can leave a lower one, and serials repeat.
 * - A release cut short is the release of a lower serial, and well formed.
 *
 * examples/terminal.c keeps its journal so.
 *
 * WORDS
 *
 * "Digit" is a byte 48 to 57 ('0' to '9'), "capital" a byte 65 to 90 ('A' to
 * 'Z'). Text is bytes in ASCII, without a closing zero. Numbers in records are
 * unsigned, lowest byte first. A card number (PAN) has 13 to 19 digits.
 */
#ifndef GOLTWARDEN_H
#define GOLTWARDEN_H

#include <stddef.h>
#include <stdint.h>

#ifdef __cplusplus
extern "C" {
#endif

/* The version of this interface, as gw_version() answers it. */
#define GW_VERSION 7

/* The numbered reasons. */
enum gw_reason {
    GW_DONE = 0,            /* no refusal */
    GW_SHORT_OUTPUT = 1,    /* lent output or scratch too short */
    GW_BAD_COUNT = 2,       /* count of digits or characters outside its range */
    GW_BAD_BYTE = 3,        /* a byte that isn't allowed */
    GW_WRONG_CHECK = 4,     /* check digits wrong */
    GW_UNKNOWN_COUNTRY = 5, /* country not listed */
    GW_WRONG_LAYOUT = 6,    /* layout wrong */
    GW_BAD_BIT_COUNT = 7,   /* bit count over 4,096 or over 8 times the bytes lent */
    GW_NO_START = 8,        /* no start sentinel */
    GW_CUT_SHORT = 9,       /* track cut short */
    GW_WRONG_PARITY = 10,   /* parity wrong */
    GW_LONG_TRACK = 11,     /* track too long */
    GW_WRONG_LRC = 12,      /* LRC wrong */
    GW_MARKS_AFTER = 13,    /* marks after the LRC */
    GW_BAD_TABLE = 14,      /* range table's byte length not a multiple of 16, or over 65,536 */
    GW_NO_RANGE = 15,       /* no range fits */
    GW_BAD_JOURNAL = 16,    /* journal not well formed */
    GW_ZERO_AMOUNT = 17,    /* amount 0 */
    GW_JOURNAL_FULL = 18,   /* journal full */
    GW_SERIALS_USED_UP = 19, /* serials used up */
    GW_NO_SERIAL = 20,      /* serial not there */
    GW_BAD_HOT_LIST = 21,   /* hot list not rising or too long, or PAN length or a number wrong */
    GW_LISTED_CARD = 22,    /* card on the hot list */
    GW_BAD_DATE = 23,       /* date outside 2000 to 2099, or no real day */
    GW_EXPIRED_CARD = 24    /* card expired */
};

/* Sizes a caller needs. */
#define GW_TRACK_BYTES 37        /* output of gw_track2_read, scratch of gw_swipe */
#define GW_TRACK1_BYTES 76       /* output of gw_track1_read, scratch of gw_swipe1 */
#define GW_TRACK_BITS 4096       /* the most bits a stream has */
#define GW_RANGE_BYTES 16        /* one record of a range table */
#define GW_RANGE_TABLE_BYTES 65536 /* the longest range table */
#define GW_HOT_NUMBERS 8192      /* the most numbers of a hot list */
#define GW_SLOT_BYTES 32         /* one slot of a journal */
#define GW_JOURNAL_SLOTS 2048    /* the most slots of a journal */

/* What gw_journal_survey says of one slot. */
enum gw_slot {
    GW_SLOT_FREE = 0,
    GW_SLOT_HELD = 1,
    GW_SLOT_RELEASED = 2,
    GW_SLOT_DAMAGED = 3
};

/* The version of the interface that the library was built for: GW_VERSION.
 * The one call whose answer isn't a refusal's number. */
uint32_t gw_version(void);

/* ---- Luhn check digit (ISO/IEC 7812-1) ---------------------------------- */

/* Test a text of digits, its check digit last. From the right, the last digit
 * has place 1; digits at even places are doubled, less 9 where the double
 * exceeds 9. The text passes when the sum is a multiple of 10.
 * Order: 2 unless 2 to 40 bytes; 3 unless all digits; 4 unless it passes. */
uint32_t gw_luhn_test(const uint8_t *text, size_t text_n);

/* Make the check digit: *digit receives the one digit byte ('0' to '9') which,
 * put at the end of the body, passes.
 * Order: 2 unless 1 to 39 bytes; 3 unless all digits. */
uint32_t gw_luhn_make(const uint8_t *body, size_t body_n, uint8_t *digit);

/* ---- Card numbers: masking, ranges, the hot list ------------------------ */

/* Write the masked text of a PAN, as long as the PAN, to the output's first
 * bytes: first six digits, '*' for each hidden one, last four. Output bytes
 * past it stay.
 * Order: 2 unless 13 to 19 bytes; 3 unless all digits; 1 if the output is
 * shorter than the PAN. */
uint32_t gw_pan_mask(const uint8_t *pan, size_t pan_n, uint8_t *out, size_t out_n);

/* Find the range that a PAN belongs to. A range table is a run of 16-byte
 * records with no header: low at 0 to 3, high at 4 to 7, label at 8 to 9,
 * shortest PAN at 10, longest at 11; 12 to 15 are ignored. A record fits a PAN
 * when its first eight digits, as a number, lie from low to high and its length
 * lies from shortest to longest, ends included. The answer is the fitting record
 * of the site's table with the smallest high less low, of equals the earlier; if
 * none of the site's fits, that of the acquirer's: *table receives 0 for the
 * site's or 1 for the acquirer's, *at the byte offset of the record's own 16 bytes
 * in that table. Empty tables are allowed; a record with low above high fits
 * nothing.
 * Order: 14 for the site's table, then for the acquirer's; 2 unless the PAN has
 * 13 to 19 bytes; 3 unless all digits; 15 if no range fits. */
uint32_t gw_range_find(const uint8_t *site, size_t site_n,
                       const uint8_t *acquirer, size_t acquirer_n,
                       const uint8_t *pan, size_t pan_n,
                       uint32_t *table, uint32_t *at);

/* Ask whether a card is blocked. A hot list is a run of numbers that rise strictly,
 * at most 8,192 of them, beside one PAN length for the whole list. A PAN is listed
 * exactly when it has that length and its digits, as a number, stand in the list:
 * *listed receives 1 if it is listed, 0 if not. An empty list blocks nothing; its
 * `length` is 13 to 19 too. Each call checks the whole list, in one pass, and then
 * looks at 14 of its numbers at most to find the PAN's.
 * Order: 21 unless `length` is 13 to 19, there are at most 8,192 numbers, each above
 * the one before it and each under 10 to the power of `length`; 2 unless the PAN has
 * 13 to 19 bytes; 3 unless all digits.
 * A list with one fault makes every swipe answer 21. So ask about a new list before it
 * takes the place of the old one: with a PAN of 0 bytes a list that is right answers 2. */
uint32_t gw_hot_find(const uint64_t *list, size_t list_n, uint32_t length,
                     const uint8_t *pan, size_t pan_n, uint32_t *listed);

/* ---- Track 2 ------------------------------------------------------------ */

/* Read track 2 from bits, either way round. Stream bit i is bit i mod 8 (0 the
 * lowest) of byte i div 8; `bits` of them count. A character is five bits: four
 * data bits, lowest first, then one making the count of ones odd; its number 0
 * to 15 stands for byte 48 + number. The stream is read forward and, if that is
 * refused, reversed, last bit first. Accepted: the characters strictly between
 * the start sentinel ';' and the end sentinel '?' go to the output's first
 * bytes, later bytes stay; *count receives how many they are (0 to 37),
 * *reversed 0 for a stream read forward, 1 for one read reversed.
 * Order: 1 if the output has under 37 bytes; 7 if `bits` is over 4,096 or over
 * 8 times the bytes lent; then, if both ways refuse, forward's number, unless
 * that is 8, when it is the reversed reading's number.
 * Reading one way, zeros are skipped to the first one bit: 8 unless the start
 * sentinel stands there; then for each character 9 if fewer than five bits are
 * left, 10 for even parity; 11 if the 39th character, the start sentinel being
 * the first, isn't the end sentinel; then of the LRC character 9, 10, and 12 if
 * it is wrong; 13 if a bit after it is one. */
uint32_t gw_track2_read(const uint8_t *stream, size_t stream_n, uint64_t bits,
                        uint8_t *out, size_t out_n,
                        uint32_t *count, uint32_t *reversed);

/* Divide the characters between the sentinels (ISO/IEC 7813): PAN of 13 to 19
 * digits; '='; expiry as four digits YYMM with MM 01 to 12, or '=' for none;
 * service code as three digits, or '=' for none; then discretionary data,
 * digits only, perhaps none. The PAN is at offset 0: *pan_n receives its
 * length. *expiry_at receives the offset of the four expiry digits, *service_at
 * that of the three service digits, each 0 if absent. *rest_at receives the
 * offset of the discretionary data, which goes on to the end of the characters.
 * Order: 6 for anything else. */
uint32_t gw_layout_read(const uint8_t *chars, size_t chars_n,
                        uint32_t *pan_n, uint32_t *expiry_at,
                        uint32_t *service_at, uint32_t *rest_at);

/* ---- Track 1 ------------------------------------------------------------ */

/* Read track 1 from bits, either way round. The stream's bits count as they do
 * for gw_track2_read. A character is seven bits: six data bits, lowest first,
 * then one making the count of ones odd; its number 0 to 63 stands for byte 32 +
 * number. The stream is read forward and, if that is refused, reversed, last bit
 * first; there are streams that read both ways, and these are read forward.
 * Accepted: the characters strictly between the start sentinel '%' and the end
 * sentinel '?' go to the output's first bytes, later bytes stay; *count receives
 * how many they are (0 to 76), *reversed 0 for a stream read forward, 1 for one
 * read reversed.
 * Order: 1 if the output has under 76 bytes; 7 if `bits` is over 4,096 or over
 * 8 times the bytes lent; then, if both ways refuse, forward's number, unless
 * that is 8, when it is the reversed reading's number.
 * Reading one way, zeros are skipped to the first one bit: 8 unless the start
 * sentinel stands there; then for each character 9 if fewer than seven bits are
 * left, 10 for even parity; 11 if the 78th character, the start sentinel being
 * the first, isn't the end sentinel; then of the LRC character 9, 10, and 12 if
 * it is wrong; 13 if a bit after it is one. */
uint32_t gw_track1_read(const uint8_t *stream, size_t stream_n, uint64_t bits,
                        uint8_t *out, size_t out_n,
                        uint32_t *count, uint32_t *reversed);

/* Divide the characters between the sentinels (ISO/IEC 7813): format code 'B';
 * PAN of 13 to 19 digits; '^'; name of 2 to 26 characters; '^'; expiry as four
 * digits YYMM with MM 01 to 12, or '^' for none; service code as three digits,
 * or '^' for none; then discretionary data, perhaps none. Name and discretionary
 * data hold any of the bytes 32 to 95 but '%', '^' and '?'. The PAN is at offset
 * 1: *pan_n receives its length. The name is at offset *pan_n + 2: *name_n
 * receives its length. *expiry_at receives the offset of the four expiry digits,
 * *service_at that of the three service digits, each 0 if absent. *rest_at
 * receives the offset of the discretionary data, which goes on to the end of the
 * characters.
 * Order: 6 for anything else. */
uint32_t gw_layout1_read(const uint8_t *chars, size_t chars_n,
                         uint32_t *pan_n, uint32_t *name_n, uint32_t *expiry_at,
                         uint32_t *service_at, uint32_t *rest_at);

/* ---- Check pairs modulo 97 (ISO 7064, MOD 97-10) ------------------------ */

/* Test an IBAN (ISO 13616), no spaces: two capitals, two check digits, body.
 * Order: 2 unless 5 to 34 bytes; 3 unless each byte is a digit or capital; 5
 * unless the country is listed; 6 unless the whole length, digits at places 3
 * and 4, and the body's kinds are the country's; 4 unless the check pair is 02
 * to 98 and the remainder 1. */
uint32_t gw_iban_test(const uint8_t *text, size_t text_n);

/* Make an IBAN's check pair: *pair receives the number 2 to 98, to be written as
 * two digits at places 3 and 4.
 * Order: 2 unless the country has 2 bytes and the body 1 to 30; 3 unless each
 * byte is a digit or capital; 5 unless the country is listed; 6 unless the
 * body's length and kinds are the country's. */
uint32_t gw_iban_make(const uint8_t *country, size_t country_n,
                      const uint8_t *body, size_t body_n, uint32_t *pair);

/* Test a creditor reference (ISO 11649): "RF", two check digits, 1 to 21 digits
 * or capitals.
 * Order: 2 unless 5 to 25 bytes; 3 unless each byte is a digit or capital; 6
 * unless it starts with "RF" and digits stand at places 3 and 4; 4 unless the
 * check pair is 02 to 98 and the remainder 1. */
uint32_t gw_creditor_test(const uint8_t *text, size_t text_n);

/* Make a creditor reference's check pair: *pair receives the number 2 to 98.
 * Order: 2 unless the body has 1 to 21 bytes; 3 unless each is a digit or
 * capital. */
uint32_t gw_creditor_make(const uint8_t *body, size_t body_n, uint32_t *pair);

/* ---- The journal -------------------------------------------------------- */

/* A journal is 1 to 2,048 slots of 32 bytes, no header: serial 0 to 3, clock 4
 * to 7, amount 8 to 11, label 12 to 13, PAN length 14, state 15 (0 free, 1 held,
 * 2 released), first six digits 16 to 21, last four 22 to 25, zeros 26 to 31.
 * A new journal is all zero bytes.
 *
 * Well formed: the length is a multiple of 32 in that range, and either every
 * byte is zero, or there is a newest serial b of at least 1 such that, N being
 * the slots and m the smaller of b and N, each serial s from b - m + 1 to b
 * stands in slot (s - 1) mod N with state 1 or 2, amount above 0, PAN length 13
 * to 19, digits as digits, zeros as zeros; all other slots are all zero; and no
 * released record has a higher serial than a held one. Clock and label may be
 * anything. No call compares clocks. Each call below but gw_walk_step and
 * gw_journal_survey checks the whole journal first, and refuses with 16 one that
 * isn't well formed. */

/* Book a payment. The serial after the newest (1 if none) is written whole into
 * its slot as held, and *serial receives it; a released record there is
 * overwritten. No other byte changes. The label and the clock may be anything.
 * Order: 16; 2 unless the PAN has 13 to 19 bytes; 3 unless all digits; 4 unless
 * it passes Luhn; 17 if the amount is 0; 19 if the newest serial is
 * 4,294,967,295; 18 if all slots are held. */
uint32_t gw_journal_book(uint8_t *journal, size_t journal_n,
                         const uint8_t *pan, size_t pan_n,
                         uint16_t label, uint32_t amount, uint32_t clock,
                         uint32_t *serial);

/* Release every held record up to a serial: of each the state byte alone changes.
 * *count and *sum receive how many became released by this call and the sum of
 * their amounts; perhaps none: 0 and 0.
 * Order: 16; 20 if the serial is 0 or above the newest. */
uint32_t gw_journal_release(uint8_t *journal, size_t journal_n, uint32_t serial,
                            uint32_t *count, uint64_t *sum);

/* Show a held record: *at receives the byte offset of its own 32 bytes.
 * Order: 16; 20 unless a record with this serial is held. */
uint32_t gw_journal_show(const uint8_t *journal, size_t journal_n,
                         uint32_t serial, uint32_t *at);

/* Tell the takings: *count and *sum receive the count and sum of held records,
 * *oldest the oldest held serial, 0 for none held, *newest the newest serial,
 * held or released, 0 for an all-zero journal.
 * Order: 16. */
uint32_t gw_journal_tell(const uint8_t *journal, size_t journal_n,
                         uint32_t *count, uint64_t *sum,
                         uint32_t *oldest, uint32_t *newest);

/* Walk over the held records by rising serial, each once: *serial and *at
 * receive the serial and the byte offset of the first held record whose serial
 * is above `after`, both 0 when there is none and the walk is done. Start with
 * `after` 0, and go on with the serial last received. The journal is checked
 * anew at each step, so that the walk stays right if the journal changed in
 * between; a whole walk therefore costs as many checks as there are held
 * records, and one more. gw_walk_start and gw_walk_step cost one.
 * Order: 16. */
uint32_t gw_journal_walk(const uint8_t *journal, size_t journal_n, uint32_t after,
                         uint32_t *serial, uint32_t *at);

/* Walk over the held records at the cost of one check, two calls. The start
 * checks the whole journal: *serial receives the oldest held serial, 0 for none
 * held, and then there is nothing to walk over.
 * Order: 16. */
uint32_t gw_walk_start(const uint8_t *journal, size_t journal_n, uint32_t *serial);

/* A step takes one held record: *at receives its byte offset, *next the serial to
 * go on with, 0 when the walk is done. From a start on, on a journal that stays,
 * the steps take each held record once, by rising serial.
 * A step looks at two slots and checks nothing else, so what it says is right for
 * the journal as it stands, whatever its bytes: with N the whole slots of the
 * journal, a record of a serial stands held in its slot when the serial isn't 0,
 * N is 1 to 2,048, and slot (serial - 1) mod N has that serial and state 1; *next
 * is serial + 1 where the record of that serial stands held in its slot too.
 * Order: 20 unless a record of this serial stands held in its slot. */
uint32_t gw_walk_step(const uint8_t *journal, size_t journal_n, uint32_t serial,
                      uint32_t *at, uint32_t *next);

/* Survey a journal slot by slot, for the technician who meets 16. The output's
 * first bytes receive one byte a slot (enum gw_slot): 0 free (all zero bytes), 1
 * held, 2 released, or 3 damaged, judged by the slot's own 32 bytes and by its
 * serial belonging in that slot; later bytes stay. *formed receives 1 if the
 * journal is well formed, 0 if not. Nothing in the journal changes.
 * Order: 16 only if the length isn't a multiple of 32 from 1 to 2,048 slots; 1
 * if the output has fewer bytes than the journal has slots. */
uint32_t gw_journal_survey(const uint8_t *journal, size_t journal_n,
                           uint8_t *states, size_t states_n, uint32_t *formed);

/* ---- The swipes --------------------------------------------------------- */

/* One swipe, from the stripe to the journal: read track 2 either way round,
 * divide its characters, test the PAN by Luhn, find its record in the range tables
 * as gw_range_find does, ask whether the card has expired on the date given, ask for
 * the PAN in the hot list as gw_hot_find does, and book the amount with that record's
 * label. *serial receives the serial booked. Each swipe checks the whole list.
 *
 * The date is the one that the host sent last: year 2000 to 2099, month, and day. Where the
 * host hasn't sent one yet, give 0 for all three, and no card is taken. Nothing is
 * decided by the box's own clock: `clock` may be anything, and is written into the
 * record. A card is good through the last day of its expiry month, where YY means 20YY:
 * *expires receives 1, and *days the days left from the date to that last day, 0 on the
 * day itself. A card without an expiry isn't refused for it: *expires receives 0, and
 * *days stays as it was.
 *
 * Order: 1 if the scratch has under 37 bytes; 16; 14 for the site's table, then
 * for the acquirer's; 21 for the hot list; 17 if the amount is 0; 23 unless the date is
 * a real day of those years; 19; 18; then the reading's refusals (7 to 13); 6; 4
 * (Luhn); 15; 24 if the card has expired; 22 if the PAN is listed. A refusal leaves the
 * journal and the three numbers as they were.
 *
 * The scratch holds the card's characters while the call is under way. After
 * every answer but refusal 1 its first 37 bytes are zero; no others change, and
 * refusal 1 changes none. */
uint32_t gw_swipe(const uint8_t *stream, size_t stream_n, uint64_t bits,
                  const uint8_t *site, size_t site_n,
                  const uint8_t *acquirer, size_t acquirer_n,
                  const uint64_t *hot, size_t hot_n, uint32_t hot_length,
                  uint32_t amount, uint32_t year, uint32_t month, uint32_t day,
                  uint32_t clock,
                  uint8_t *scratch, size_t scratch_n,
                  uint8_t *journal, size_t journal_n,
                  uint32_t *serial, uint32_t *expires, uint32_t *days);

/* The same of a card on track 1: gw_swipe's answers in gw_swipe's order, with
 * track 1 read and divided (gw_track1_read, gw_layout1_read) in place of track 2,
 * and 76 bytes of scratch in place of 37. */
uint32_t gw_swipe1(const uint8_t *stream, size_t stream_n, uint64_t bits,
                   const uint8_t *site, size_t site_n,
                   const uint8_t *acquirer, size_t acquirer_n,
                   const uint64_t *hot, size_t hot_n, uint32_t hot_length,
                   uint32_t amount, uint32_t year, uint32_t month, uint32_t day,
                   uint32_t clock,
                   uint8_t *scratch, size_t scratch_n,
                   uint8_t *journal, size_t journal_n,
                   uint32_t *serial, uint32_t *expires, uint32_t *days);

/* What a swipe is given, by name: so that a caller needn't count the arguments of the
 * two calls above. Set every member. One that an initialiser leaves out is 0 or NULL,
 * and NULL isn't allowed for an empty table or list either. */
struct gw_swipe_inputs {
    const uint8_t *stream;
    size_t stream_n;
    uint64_t bits;
    const uint8_t *site;
    size_t site_n;
    const uint8_t *acquirer;
    size_t acquirer_n;
    const uint64_t *hot;
    size_t hot_n; /* numbers */
    uint32_t hot_length;
    uint32_t amount;
    uint32_t year, month, day; /* the host's date */
    uint32_t clock;            /* the box's */
    uint8_t *scratch;
    size_t scratch_n;
    uint8_t *journal;
    size_t journal_n;
};

/* gw_swipe on these inputs. */
static inline uint32_t gw_swipe_with(const struct gw_swipe_inputs *in, uint32_t *serial,
                                     uint32_t *expires, uint32_t *days)
{
    return gw_swipe(in->stream, in->stream_n, in->bits, in->site, in->site_n,
                    in->acquirer, in->acquirer_n, in->hot, in->hot_n, in->hot_length,
                    in->amount, in->year, in->month, in->day, in->clock,
                    in->scratch, in->scratch_n, in->journal, in->journal_n,
                    serial, expires, days);
}

/* gw_swipe1 on these inputs. */
static inline uint32_t gw_swipe1_with(const struct gw_swipe_inputs *in, uint32_t *serial,
                                      uint32_t *expires, uint32_t *days)
{
    return gw_swipe1(in->stream, in->stream_n, in->bits, in->site, in->site_n,
                     in->acquirer, in->acquirer_n, in->hot, in->hot_n, in->hot_length,
                     in->amount, in->year, in->month, in->day, in->clock,
                     in->scratch, in->scratch_n, in->journal, in->journal_n,
                     serial, expires, days);
}

/* ---- The host's ledger -------------------------------------------------- */

/* The host's side. For each box the host keeps a ledger of two numbers: `taken`,
 * the last serial taken, so that the one wanted is the next, and `total`. Both are 0
 * while the box's journal is all zero bytes. So a new journal, of a box that was
 * swapped or whose memory was cleared, needs a fresh ledger: by the old one the host
 * answers serials that it took from the old journal, and the box releases payments
 * that the host never took. A fresh ledger for a box that has released already wants
 * a serial that is held no more.
 *
 * The box sends the 32 bytes of any held record, as often as it likes. The host
 * takes the records one serial after another, and after each message that isn't
 * refused it answers *taken. The box calls gw_journal_release with such an answer,
 * and with nothing else. Messages either way may be lost, repeated or come out of
 * order, but aren't altered: then the host's total is the sum of the payments booked
 * up to *taken, and no released payment is missing from it. An answer of 0, while
 * nothing is taken, meets 20 at the box and does no harm; one that comes again, or
 * after a higher one, releases nothing.
 *
 * Where the host's power may fail, the two numbers are kept together, in one write,
 * and answered once they are there. */

/* Take a message, which is any bytes. It is a held record when it has 32 bytes,
 * serial at least 1, state 1, amount above 0, PAN length 13 to 19, digits as digits,
 * zeros as zeros. One whose serial is *taken + 1 moves *taken on by one and adds its
 * amount to *total; any other held record changes nothing. After serial
 * 4,294,967,295 none is wanted.
 * Order: 6 unless the message is a held record; 6 if no messages can have led to
 * the two numbers: *total under *taken, or over *taken times 4,294,967,295. */
uint32_t gw_ledger_take(const uint8_t *message, size_t message_n,
                        uint32_t *taken, uint64_t *total);

#ifdef __cplusplus
}
#endif

#endif
