/*
 * Ubrenchip: encoder axes in a table that the caller lends, and the operations that need no table, for C.
 *
 * Every call tests its own arguments and always returns. A refused call changes no word of the table and
 * no byte of a buffer. What the caller still owes: each pointer with its length is valid memory, aligned
 * for its type (a null pointer with length 0 is an empty slice); the two slices of a save or a restore, be
 * it of one axis or of the whole table, do not overlap; and nobody else touches that memory while a call
 * runs. Nothing is kept between calls.
 *
 * In an interrupt handler: every call may be made there. None waits, allocates, or keeps anything of its
 * own, and each ends after a bounded number of steps (docs/HOSTS.md has stack and instructions). Only the
 * memory is shared: a handler must not call with a table or a buffer that a call it interrupted is using.
 * So where the handler samples, hold its interrupt off around every call on that table outside it; no
 * other lock is needed. A call is not atomic: half done, a row is neither the old one nor the new one.
 *
 * docs/RULES.md says what every call does, docs/HOSTS.md how to build and link.
 */
#ifndef UBRENCHIP_H
#define UBRENCHIP_H

#include <stddef.h>
#include <stdint.h>

#ifdef __cplusplus
extern "C" {
#endif

/* The version of calls, rows, records and this header; CHANGELOG.md has its rule. */
#define UBRENCHIP_VERSION "4.1.0"
#define UBRENCHIP_VERSION_MAJOR 4
#define UBRENCHIP_VERSION_MINOR 1
#define UBRENCHIP_VERSION_PATCH 0

/* The kinds of axis. */
#define UBRENCHIP_KIND_X1 1      /* one count a cycle */
#define UBRENCHIP_KIND_X2 2      /* the edges of A */
#define UBRENCHIP_KIND_X4 4      /* every edge of A and B */
#define UBRENCHIP_KIND_COUNTER 8 /* a narrow counter, which is read and not sampled */

/* A table of n axes, n from 1 to UBRENCHIP_MOST_AXES: uint64_t table[UBRENCHIP_WORDS_A_ROW * n], zeroed. */
#define UBRENCHIP_WORDS_A_ROW 4
#define UBRENCHIP_MOST_AXES 16

/* The bytes of a saved record of one axis, layout 1; the first is room for any. */
#define UBRENCHIP_RECORD_BYTES_SAMPLED 34
#define UBRENCHIP_RECORD_BYTES_COUNTER 27

/* The most bytes of a record of the whole table, layout 2: 12, and 30 for each of UBRENCHIP_MOST_AXES. */
#define UBRENCHIP_RECORD_BYTES_TABLE 492

/* The limits of what a call takes; each is itself still allowed. */
#define UBRENCHIP_POSITION_LIMIT INT64_C(4611686018427387903) /* 2^62 - 1, either way */
#define UBRENCHIP_DEPTH_LEAST 1
#define UBRENCHIP_DEPTH_MOST 8
#define UBRENCHIP_WIDTH_LEAST 2
#define UBRENCHIP_WIDTH_MOST 32
#define UBRENCHIP_TURN_LIMIT UINT32_C(4294967295)      /* counts per turn; 0 for no index check */
#define UBRENCHIP_DIFFERENCE_LIMIT INT64_C(2147483647) /* counts, either way */
#define UBRENCHIP_SAMPLES_LIMIT UINT32_C(4294967295)   /* samples; the least is 1 */
#define UBRENCHIP_RATE_LIMIT 1000000                   /* samples a second; the least is 1 */
#define UBRENCHIP_DOUBLES_LIMIT 65535                  /* where doubles stay */

/* Why a call is refused. 0 is done. */
enum ubrenchip_refusal {
    UBRENCHIP_DONE = 0,
    UBRENCHIP_LENGTH = 1,    /* the table's slice is not 4n words, n from 1 to 16 */
    UBRENCHIP_AXIS = 2,      /* there is no such axis */
    UBRENCHIP_BROKEN = 3,    /* the row holds what no call could have left there */
    UBRENCHIP_EMPTY = 4,     /* the row holds no axis */
    UBRENCHIP_KIND = 5,      /* the call is for the other kind of axis */
    UBRENCHIP_VALUE = 6,     /* an argument or a record's value is outside its limits */
    UBRENCHIP_HALF = 7,      /* the reading lies exactly half a counter turn away */
    UBRENCHIP_RANGE = 8,     /* the position would leave its range */
    UBRENCHIP_NO_PERIOD = 9, /* the last two steps give no period: see ubrenchip_speed_by_period */
    UBRENCHIP_ROOM = 10,     /* the buffer is too small */
    UBRENCHIP_LAYOUT = 11,   /* a record of another layout, whose number is in `found` */
    UBRENCHIP_RECORD = 12,   /* not a record, or a misshapen one */
    UBRENCHIP_OCCUPIED = 13  /* a row is not empty: erase it first */
};

/* What most calls answer. On a refusal the value is 0; `found` is 0 but for LAYOUT. */
typedef struct ubrenchip_answer {
    uint32_t refusal; /* UBRENCHIP_DONE, or why not */
    uint32_t found;   /* the layout number that LAYOUT found */
    int64_t value;    /* the call's value */
} ubrenchip_answer;

/* ---- without a table: the locator's own three, and a test of records of both layouts ---- */

/*
 * The position that `reading`, the count of a counter of `width` bits, says, where the last known
 * position is `position`: the one nearest to it that has the reading as its low bits. It is the true
 * position wherever the shaft moved less than half a counter turn since.
 * Widths are 2 to 32; positions -(2^62 - 1) to 2^62 - 1; readings 0 to 2^width - 1.
 * Refusals, in this order: VALUE, HALF, RANGE.
 */
ubrenchip_answer ubrenchip_widen(uint64_t width, int64_t position, uint64_t reading);

/*
 * What a speed answers: number * divisor + remainder is exactly 1000 * counts * rate. The remainder is at
 * most half the divisor, either way. Where it is exactly half, the number is still the one further from
 * zero, so the two have opposite signs: -1 count over 2,000 samples at rate 1 is number -1, remainder 1000
 * and divisor 2000. All three are 0 on a refusal.
 *
 * Where divisor and rate stay the same, numbers add up and remainders add up, so that a sum of both does
 * not drift as one of numbers alone does. How a long sum is kept exact is shown in docs/HOSTS.md.
 */
typedef struct ubrenchip_speed {
    uint32_t refusal;  /* UBRENCHIP_DONE, or why not */
    uint32_t found;    /* always 0: no speed reads a record */
    int64_t number;    /* thousandths of a count a second, rounded to the nearest; halves away from zero */
    int64_t remainder; /* what the number leaves over: above 0 where the number is too small */
    uint64_t divisor;  /* samples, below 2^32 */
} ubrenchip_speed;

/*
 * The speed of a count difference over a number of samples at `rate` samples a second, in thousandths
 * of a count a second, rounded to the nearest; from the middle between two, away from zero. The counts of
 * the answer are the difference, and its divisor is the samples.
 * Differences are -(2^31 - 1) to 2^31 - 1; samples 1 to 2^32 - 1; rates 1 to 1,000,000.
 * Refusal: VALUE.
 */
ubrenchip_speed ubrenchip_speed_by_count(int64_t difference, uint64_t samples, uint64_t rate);

/*
 * Whether a slice of bytes is a saved record of one axis, layout 1, the whole of it; value 0. It is a test
 * of that layout and stays one: a record of the whole table is LAYOUT here, with the number 2.
 * Refusals: LAYOUT with the number found, RECORD, VALUE, in the order of the record's own checks.
 */
ubrenchip_answer ubrenchip_test_record(const uint8_t *record, size_t length);

/*
 * Whether a slice of bytes is a saved record of either layout, the whole of it; value 0. The layout number
 * in the record decides how it is judged: 1, one axis, as by ubrenchip_test_record; 2, the whole table, as
 * by ubrenchip_restore_table before it looks at rows, so that a restore of an accepted record can still be
 * refused as AXIS or OCCUPIED. An accepted slice is of one axis where its fifth byte is 1, and of the whole
 * table where that is 2.
 * Refusals: LAYOUT with the number found, which is then a third one; RECORD and VALUE, in the order of that
 * layout's own checks. A slice that does not open with the field of a layout at all is RECORD.
 */
ubrenchip_answer ubrenchip_test_any(const uint8_t *record, size_t length);

/* ---- with a table ----
 *
 * A table is 4n words for n axes, n from 1 to 16, zeroed at first: every axis is then empty. `words` is
 * the number of words. The calls that name an axis refuse LENGTH, then AXIS, then BROKEN and EMPTY
 * (setup, erase and restore never do), then KIND, and then what each names below, in that order.
 * Setup and restore put an axis into an empty row alone, one whose four words are all 0. Any other row is
 * OCCUPIED, a broken one too. Erase empties any row, and is the only call that does.
 */

/*
 * What a port sample answers: bit k of each mask is axis k's. Masks are 64 bits wide here, whatever the
 * number of axes; bits at and above UBRENCHIP_MOST_AXES are 0. All are 0 on a refusal.
 */
typedef struct ubrenchip_sampled {
    uint32_t refusal;
    uint32_t found;   /* 0 */
    uint64_t doubles; /* a double step on this sample: the count is not to be trusted */
    uint64_t index;   /* a reference edge on this sample: see ubrenchip_sample */
    uint64_t broken;  /* the row is broken */
} ubrenchip_sampled;

/*
 * One sample of the port: axis k owns bits 4k to 4k + 3, which are A, B, Z and one that is not read.
 * A reference edge is a rise of filtered Z on a step forward, or a fall of it on a step back: one angle of
 * the shaft, from either side. A step is here what x4 counts, whatever the axis's own kind counts.
 * Refusal: LENGTH only. A broken row is marked and stops no other.
 */
ubrenchip_sampled ubrenchip_sample(uint64_t *table, size_t words, uint64_t port);

/*
 * Sets an axis up in an empty row, at position 0. Kinds 1, 2 and 4 (x1, x2, x4): depth 1 to 8, width 0,
 * up to 2^32 - 1 counts per turn, 0 for no index check. Kind 8 (a narrow counter): width 2 to 32, depth 0,
 * counts per turn 0. Refusals, in this order: OCCUPIED, VALUE. A row that is not empty is OCCUPIED, a
 * broken one too: erase it first.
 */
ubrenchip_answer ubrenchip_setup(uint64_t *table, size_t words, uint64_t axis, uint64_t kind, uint64_t depth,
                                 uint64_t width, uint64_t turn);

/* Empties a row, whatever it held: an axis, which is lost with its count, a broken row, or nothing. */
ubrenchip_answer ubrenchip_erase(uint64_t *table, size_t words, uint64_t axis);

/* Sets the position and clears RANGE and HOMED; sampled axes and counters. Refusal: VALUE. */
ubrenchip_answer ubrenchip_preset(uint64_t *table, size_t words, uint64_t axis, int64_t position);

/*
 * Makes the next reference edge home the axis: sets ARMED and clears HOMED. The edge becomes position 0.
 * After a step forward over it the axis stands there; after a step back it stands where that step leads
 * from 0, at -1 in x4. Sampled axes only.
 */
ubrenchip_answer ubrenchip_arm(uint64_t *table, size_t words, uint64_t axis);

/* Sets doubles to 0 and clears INDEX. Sampled axes only. */
ubrenchip_answer ubrenchip_acknowledge(uint64_t *table, size_t words, uint64_t axis);

/* What a view shows; all 0 on a refusal. A flag is 0 or 1; a counter has no flags and no doubles. */
typedef struct ubrenchip_viewed {
    uint32_t refusal;
    uint32_t found; /* 0 */
    int64_t position;
    uint32_t kind;    /* UBRENCHIP_KIND_X1, _X2, _X4 or _COUNTER */
    uint32_t doubles; /* double steps since setup, restore or acknowledge, at most UBRENCHIP_DOUBLES_LIMIT */
    uint32_t primed;
    uint32_t armed;
    uint32_t homed;
    uint32_t range;
    uint32_t index;  /* a reference edge came at a position that is not a whole number of turns */
    uint32_t unused; /* 0 */
} ubrenchip_viewed;

/* Looks at an axis. */
ubrenchip_viewed ubrenchip_view(const uint64_t *table, size_t words, uint64_t axis);

/* A narrow counter's reading: stores and answers the position. Refusals: VALUE, HALF, RANGE. */
ubrenchip_answer ubrenchip_reading(uint64_t *table, size_t words, uint64_t axis, uint64_t reading);

/*
 * Speed by period at `rate` samples a second, in thousandths of a count a second. Sampled axes only.
 * The counts of the answer are 1 forward and -1 back. Its divisor is the period, the samples between the
 * last two steps, or the age, the samples since the last step up to 2^32 - 1, whichever is larger.
 * Refusals: VALUE, NO PERIOD. There is no period before the second step, after a step that turned back,
 * after a double step, and after two steps that are 2^32 - 1 samples or more apart.
 */
ubrenchip_speed ubrenchip_speed_by_period(const uint64_t *table, size_t words, uint64_t axis, uint64_t rate);

/* Saves an axis's configuration and position as a record, 34 or 27 bytes, whose number is answered. Refusal: ROOM. */
ubrenchip_answer ubrenchip_save(const uint64_t *table, size_t words, uint64_t axis, uint8_t *buffer, size_t length);

/*
 * Sets an axis up in an empty row from a whole record, as a setup and then a preset would. Refusals, in this
 * order: those of ubrenchip_test_record, OCCUPIED. A row that is not empty is OCCUPIED, a broken one too:
 * erase it first. A record that is refused anywhere has its own reason here, whatever the row holds.
 */
ubrenchip_answer ubrenchip_restore(uint64_t *table, size_t words, uint64_t axis, const uint8_t *record,
                                   size_t length);

/* ---- the whole table at once ----
 *
 * These two name no axis. What they write and read is a record of layout 2, with configuration and position
 * of every axis that the table holds (docs/FORMATS.md); the calls above write and read layout 1, one axis.
 * A record has no checksum, and nothing may stand behind its end: whoever stores one stores the number of
 * its bytes too, and tests and restores so many and no more.
 */

/*
 * Saves every axis of the table as one record, at most UBRENCHIP_RECORD_BYTES_TABLE bytes, whose number is
 * answered. Empty rows do not show in it, and a table without an axis is a record of no axes, 12 bytes.
 * Bytes beyond the record are not touched, and none at all where the call is refused.
 * Refusals, in this order: LENGTH; BROKEN, where any row is broken; ROOM, which does not say how many bytes
 * are missing and never comes where UBRENCHIP_RECORD_BYTES_TABLE are lent.
 */
ubrenchip_answer ubrenchip_save_table(const uint64_t *table, size_t words, uint8_t *buffer, size_t length);

/*
 * Sets up all axes of a whole record in an empty table, each in the row of its number, as a setup and then
 * a preset would; the other rows stay empty. The table may have more rows than the one that was saved, or
 * fewer, as long as every axis of the record finds its row. It is all or nothing: where the call is refused
 * no word changes.
 * Refusals, in this order: LENGTH; LAYOUT with the number found, which is 1 for the record of one axis;
 * RECORD and VALUE, whichever comes first as the record is read from the left, first the shape of a field
 * and then its value; AXIS, where the table has no row for an axis of the record; OCCUPIED, where any row
 * of the table is not empty: a broken one too, one that the record does not name too, and for a record of
 * no axes too.
 */
ubrenchip_answer ubrenchip_restore_table(uint64_t *table, size_t words, const uint8_t *record, size_t length);

#ifdef __cplusplus
}
#endif

#endif
