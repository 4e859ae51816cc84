/* The C host's check: the readings of docs/RULES.md and edge values, through the header that C programs use. */
#include "check.h"
#include "records.h"

static void widening(void)
{
    expect("width 8, 250, reading 3", ubrenchip_widen(8, 250, 3), UBRENCHIP_DONE, 0, 259);
    expect("width 8, 250, reading 121", ubrenchip_widen(8, 250, 121), UBRENCHIP_DONE, 0, 377);
    expect("width 8, 250, reading 122", ubrenchip_widen(8, 250, 122), UBRENCHIP_HALF, 0, 0);
    expect("width 8, 250, reading 123", ubrenchip_widen(8, 250, 123), UBRENCHIP_DONE, 0, 123);
    expect("width 8, -1, reading 0", ubrenchip_widen(8, -1, 0), UBRENCHIP_DONE, 0, 0);
    expect("width 8, 250, reading 256", ubrenchip_widen(8, 250, 256), UBRENCHIP_VALUE, 0, 0);
    expect("width 8, 0, reading 255", ubrenchip_widen(8, 0, 255), UBRENCHIP_DONE, 0, -1);
    expect("width 8, -256, reading 127", ubrenchip_widen(8, -256, 127), UBRENCHIP_DONE, 0, -129);
    expect("width 2, -3, reading 1", ubrenchip_widen(2, -3, 1), UBRENCHIP_DONE, 0, -3);
    expect("width 2, -3, reading 3", ubrenchip_widen(2, -3, 3), UBRENCHIP_HALF, 0, 0);
    expect("width 32, 0, reading 2^31 - 1", ubrenchip_widen(32, 0, 2147483647), UBRENCHIP_DONE, 0, 2147483647);
    expect("width 32, 0, reading 2^31", ubrenchip_widen(32, 0, 2147483648), UBRENCHIP_HALF, 0, 0);
    expect("width 32, 0, reading 2^31 + 1", ubrenchip_widen(32, 0, 2147483649), UBRENCHIP_DONE, 0, -2147483647);
    expect("width 1", ubrenchip_widen(1, 0, 0), UBRENCHIP_VALUE, 0, 0);
    expect("width 33", ubrenchip_widen(33, 0, 0), UBRENCHIP_VALUE, 0, 0);
    expect("width 2^64 - 1", ubrenchip_widen(UINT64_MAX, 0, 0), UBRENCHIP_VALUE, 0, 0);
    expect("position 2^62 - 1", ubrenchip_widen(8, TOP, 255), UBRENCHIP_DONE, 0, TOP);
    expect("position past the top", ubrenchip_widen(8, TOP, 0), UBRENCHIP_RANGE, 0, 0);
    expect("half a turn past the top", ubrenchip_widen(8, TOP, 127), UBRENCHIP_HALF, 0, 0);
    expect("reading 256 past the top", ubrenchip_widen(8, TOP, 256), UBRENCHIP_VALUE, 0, 0);
    expect("reading 256 + 122, half a turn away", ubrenchip_widen(8, 250, 378), UBRENCHIP_VALUE, 0, 0);
    expect("position past the bottom", ubrenchip_widen(8, -TOP, 0), UBRENCHIP_RANGE, 0, 0);
    expect("half a turn past the bottom", ubrenchip_widen(8, -TOP, 129), UBRENCHIP_HALF, 0, 0);
    expect("old position 2^62", ubrenchip_widen(8, TOP + 1, 0), UBRENCHIP_VALUE, 0, 0);
    expect("old position 2^62, half a turn away", ubrenchip_widen(8, TOP + 1, 128), UBRENCHIP_VALUE, 0, 0);
    expect("old position -2^62", ubrenchip_widen(8, -TOP - 1, 0), UBRENCHIP_VALUE, 0, 0);
    expect("old position the least number", ubrenchip_widen(8, INT64_MIN, 0), UBRENCHIP_VALUE, 0, 0);
    for (unsigned width = 2; width <= 32; width++) {
        int64_t half = INT64_C(1) << (width - 1);
        expect("less than half a turn", ubrenchip_widen(width, -1, (uint64_t)half - 2), UBRENCHIP_DONE, 0, half - 2);
        expect("half a turn", ubrenchip_widen(width, -1, (uint64_t)half - 1), UBRENCHIP_HALF, 0, 0);
        expect("more than half a turn", ubrenchip_widen(width, -1, (uint64_t)half), UBRENCHIP_DONE, 0, -half);
        expect("a whole turn", ubrenchip_widen(width, -1, (uint64_t)half * 2), UBRENCHIP_VALUE, 0, 0);
    }
}

static void speed(void)
{
    speed_is("1 in 3 at 1", ubrenchip_speed_by_count(1, 3, 1), 333, 1, 3);
    speed_is("2 in 3 at 1", ubrenchip_speed_by_count(2, 3, 1), 667, -1, 3);
    speed_is("-1 in 3 at 1", ubrenchip_speed_by_count(-1, 3, 1), -333, -1, 3);
    speed_is("-2 in 3 at 1", ubrenchip_speed_by_count(-2, 3, 1), -667, 1, 3);
    speed_is("1 in 1999 at 1", ubrenchip_speed_by_count(1, 1999, 1), 1, -999, 1999);
    speed_is("-1 in 1999 at 1", ubrenchip_speed_by_count(-1, 1999, 1), -1, 999, 1999);
    speed_is("1 in 2000 at 1", ubrenchip_speed_by_count(1, 2000, 1), 1, -1000, 2000);
    speed_is("-1 in 2000 at 1", ubrenchip_speed_by_count(-1, 2000, 1), -1, 1000, 2000);
    speed_is("1 in 2001 at 1", ubrenchip_speed_by_count(1, 2001, 1), 0, 1000, 2001);
    speed_is("-1 in 2001 at 1", ubrenchip_speed_by_count(-1, 2001, 1), 0, -1000, 2001);
    speed_is("3 in 2000 at 1", ubrenchip_speed_by_count(3, 2000, 1), 2, -1000, 2000);
    speed_is("-3 in 2000 at 1", ubrenchip_speed_by_count(-3, 2000, 1), -2, 1000, 2000);
    speed_is("0 in 1 at 1", ubrenchip_speed_by_count(0, 1, 1), 0, 0, 1);
    speed_is("0 in 7 at 5", ubrenchip_speed_by_count(0, 7, 5), 0, 0, 7);
    speed_is("2^32 - 1 samples", ubrenchip_speed_by_count(2147483647, UINT32_MAX, 1), 500, -500, UINT32_MAX);
    speed_is("2^32 - 1 samples back", ubrenchip_speed_by_count(-2147483647, UINT32_MAX, 1), -500, 500, UINT32_MAX);
    speed_is("the most of all three", ubrenchip_speed_by_count(2147483647, UINT32_MAX, 1000000),
             500000000, -500000000, UINT32_MAX);
    speed_is("the most of all three, back", ubrenchip_speed_by_count(-2147483647, UINT32_MAX, 1000000),
             -500000000, 500000000, UINT32_MAX);
    speed_is("all is left over", ubrenchip_speed_by_count(1, UINT32_MAX, 1000000), 0, 1000000000, UINT32_MAX);
    speed_is("all is left over, back", ubrenchip_speed_by_count(-1, UINT32_MAX, 1000000), 0, -1000000000, UINT32_MAX);
    speed_is("the most that fits", ubrenchip_speed_by_count(2147483647, 1, 1000000),
             INT64_C(2147483647000000000), 0, 1);
    speed_is("the least that fits", ubrenchip_speed_by_count(-2147483647, 1, 1000000),
             -INT64_C(2147483647000000000), 0, 1);
    speed_is("a great half", ubrenchip_speed_by_count(2147483647, 16, 999999),
             INT64_C(134217593719772063), -8, 16);
    speed_is("a great half back", ubrenchip_speed_by_count(-2147483647, 16, 999999),
             -INT64_C(134217593719772063), 8, 16);
    speed_is("a long half", ubrenchip_speed_by_count(2, 4000000000, 1000000), 1, -2000000000, 4000000000);
    speed_is("a long half back", ubrenchip_speed_by_count(-2, 4000000000, 1000000), -1, 2000000000, 4000000000);
    speed_refused("no samples", ubrenchip_speed_by_count(1, 0, 1), UBRENCHIP_VALUE);
    speed_refused("2^32 samples", ubrenchip_speed_by_count(1, INT64_C(4294967296), 1), UBRENCHIP_VALUE);
    speed_refused("no rate", ubrenchip_speed_by_count(1, 1, 0), UBRENCHIP_VALUE);
    speed_refused("a rate of 1,000,001", ubrenchip_speed_by_count(1, 1, 1000001), UBRENCHIP_VALUE);
    speed_refused("2^31 counts", ubrenchip_speed_by_count(INT64_C(2147483648), 1, 1), UBRENCHIP_VALUE);
    speed_refused("-2^31 counts", ubrenchip_speed_by_count(-INT64_C(2147483648), 1, 1), UBRENCHIP_VALUE);
    speed_refused("the least number", ubrenchip_speed_by_count(INT64_MIN, 1, 1), UBRENCHIP_VALUE);
}

/* What the header says of every speed, of one. */
static void whole_speed(int64_t difference, uint64_t samples, uint64_t rate)
{
    const ubrenchip_speed got = ubrenchip_speed_by_count(difference, samples, rate);
    const int64_t divisor = (int64_t)samples, twice = 2 * got.remainder;
    holds("a speed is done", got.refusal == UBRENCHIP_DONE && got.found == 0 && got.divisor == samples);
    holds("number and remainder make it up", got.number * divisor + got.remainder == 1000 * difference * (int64_t)rate);
    holds("the remainder is at most half the divisor", -divisor <= twice && twice <= divisor);
    holds("half of it below 0 is left by a number above 0", twice != -divisor || got.number > 0);
    holds("half of it above 0 is left by a number below 0", twice != divisor || got.number < 0);
}

static void whole_speeds(void)
{
    static const int64_t differences[] = {0, 1, 2, 3, 499, 1000003, 2147483646, 2147483647};
    static const uint64_t samples[] = {1, 2, 3, 7, 16, 1999, 2000, 2001, 999983, 4000000000, 4294967294, UINT32_MAX};
    static const uint64_t rates[] = {1, 2, 3, 1000, 999999, 1000000};
    for (unsigned i = 0; i < sizeof differences / sizeof differences[0]; i++)
        for (unsigned j = 0; j < sizeof samples / sizeof samples[0]; j++)
            for (unsigned k = 0; k < sizeof rates / sizeof rates[0]; k++) {
                whole_speed(differences[i], samples[j], rates[k]);
                whole_speed(-differences[i], samples[j], rates[k]);
            }
}

/* A record with one byte changed, judged at a length, which may be longer. */
typedef ubrenchip_answer test(const uint8_t *record, size_t length);

static ubrenchip_answer changed_by(test *judge, const uint8_t *from, unsigned count, unsigned at, uint8_t to, size_t length)
{
    uint8_t record[80] = {0};
    for (unsigned i = 0; i < count; i++)
        record[i] = i == at ? to : from[i];
    return judge(record, length);
}

static ubrenchip_answer changed(unsigned at, uint8_t to, size_t length)
{
    return changed_by(ubrenchip_test_record, saved, sizeof saved, at, to, length);
}

static ubrenchip_answer changed_table(unsigned at, uint8_t to, size_t length)
{
    return changed_by(ubrenchip_test_any, saved_table, sizeof saved_table, at, to, length);
}

static void records(void)
{
    expect("the saved record", ubrenchip_test_record(saved, 34), UBRENCHIP_DONE, 0, 0);
    expect("one byte short", ubrenchip_test_record(saved, 33), UBRENCHIP_RECORD, 0, 0);
    expect("one byte more", changed(0, 0x01, 35), UBRENCHIP_RECORD, 0, 0);
    expect("no bytes at all", ubrenchip_test_record(NULL, 0), UBRENCHIP_RECORD, 0, 0);
    expect("layout 2", changed(4, 0x02, 34), UBRENCHIP_LAYOUT, 2, 0);
    expect("layout 0", changed(4, 0x00, 34), UBRENCHIP_LAYOUT, 0, 0);
    expect("layout 0x0301", changed(3, 0x03, 34), UBRENCHIP_LAYOUT, 0x0301, 0);
    expect("layout 2, five bytes", changed(4, 0x02, 5), UBRENCHIP_LAYOUT, 2, 0);
    expect("layout 2, four bytes", changed(3, 0x07, 4), UBRENCHIP_RECORD, 0, 0);
    expect("kind 3", changed(8, 0x03, 34), UBRENCHIP_VALUE, 0, 0);
    expect("kind 3, nine bytes", changed(8, 0x03, 9), UBRENCHIP_VALUE, 0, 0);
    expect("kind 4, nine bytes", changed(8, 0x04, 9), UBRENCHIP_RECORD, 0, 0);
    expect("depth 0", changed(23, 0x00, 34), UBRENCHIP_VALUE, 0, 0);
    expect("depth 9", changed(23, 0x09, 34), UBRENCHIP_VALUE, 0, 0);
    expect("a position outside its range", changed(12, 0xBF, 34), UBRENCHIP_VALUE, 0, 0);
    expect("another end", changed(31, 0x7E, 34), UBRENCHIP_RECORD, 0, 0);
    expect("a whole table", ubrenchip_test_record(saved_table, 65), UBRENCHIP_LAYOUT, 2, 0);
}

/* The test of both layouts, each by its own rules. */
static void records_of_both(void)
{
    expect("one axis", ubrenchip_test_any(saved, 34), UBRENCHIP_DONE, 0, 0);
    expect("a whole table", ubrenchip_test_any(saved_table, 65), UBRENCHIP_DONE, 0, 0);
    expect("no bytes at all", ubrenchip_test_any(NULL, 0), UBRENCHIP_RECORD, 0, 0);
    for (unsigned length = 0; length < 34; length++)
        expect("one axis, cut", ubrenchip_test_any(saved, length), UBRENCHIP_RECORD, 0, 0);
    for (unsigned length = 0; length < 65; length++)
        expect("a whole table, cut", ubrenchip_test_any(saved_table, length), UBRENCHIP_RECORD, 0, 0);
    expect("one axis, a byte more", changed_by(ubrenchip_test_any, saved, 34, 0, 0x01, 35), UBRENCHIP_RECORD, 0, 0);
    expect("a whole table, a byte more", changed_table(0, 0x01, 66), UBRENCHIP_RECORD, 0, 0);
    expect("layout 0", changed_table(4, 0x00, 65), UBRENCHIP_LAYOUT, 0, 0);
    expect("layout 3", changed_table(4, 0x03, 65), UBRENCHIP_LAYOUT, 3, 0);
    expect("layout 0x0702", changed_table(3, 0x07, 65), UBRENCHIP_LAYOUT, 0x0702, 0);
    expect("layout 3, five bytes", changed_table(4, 0x03, 5), UBRENCHIP_LAYOUT, 3, 0);
    expect("layout 0x07.., four bytes", changed_table(3, 0x07, 4), UBRENCHIP_RECORD, 0, 0);
    expect("a table's fields as layout 1", changed_table(4, 0x01, 65), UBRENCHIP_RECORD, 0, 0);
    expect("an axis's fields as layout 2", changed_by(ubrenchip_test_any, saved, 34, 4, 0x02, 34), UBRENCHIP_RECORD, 0, 0);
    expect("another opening", changed_table(0, 0x08, 65), UBRENCHIP_RECORD, 0, 0);
    expect("another length first", changed_table(2, 0x03, 65), UBRENCHIP_RECORD, 0, 0);
    for (unsigned i = 0; i < 3; i++) {
        uint8_t opening[5] = {0x01, 0x00, 0x02, 0x00, 0x03};
        expect("layout 3 alone", ubrenchip_test_any(opening, 5), UBRENCHIP_LAYOUT, 3, 0);
        opening[i] ^= 0x04;
        expect("a number that is no layout's", ubrenchip_test_any(opening, 5), UBRENCHIP_RECORD, 0, 0);
    }

    /* From the left, first the shape of a field and then its value. */
    expect("17 axes", changed_table(8, 17, 65), UBRENCHIP_VALUE, 0, 0);
    expect("17 axes, nine bytes", changed_table(8, 17, 9), UBRENCHIP_VALUE, 0, 0);
    expect("16 axes, nine bytes", changed_table(8, 16, 9), UBRENCHIP_RECORD, 0, 0);
    expect("one axis and two entries", changed_table(8, 1, 65), UBRENCHIP_RECORD, 0, 0);
    expect("three axes and two entries", changed_table(8, 3, 65), UBRENCHIP_RECORD, 0, 0);
    expect("axis 1 first", changed_table(12, 1, 65), UBRENCHIP_DONE, 0, 0);
    expect("axis 2 twice", changed_table(12, 2, 65), UBRENCHIP_VALUE, 0, 0);
    expect("axis 3 before axis 2", changed_table(12, 3, 65), UBRENCHIP_VALUE, 0, 0);
    expect("axis 3 before axis 2, cut behind the number", changed_table(12, 3, 43), UBRENCHIP_VALUE, 0, 0);
    expect("axis 3 before axis 2, cut before the number", changed_table(12, 3, 42), UBRENCHIP_RECORD, 0, 0);
    expect("axis 255 last", changed_table(42, 255, 65), UBRENCHIP_DONE, 0, 0);
    expect("kind 3", changed_table(16, 0x03, 65), UBRENCHIP_VALUE, 0, 0);
    expect("kind 3, cut behind it", changed_table(16, 0x03, 17), UBRENCHIP_VALUE, 0, 0);
    expect("a counter's kind", changed_table(16, 0x08, 65), UBRENCHIP_RECORD, 0, 0);
    expect("a position outside its range", changed_table(20, 0xBF, 65), UBRENCHIP_VALUE, 0, 0);
    expect("the same, cut behind it", changed_table(20, 0xBF, 28), UBRENCHIP_VALUE, 0, 0);
    expect("the same, cut in the depth's field", changed_table(20, 0xBF, 30), UBRENCHIP_VALUE, 0, 0);
    expect("the same, cut within", changed_table(20, 0xBF, 27), UBRENCHIP_RECORD, 0, 0);
    expect("depth 0", changed_table(31, 0x00, 65), UBRENCHIP_VALUE, 0, 0);
    expect("depth 9", changed_table(31, 0x09, 65), UBRENCHIP_VALUE, 0, 0);
    expect("width 1", changed_table(61, 0x01, 65), UBRENCHIP_VALUE, 0, 0);
    expect("width 33", changed_table(61, 0x21, 65), UBRENCHIP_VALUE, 0, 0);
    expect("width 33, and no end", changed_table(61, 0x21, 62), UBRENCHIP_VALUE, 0, 0);
    expect("another end", changed_table(62, 0x7E, 65), UBRENCHIP_RECORD, 0, 0);
    expect("the same position in layout 1, cut behind it", changed_by(ubrenchip_test_any, saved, 34, 12, 0xBF, 20), UBRENCHIP_RECORD, 0, 0);
}

int main(void)
{
    widening();
    speed();
    whole_speeds();
    records();
    records_of_both();
    return verdict("the C host", 1u << UBRENCHIP_VALUE | 1u << UBRENCHIP_HALF | 1u << UBRENCHIP_RANGE | 1u << UBRENCHIP_LAYOUT |
                                     1u << UBRENCHIP_RECORD);
}
