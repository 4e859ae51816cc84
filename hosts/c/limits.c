/* The numbers that the header gives: each is the last that a call takes, and the next is refused. */
#include "check.h"

static uint64_t table[UBRENCHIP_WORDS_A_ROW * (UBRENCHIP_MOST_AXES + 1)];

/* Sets axis 0 of one up in its erased row: done where it should be. */
static void setup(const char *what, uint64_t kind, uint64_t depth, uint64_t width, uint64_t turn, int fits)
{
    uint32_t refusal = fits ? UBRENCHIP_DONE : UBRENCHIP_VALUE;
    expect("erase", ubrenchip_erase(table, UBRENCHIP_WORDS_A_ROW, 0), UBRENCHIP_DONE, 0, 0);
    expect(what, ubrenchip_setup(table, UBRENCHIP_WORDS_A_ROW, 0, kind, depth, width, turn), refusal, 0, 0);
}

static void kinds_and_configurations(void)
{
    for (uint64_t kind = 0; kind < 16; kind++) {
        int sampled = kind == UBRENCHIP_KIND_X1 || kind == UBRENCHIP_KIND_X2 || kind == UBRENCHIP_KIND_X4;
        setup("a kind that is sampled", kind, UBRENCHIP_DEPTH_LEAST, 0, 0, sampled);
        setup("a kind that is read", kind, 0, UBRENCHIP_WIDTH_LEAST, 0, kind == UBRENCHIP_KIND_COUNTER);
    }
    setup("less than the least depth", UBRENCHIP_KIND_X4, UBRENCHIP_DEPTH_LEAST - 1, 0, 0, 0);
    setup("the most depth", UBRENCHIP_KIND_X4, UBRENCHIP_DEPTH_MOST, 0, 0, 1);
    setup("more depth", UBRENCHIP_KIND_X4, UBRENCHIP_DEPTH_MOST + 1, 0, 0, 0);
    setup("the most counts per turn", UBRENCHIP_KIND_X4, 1, 0, UBRENCHIP_TURN_LIMIT, 1);
    setup("more counts per turn", UBRENCHIP_KIND_X4, 1, 0, (uint64_t)UBRENCHIP_TURN_LIMIT + 1, 0);
    setup("less than the least width", UBRENCHIP_KIND_COUNTER, 0, UBRENCHIP_WIDTH_LEAST - 1, 0, 0);
    setup("the most width", UBRENCHIP_KIND_COUNTER, 0, UBRENCHIP_WIDTH_MOST, 0, 1);
    setup("more width", UBRENCHIP_KIND_COUNTER, 0, UBRENCHIP_WIDTH_MOST + 1, 0, 0);
}

static void positions_and_speeds(void)
{
    const size_t words = UBRENCHIP_WORDS_A_ROW;
    const uint64_t samples = UBRENCHIP_SAMPLES_LIMIT;
    setup("an axis", UBRENCHIP_KIND_X4, 1, 0, 0, 1);
    expect("the last position", ubrenchip_preset(table, words, 0, UBRENCHIP_POSITION_LIMIT), UBRENCHIP_DONE, 0, 0);
    expect("the first position", ubrenchip_preset(table, words, 0, -UBRENCHIP_POSITION_LIMIT), UBRENCHIP_DONE, 0, 0);
    expect("past the last", ubrenchip_preset(table, words, 0, UBRENCHIP_POSITION_LIMIT + 1), UBRENCHIP_VALUE, 0, 0);
    expect("past the first", ubrenchip_preset(table, words, 0, -UBRENCHIP_POSITION_LIMIT - 1), UBRENCHIP_VALUE, 0, 0);
    speed_is("the most rate", ubrenchip_speed_by_count(1, 1, UBRENCHIP_RATE_LIMIT), 1000000000, 0, 1);
    speed_refused("more rate", ubrenchip_speed_by_count(1, 1, UBRENCHIP_RATE_LIMIT + 1), UBRENCHIP_VALUE);
    speed_is("the most samples", ubrenchip_speed_by_count(1, samples, 1), 0, 1000, samples);
    speed_refused("more samples", ubrenchip_speed_by_count(1, samples + 1, 1), UBRENCHIP_VALUE);
    speed_is("the most counts", ubrenchip_speed_by_count(UBRENCHIP_DIFFERENCE_LIMIT, 1000, 1),
             UBRENCHIP_DIFFERENCE_LIMIT, 0, 1000);
    speed_refused("more counts", ubrenchip_speed_by_count(UBRENCHIP_DIFFERENCE_LIMIT + 1, 1000, 1), UBRENCHIP_VALUE);
    speed_is("the least counts", ubrenchip_speed_by_count(-UBRENCHIP_DIFFERENCE_LIMIT, 1000, 1),
             -UBRENCHIP_DIFFERENCE_LIMIT, 0, 1000);
    speed_refused("fewer counts", ubrenchip_speed_by_count(-UBRENCHIP_DIFFERENCE_LIMIT - 1, 1000, 1), UBRENCHIP_VALUE);
}

static void tables_records_and_doubles(void)
{
    const size_t most = UBRENCHIP_WORDS_A_ROW * UBRENCHIP_MOST_AXES;
    uint8_t record[UBRENCHIP_RECORD_BYTES_TABLE];
    expect("the last axis", ubrenchip_setup(table, most, UBRENCHIP_MOST_AXES - 1, UBRENCHIP_KIND_X4, 1, 0, 0), UBRENCHIP_DONE, 0, 0);
    expect("one more", ubrenchip_erase(table, most, UBRENCHIP_MOST_AXES), UBRENCHIP_AXIS, 0, 0);
    expect("a longer table", ubrenchip_erase(table, most + UBRENCHIP_WORDS_A_ROW, 0), UBRENCHIP_LENGTH, 0, 0);
    setup("a counter", UBRENCHIP_KIND_COUNTER, 0, 8, 0, 1);
    expect("a counter's record", ubrenchip_save(table, most, 0, record, UBRENCHIP_RECORD_BYTES_COUNTER), UBRENCHIP_DONE, 0,
           UBRENCHIP_RECORD_BYTES_COUNTER);
    expect("a byte less", ubrenchip_save(table, most, 0, record, UBRENCHIP_RECORD_BYTES_COUNTER - 1), UBRENCHIP_ROOM, 0, 0);
    setup("a sampled axis", UBRENCHIP_KIND_X1, 1, 0, 0, 1);
    expect("its record", ubrenchip_save(table, most, 0, record, UBRENCHIP_RECORD_BYTES_SAMPLED), UBRENCHIP_DONE, 0,
           UBRENCHIP_RECORD_BYTES_SAMPLED);
    expect("a byte less", ubrenchip_save(table, most, 0, record, UBRENCHIP_RECORD_BYTES_SAMPLED - 1), UBRENCHIP_ROOM, 0, 0);
    for (unsigned i = 1; i < UBRENCHIP_MOST_AXES - 1; i++)
        expect("an axis more", ubrenchip_setup(table, most, i, UBRENCHIP_KIND_X2, 1, 0, 0), UBRENCHIP_DONE, 0, 0);
    expect("the record of all", ubrenchip_save_table(table, most, record, sizeof record), UBRENCHIP_DONE, 0, UBRENCHIP_RECORD_BYTES_TABLE);
    expect("a byte less", ubrenchip_save_table(table, most, record, sizeof record - 1), UBRENCHIP_ROOM, 0, 0);
    record[8] = UBRENCHIP_MOST_AXES + 1; /* the number of axes in the record */
    expect("an axis too many", ubrenchip_test_any(record, sizeof record), UBRENCHIP_VALUE, 0, 0);
    for (unsigned i = 0; i <= UBRENCHIP_DOUBLES_LIMIT + 1; i++)
        ubrenchip_sample(table, most, i % 2 ? 3 : 0);
    ubrenchip_answer doubles = {0, 0, ubrenchip_view(table, most, 0).doubles};
    expect("doubles stay", doubles, UBRENCHIP_DONE, 0, UBRENCHIP_DOUBLES_LIMIT);
}

int main(void)
{
    kinds_and_configurations();
    positions_and_speeds();
    tables_records_and_doubles();
    return verdict("the header's numbers", 1u << UBRENCHIP_DONE | 1u << UBRENCHIP_LENGTH | 1u << UBRENCHIP_AXIS |
                                               1u << UBRENCHIP_VALUE | 1u << UBRENCHIP_ROOM);
}
