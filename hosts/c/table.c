/* The calls on a table, through the header that C programs use: the readings of docs/RULES.md, every refusal, what each call leaves of
   every word and byte, and runs past the limits. */
#include "check.h"
#include "records.h"

#define AXES 4
#define WORDS (4 * AXES)

/* Flags of word 1. */
#define PRIMED (1u << 14)
#define ARMED (1u << 15)
#define HOMED (1u << 16)
#define RANGE (1u << 17)
#define INDEX (1u << 18)

static uint64_t table[WORDS];
static uint64_t before[WORDS];

/* A counter of width 12 at 99. */
static const uint8_t saved_counter[27] = {0x01, 0x00, 0x02, 0x00, 0x01, 0x02, 0x00, 0x01, 0x08, 0x03, 0x00, 0x08, 0x00, 0x00,
                                          0x00, 0x00, 0x00, 0x00, 0x00, 0x63, 0x05, 0x00, 0x01, 0x0C, 0x7F, 0x00, 0x00};

/* A table without an axis. */
static const uint8_t saved_nothing[12] = {0x01, 0x00, 0x02, 0x00, 0x02, 0x08, 0x00, 0x01, 0x00, 0x7F, 0x00, 0x00};

/* A saved record with one byte changed, at a length, and why it is refused. */
typedef struct flawed_record {
    const char *what;
    unsigned at;
    uint8_t to;
    unsigned length;
    uint32_t refusal, found;
} flawed_record;

static const flawed_record flawed[] = {
    {"one byte short", 0, 0x01, 33, UBRENCHIP_RECORD, 0},
    {"one byte more", 0, 0x01, 35, UBRENCHIP_RECORD, 0},
    {"no bytes", 0, 0x01, 0, UBRENCHIP_RECORD, 0},
    {"another end", 31, 0x7E, 34, UBRENCHIP_RECORD, 0},
    {"kind 3", 8, 0x03, 34, UBRENCHIP_VALUE, 0},
    {"depth 9", 23, 0x09, 34, UBRENCHIP_VALUE, 0},
    {"a position outside its range", 12, 0xBF, 34, UBRENCHIP_VALUE, 0},
    {"layout 0x1201", 3, 0x12, 34, UBRENCHIP_LAYOUT, 0x1201},
    {"layout 0, five bytes", 4, 0x00, 5, UBRENCHIP_LAYOUT, 0},
    {"layout 2", 4, 0x02, 34, UBRENCHIP_LAYOUT, 2},
};

/* The same of the record of a table. From the left, first the shape of a field and then its value. */
static const flawed_record flawed_table[] = {
    {"one byte short", 0, 0x01, 64, UBRENCHIP_RECORD, 0},
    {"one byte more", 0, 0x01, 66, UBRENCHIP_RECORD, 0},
    {"layout 1", 4, 0x01, 65, UBRENCHIP_LAYOUT, 1},
    {"layout 0x1202, five bytes", 3, 0x12, 5, UBRENCHIP_LAYOUT, 0x1202},
    {"layout 0x12.., four bytes", 3, 0x12, 4, UBRENCHIP_RECORD, 0},
    {"17 axes", 8, 17, 65, UBRENCHIP_VALUE, 0},
    {"one axis and two entries", 8, 1, 65, UBRENCHIP_RECORD, 0},
    {"three axes and two entries", 8, 3, 65, UBRENCHIP_RECORD, 0},
    {"an axis twice", 42, 0, 65, UBRENCHIP_VALUE, 0},
    {"an axis twice, cut behind its number", 42, 0, 43, UBRENCHIP_VALUE, 0},
    {"axes that descend", 12, 3, 65, UBRENCHIP_VALUE, 0},
    {"kind 3", 16, 0x03, 65, UBRENCHIP_VALUE, 0},
    {"another kind's fields", 46, 0x04, 65, UBRENCHIP_RECORD, 0},
    {"a position outside its range", 50, 0x40, 65, UBRENCHIP_VALUE, 0},
    {"the same, cut behind it", 50, 0x40, 58, UBRENCHIP_VALUE, 0},
    {"the same, cut within", 50, 0x40, 57, UBRENCHIP_RECORD, 0},
    {"depth 9", 31, 0x09, 65, UBRENCHIP_VALUE, 0},
    {"width 33, and no end", 61, 0x21, 62, UBRENCHIP_VALUE, 0},
    {"another end", 62, 0x7E, 65, UBRENCHIP_RECORD, 0},
};

/* What a setup takes, and whether it fits, so that it is done in an empty row. The first two are those of the records above. */
typedef struct configuration {
    const char *what;
    uint64_t kind, depth, width, turn;
    int fits;
} configuration;

static const configuration configurations[] = {
    {"x4, depth 3, 4096 a turn", 4, 3, 0, 4096, 1},
    {"counter of width 12", 8, 0, 12, 0, 1},
    {"x2, depth 1, no check", 2, 1, 0, 0, 1},
    {"x1, depth 8, 2^32 - 1 a turn", 1, 8, 0, UINT32_MAX, 1},
    {"counter of width 2", 8, 0, 2, 0, 1},
    {"counter of width 32", 8, 0, 32, 0, 1},
    {"depth 9", 4, 9, 0, 4096, 0},
    {"depth 0", 4, 0, 0, 4096, 0},
    {"x4 with a width", 4, 3, 8, 4096, 0},
    {"2^32 a turn", 4, 3, 0, (uint64_t)UINT32_MAX + 1, 0},
    {"kind 0", 0, 0, 0, 0, 0},
    {"kind 3", 3, 3, 0, 4096, 0},
    {"kind 256 + 4", 260, 3, 0, 4096, 0},
    {"width 1", 8, 0, 1, 0, 0},
    {"width 33", 8, 0, 33, 0, 0},
    {"counter with a depth", 8, 1, 32, 0, 0},
    {"counter with a turn", 8, 0, 32, 1, 0},
};

#define COUNT(list) (sizeof(list) / sizeof(list)[0])

/* Word 0 at a position. */
static uint64_t at(int64_t position)
{
    return (uint64_t)(position + TOP + 1);
}

/* ---- expectations */

static void done(const char *what, ubrenchip_answer got)
{
    expect(what, got, UBRENCHIP_DONE, 0, 0);
}

static void value(const char *what, ubrenchip_answer got, int64_t stated)
{
    expect(what, got, UBRENCHIP_DONE, 0, stated);
}

static void refused(const char *what, ubrenchip_answer got, uint32_t refusal)
{
    expect(what, got, refusal, 0, 0);
}

static void same(const char *what, uint64_t got, uint64_t stated)
{
    if (!counted(got == stated))
        printf("WRONG: %s: %llu; it should be %llu\n", what, (unsigned long long)got, (unsigned long long)stated);
}

static void sampled(const char *what, ubrenchip_sampled got, ubrenchip_sampled stated)
{
    same(what, got.refusal, stated.refusal);
    same(what, got.found, stated.found);
    same(what, got.doubles, stated.doubles);
    same(what, got.index, stated.index);
    same(what, got.broken, stated.broken);
}

static void shows(const char *what, ubrenchip_viewed got, ubrenchip_viewed stated)
{
    same(what, got.refusal, stated.refusal);
    same(what, got.found, stated.found);
    same(what, (uint64_t)got.position, (uint64_t)stated.position);
    same(what, got.kind, stated.kind);
    same(what, got.doubles, stated.doubles);
    same(what, got.primed, stated.primed);
    same(what, got.armed, stated.armed);
    same(what, got.homed, stated.homed);
    same(what, got.range, stated.range);
    same(what, got.index, stated.index);
    same(what, got.unused, stated.unused);
}

/* The four words of an axis. */
static void row(const char *what, unsigned axis, uint64_t w0, uint64_t w1, uint64_t w2, uint64_t w3)
{
    same(what, table[4 * axis], w0);
    same(what, table[4 * axis + 1], w1);
    same(what, table[4 * axis + 2], w2);
    same(what, table[4 * axis + 3], w3);
}

static void remember(void)
{
    for (unsigned i = 0; i < WORDS; i++)
        before[i] = table[i];
}

static void kept(const char *what)
{
    for (unsigned i = 0; i < WORDS; i++)
        same(what, table[i], before[i]);
}

/* Every row but one. */
static void others_kept(const char *what, unsigned axis)
{
    for (unsigned i = 0; i < WORDS; i++) {
        if (i / 4 != axis)
            same(what, table[i], before[i]);
    }
}

/* What stands in a buffer before a save: at each place another byte. */
static uint8_t filler(unsigned at)
{
    return (uint8_t)(0xA5 + 7 * at);
}

static void fill(uint8_t *buffer, unsigned length)
{
    for (unsigned i = 0; i < length; i++)
        buffer[i] = filler(i);
}

/* The record in front, and beyond it every byte as it was. */
static void written(const char *what, const uint8_t *buffer, unsigned length, const uint8_t *record, unsigned count)
{
    for (unsigned i = 0; i < length; i++)
        same(what, buffer[i], i < count ? record[i] : filler(i));
}

/* Every byte as it was. */
static void unwritten(const char *what, const uint8_t *buffer, unsigned length)
{
    written(what, buffer, length, NULL, 0);
}

/* Every row empty. */
static void empty(void)
{
    for (unsigned i = 0; i < WORDS; i++)
        table[i] = 0;
}

/* ---- setups and restores, into rows that are empty or not */

static ubrenchip_answer set_up(unsigned axis, const configuration *to)
{
    return ubrenchip_setup(table, WORDS, axis, to->kind, to->depth, to->width, to->turn);
}

static ubrenchip_answer restore_saved(unsigned axis)
{
    return ubrenchip_restore(table, WORDS, axis, saved, sizeof saved);
}

static ubrenchip_answer restore_counter(unsigned axis)
{
    return ubrenchip_restore(table, WORDS, axis, saved_counter, sizeof saved_counter);
}

/* The row of a new axis at a position. */
static void newly(const char *what, unsigned axis, const configuration *to, int64_t position)
{
    row(what, axis, at(position), to->kind | to->depth << 4 | to->width << 8, 0, to->turn);
}

/* A restore from a flawed record: refused for its flaw, whatever the row holds. */
static void restore_flawed(unsigned axis, const flawed_record *by)
{
    uint8_t record[35] = {0};
    for (unsigned i = 0; i < sizeof saved; i++)
        record[i] = i == by->at ? by->to : saved[i];
    expect(by->what, ubrenchip_restore(table, WORDS, axis, record, by->length), by->refusal, by->found, 0);
}

/* Restores of the whole table. */

static ubrenchip_answer restore_table(const uint8_t *record, size_t length)
{
    return ubrenchip_restore_table(table, WORDS, record, length);
}

/* From a flawed record of a table: refused for its flaw, whatever the rows hold; so is each cut of a good one. No word changes. */
static void table_refused_in_any(void)
{
    remember();
    for (unsigned i = 0; i < COUNT(flawed_table); i++) {
        const flawed_record *by = &flawed_table[i];
        uint8_t record[66] = {0};
        for (unsigned k = 0; k < sizeof saved_table; k++)
            record[k] = k == by->at ? by->to : saved_table[k];
        expect(by->what, restore_table(record, by->length), by->refusal, by->found, 0);
        kept(by->what);
    }
    for (unsigned length = 0; length < sizeof saved_table; length++)
        refused("a cut record", restore_table(saved_table, length), UBRENCHIP_RECORD);
    refused("no record", restore_table(NULL, 0), UBRENCHIP_RECORD);
    expect("the record of one axis", restore_table(saved, sizeof saved), UBRENCHIP_LAYOUT, 1, 0);
    kept("refused restores of the table");
}

/* Holds a table to be occupied: every record of a table is refused there, for its own reason or as OCCUPIED, and no word changes. */
static void table_occupied(const char *what)
{
    table_refused_in_any();
    refused(what, restore_table(saved_table, sizeof saved_table), UBRENCHIP_OCCUPIED);
    refused(what, restore_table(saved_nothing, sizeof saved_nothing), UBRENCHIP_OCCUPIED);
    kept(what);
}

/* What is refused in any row, and changes no word: setups that do not fit, for this reason, and flawed records, for their own. */
static void refused_in_any(unsigned axis, uint32_t refusal)
{
    remember();
    for (unsigned i = 0; i < COUNT(configurations); i++) {
        if (!configurations[i].fits)
            refused(configurations[i].what, set_up(axis, &configurations[i]), refusal);
    }
    for (unsigned i = 0; i < COUNT(flawed); i++)
        restore_flawed(axis, &flawed[i]);
    refused("no record", ubrenchip_restore(table, WORDS, axis, NULL, 0), UBRENCHIP_RECORD);
    kept("refused setups and restores");
}

/* Holds a row to be occupied: no setup is done there, whatever it asks for, and no restore, and no word changes. */
static void occupied(const char *what, unsigned axis)
{
    refused_in_any(axis, UBRENCHIP_OCCUPIED);
    for (unsigned i = 0; i < COUNT(configurations); i++) {
        if (configurations[i].fits)
            refused(what, set_up(axis, &configurations[i]), UBRENCHIP_OCCUPIED);
    }
    refused(what, restore_saved(axis), UBRENCHIP_OCCUPIED);
    refused(what, restore_counter(axis), UBRENCHIP_OCCUPIED);
    kept(what);
}

/* A new axis that was made in an empty row: the row is erased again. */
static void made(const char *what, ubrenchip_answer got, unsigned axis, const configuration *to, int64_t position)
{
    done(what, got);
    newly(what, axis, to, position);
    done("erase", ubrenchip_erase(table, WORDS, axis));
}

/* Erases a row, which frees it: a setup that fits is done there, and so is the restore of a good record. It is left empty, and no other
   row changes. */
static void freed(const char *what, unsigned axis)
{
    done(what, ubrenchip_erase(table, WORDS, axis));
    row(what, axis, 0, 0, 0, 0);
    others_kept(what, axis);
    refused_in_any(axis, UBRENCHIP_VALUE);
    for (unsigned i = 0; i < COUNT(configurations); i++) {
        if (configurations[i].fits)
            made(configurations[i].what, set_up(axis, &configurations[i]), axis, &configurations[i], 0);
    }
    made(what, restore_saved(axis), axis, &configurations[0], -2);
    made(what, restore_counter(axis), axis, &configurations[1], 99);
    kept(what);
}

/* Samples in which nothing is to be marked. */
static void quiet(const char *what, unsigned shift, const uint8_t *codes, unsigned count)
{
    for (unsigned i = 0; i < count; i++)
        sampled(what, ubrenchip_sample(table, WORDS, (uint64_t)codes[i] << shift), (ubrenchip_sampled){0});
}

/* ---- the readings of docs/RULES.md, and the calls around them */

static void setting_up(void)
{
    empty();
    done("setup of x4", ubrenchip_setup(table, WORDS, 1, 4, 3, 0, 4096));
    row("row before", 0, 0, 0, 0, 0);
    row("x4, depth 3, 4096 a turn", 1, (uint64_t)TOP + 1, 52, 0, 4096);
    row("row after", 2, 0, 0, 0, 0);
    done("setup of a counter", ubrenchip_setup(table, WORDS, 3, 8, 0, 32, 0));
    row("counter of width 32", 3, (uint64_t)TOP + 1, 8 | 32 << 8, 0, 0);
    refused_in_any(2, UBRENCHIP_VALUE);
    done("2^32 - 1 a turn", ubrenchip_setup(table, WORDS, 2, 1, 8, 0, UINT32_MAX));
    row("2^32 - 1 a turn", 2, (uint64_t)TOP + 1, 1 | 8 << 4, 0, UINT32_MAX);
    done("counter of width 2", ubrenchip_setup(table, WORDS, 0, 8, 0, 2, 0));
    row("counter of width 2", 0, at(0), 8 | 2 << 8, 0, 0);
    for (unsigned i = 0; i < AXES; i++)
        occupied("a new axis", i);
    done("erase", ubrenchip_erase(table, WORDS, 1));
    row("erased row", 1, 0, 0, 0, 0);
    done("erase of an empty row", ubrenchip_erase(table, WORDS, 1));
}

static void counting(void)
{
    static const uint8_t codes[] = {0, 1, 3, 2, 0};
    empty();
    done("setup of x4", ubrenchip_setup(table, WORDS, 0, 4, 1, 0, 0));
    done("setup of x2", ubrenchip_setup(table, WORDS, 1, 2, 1, 0, 0));
    done("setup of x1", ubrenchip_setup(table, WORDS, 2, 1, 1, 0, 0));
    for (unsigned i = 0; i < sizeof codes; i++)
        sampled("a step", ubrenchip_sample(table, WORDS, codes[i] * 0x111u), (ubrenchip_sampled){0});
    shows("x4 counts 4", ubrenchip_view(table, WORDS, 0), (ubrenchip_viewed){.position = 4, .kind = 4, .primed = 1});
    shows("x2 counts 2", ubrenchip_view(table, WORDS, 1), (ubrenchip_viewed){.position = 2, .kind = 2, .primed = 1});
    shows("x1 counts 1", ubrenchip_view(table, WORDS, 2), (ubrenchip_viewed){.position = 1, .kind = 1, .primed = 1});
}

static void double_steps(void)
{
    empty();
    done("setup", ubrenchip_setup(table, WORDS, 2, 4, 1, 0, 0));
    sampled("priming", ubrenchip_sample(table, WORDS, 0), (ubrenchip_sampled){0});
    sampled("double step", ubrenchip_sample(table, WORDS, 0x300), (ubrenchip_sampled){.doubles = 1 << 2});
    sampled("step", ubrenchip_sample(table, WORDS, 0x200), (ubrenchip_sampled){0});
    shows("0, 3, 2", ubrenchip_view(table, WORDS, 2), (ubrenchip_viewed){.position = 1, .kind = 4, .doubles = 1, .primed = 1});
    done("acknowledge", ubrenchip_acknowledge(table, WORDS, 2));
    shows("acknowledged", ubrenchip_view(table, WORDS, 2), (ubrenchip_viewed){.position = 1, .kind = 4, .primed = 1});
    sampled("double step after a step", ubrenchip_sample(table, WORDS, 0x100), (ubrenchip_sampled){.doubles = 1 << 2});
    shows("counted anew", ubrenchip_view(table, WORDS, 2), (ubrenchip_viewed){.position = 1, .kind = 4, .doubles = 1, .primed = 1});
}

static void filter(void)
{
    static const uint8_t raw[] = {0, 1, 1, 0, 1, 1, 1};
    empty();
    done("setup", ubrenchip_setup(table, WORDS, 0, 4, 3, 0, 0));
    quiet("raw A", 0, raw, 6);
    shows("six samples", ubrenchip_view(table, WORDS, 0), (ubrenchip_viewed){.position = 0, .kind = 4, .primed = 1});
    quiet("raw A", 0, raw + 6, 1);
    shows("the seventh", ubrenchip_view(table, WORDS, 0), (ubrenchip_viewed){.position = 1, .kind = 4, .primed = 1});
}

static void limit(void)
{
    static const uint8_t codes[] = {0, 1, 0};
    empty();
    done("setup", ubrenchip_setup(table, WORDS, 0, 4, 1, 0, 0));
    done("preset to the top", ubrenchip_preset(table, WORDS, 0, TOP));
    quiet("at the top", 0, codes, 2);
    shows("held", ubrenchip_view(table, WORDS, 0), (ubrenchip_viewed){.position = TOP, .kind = 4, .primed = 1, .range = 1});
    quiet("back", 0, codes + 2, 1);
    shows("one less", ubrenchip_view(table, WORDS, 0), (ubrenchip_viewed){.position = TOP - 1, .kind = 4, .primed = 1, .range = 1});
    quiet("forward", 0, codes + 1, 1);
    shows("at the top again", ubrenchip_view(table, WORDS, 0), (ubrenchip_viewed){.position = TOP, .kind = 4, .primed = 1, .range = 1});
    done("preset to the bottom", ubrenchip_preset(table, WORDS, 0, -TOP));
    shows("preset", ubrenchip_view(table, WORDS, 0), (ubrenchip_viewed){.position = -TOP, .kind = 4, .primed = 1});
    quiet("at the bottom", 0, codes, 1);
    shows("held", ubrenchip_view(table, WORDS, 0), (ubrenchip_viewed){.position = -TOP, .kind = 4, .primed = 1, .range = 1});
    quiet("forward", 0, codes + 1, 1);
    shows("one more", ubrenchip_view(table, WORDS, 0), (ubrenchip_viewed){.position = 1 - TOP, .kind = 4, .primed = 1, .range = 1});
    quiet("back", 0, codes + 2, 1);
    shows("at the bottom again", ubrenchip_view(table, WORDS, 0), (ubrenchip_viewed){.position = -TOP, .kind = 4, .primed = 1, .range = 1});
    remember();
    refused("preset past the top", ubrenchip_preset(table, WORDS, 0, TOP + 1), UBRENCHIP_VALUE);
    refused("preset past the bottom", ubrenchip_preset(table, WORDS, 0, -TOP - 1), UBRENCHIP_VALUE);
    refused("preset to the least number", ubrenchip_preset(table, WORDS, 0, INT64_MIN), UBRENCHIP_VALUE);
    kept("refused presets");
}

static void homing(void)
{
    empty();
    done("setup, 4 a turn", ubrenchip_setup(table, WORDS, 1, 4, 1, 0, 4));
    done("arm", ubrenchip_arm(table, WORDS, 1));
    shows("armed", ubrenchip_view(table, WORDS, 1), (ubrenchip_viewed){.kind = 4, .armed = 1});
    sampled("priming", ubrenchip_sample(table, WORDS, 0x00), (ubrenchip_sampled){0});
    sampled("step", ubrenchip_sample(table, WORDS, 0x10), (ubrenchip_sampled){0});
    sampled("Z rises on a step forward", ubrenchip_sample(table, WORDS, 0x70), (ubrenchip_sampled){.index = 1 << 1});
    shows("homed", ubrenchip_view(table, WORDS, 1), (ubrenchip_viewed){.kind = 4, .primed = 1, .homed = 1});
    sampled("Z falls on a step forward", ubrenchip_sample(table, WORDS, 0x20), (ubrenchip_sampled){0});
    shows("no edge", ubrenchip_view(table, WORDS, 1), (ubrenchip_viewed){.position = 1, .kind = 4, .primed = 1, .homed = 1});
    sampled("an edge at 2", ubrenchip_sample(table, WORDS, 0x40), (ubrenchip_sampled){.index = 1 << 1});
    shows("INDEX", ubrenchip_view(table, WORDS, 1),
          (ubrenchip_viewed){.position = 2, .kind = 4, .primed = 1, .homed = 1, .index = 1});
    done("acknowledge", ubrenchip_acknowledge(table, WORDS, 1));
    shows("acknowledged", ubrenchip_view(table, WORDS, 1), (ubrenchip_viewed){.position = 2, .kind = 4, .primed = 1, .homed = 1});
    sampled("step", ubrenchip_sample(table, WORDS, 0x10), (ubrenchip_sampled){0});
    sampled("an edge at 4", ubrenchip_sample(table, WORDS, 0x70), (ubrenchip_sampled){.index = 1 << 1});
    shows("a whole turn", ubrenchip_view(table, WORDS, 1), (ubrenchip_viewed){.position = 4, .kind = 4, .primed = 1, .homed = 1});
    done("preset", ubrenchip_preset(table, WORDS, 1, 7));
    shows("preset", ubrenchip_view(table, WORDS, 1), (ubrenchip_viewed){.position = 7, .kind = 4, .primed = 1});
}

/* Backward, an axis is homed where it stood before the step, and the step is counted from there. */
static void homing_backward(void)
{
    empty();
    done("setup, 4 a turn", ubrenchip_setup(table, WORDS, 1, 4, 1, 0, 4));
    done("preset", ubrenchip_preset(table, WORDS, 1, 7));
    done("arm", ubrenchip_arm(table, WORDS, 1));
    sampled("priming", ubrenchip_sample(table, WORDS, 0x20), (ubrenchip_sampled){0});
    sampled("Z rises on a step back", ubrenchip_sample(table, WORDS, 0x70), (ubrenchip_sampled){0});
    shows("no edge", ubrenchip_view(table, WORDS, 1), (ubrenchip_viewed){.position = 6, .kind = 4, .primed = 1, .armed = 1});
    sampled("Z falls on a step back", ubrenchip_sample(table, WORDS, 0x10), (ubrenchip_sampled){.index = 1 << 1});
    shows("homed", ubrenchip_view(table, WORDS, 1), (ubrenchip_viewed){.position = -1, .kind = 4, .primed = 1, .homed = 1});
    sampled("over the edge again", ubrenchip_sample(table, WORDS, 0x70), (ubrenchip_sampled){.index = 1 << 1});
    shows("at 0", ubrenchip_view(table, WORDS, 1), (ubrenchip_viewed){.kind = 4, .primed = 1, .homed = 1});
    sampled("and back", ubrenchip_sample(table, WORDS, 0x10), (ubrenchip_sampled){.index = 1 << 1});
    shows("checked at 0", ubrenchip_view(table, WORDS, 1), (ubrenchip_viewed){.position = -1, .kind = 4, .primed = 1, .homed = 1});
    sampled("Z rises with no step", ubrenchip_sample(table, WORDS, 0x50), (ubrenchip_sampled){0});
    sampled("an edge at -1", ubrenchip_sample(table, WORDS, 0x00), (ubrenchip_sampled){.index = 1 << 1});
    shows("INDEX", ubrenchip_view(table, WORDS, 1),
          (ubrenchip_viewed){.position = -2, .kind = 4, .primed = 1, .homed = 1, .index = 1});
    done("acknowledge", ubrenchip_acknowledge(table, WORDS, 1));
    sampled("step", ubrenchip_sample(table, WORDS, 0x20), (ubrenchip_sampled){0});
    sampled("Z rises with no step", ubrenchip_sample(table, WORDS, 0x60), (ubrenchip_sampled){0});
    sampled("an edge at -3, which leads to -4", ubrenchip_sample(table, WORDS, 0x30), (ubrenchip_sampled){.index = 1 << 1});
    shows("INDEX", ubrenchip_view(table, WORDS, 1),
          (ubrenchip_viewed){.position = -4, .kind = 4, .primed = 1, .homed = 1, .index = 1});
}

/* One shaft on six axes, two of each mode. Three are homed as it turns forward over an edge, the others as it turns back over it: then the
   two of a mode stand alike, wherever the edge lies among the codes, and whether their mode counts there or not. */
static void either_side(void)
{
    static const uint64_t kinds[6] = {4, 2, 1, 4, 2, 1};
    static const uint64_t codes[7] = {0, 1, 3, 2, 0, 1, 3};
    /* In x4, x2 and x1, for an edge on the way to codes[1] up to codes[4]: a quarter step before the edge, and two beyond it. */
    static const int64_t behind[4][3] = {{-1, -1, -1}, {-1, 0, 0}, {-1, -1, 0}, {-1, 0, 0}};
    static const int64_t beyond[4][3] = {{2, 1, 0}, {2, 1, 0}, {2, 1, 1}, {2, 1, 1}};
    static uint64_t all[24];
    for (unsigned edge = 0; edge < 4; edge++) {
        uint64_t ports[4]; /* on all six axes: before the mark, twice on it, and off it again */
        for (unsigned i = 0; i < 4; i++)
            ports[i] = (codes[edge + i] | (i == 1 || i == 2 ? 4u : 0)) * 0x111111;
        for (unsigned i = 0; i < 6; i++) {
            done("erase", ubrenchip_erase(all, 24, i));
            done("setup", ubrenchip_setup(all, 24, i, kinds[i], 1, 0, kinds[i]));
            done("preset", ubrenchip_preset(all, 24, i, 1000));
        }
        for (unsigned i = 0; i < 3; i++)
            done("arm", ubrenchip_arm(all, 24, i));
        sampled("priming", ubrenchip_sample(all, 24, ports[0]), (ubrenchip_sampled){0});
        sampled("over the edge", ubrenchip_sample(all, 24, ports[1]), (ubrenchip_sampled){.index = 0x3F});
        sampled("on the mark", ubrenchip_sample(all, 24, ports[2]), (ubrenchip_sampled){0});
        sampled("off the mark", ubrenchip_sample(all, 24, ports[3]), (ubrenchip_sampled){0});
        for (unsigned i = 3; i < 6; i++)
            done("arm", ubrenchip_arm(all, 24, i));
        sampled("back onto the mark", ubrenchip_sample(all, 24, ports[2]), (ubrenchip_sampled){0});
        sampled("back to the edge", ubrenchip_sample(all, 24, ports[1]), (ubrenchip_sampled){0});
        sampled("back over the edge", ubrenchip_sample(all, 24, ports[0]), (ubrenchip_sampled){.index = 0x3F});
        for (unsigned i = 0; i < 6; i++)
            shows("before the edge", ubrenchip_view(all, 24, i),
                  (ubrenchip_viewed){.position = behind[edge][i % 3], .kind = (uint32_t)kinds[i], .primed = 1, .homed = 1});
        sampled("over the edge again", ubrenchip_sample(all, 24, ports[1]), (ubrenchip_sampled){.index = 0x3F});
        for (unsigned i = 0; i < 6; i++)
            shows("at the edge", ubrenchip_view(all, 24, i), (ubrenchip_viewed){.kind = (uint32_t)kinds[i], .primed = 1, .homed = 1});
        sampled("on the mark again", ubrenchip_sample(all, 24, ports[2]), (ubrenchip_sampled){0});
        sampled("off the mark again", ubrenchip_sample(all, 24, ports[3]), (ubrenchip_sampled){0});
        for (unsigned i = 0; i < 6; i++)
            shows("beyond the edge", ubrenchip_view(all, 24, i),
                  (ubrenchip_viewed){.position = beyond[edge][i % 3], .kind = (uint32_t)kinds[i], .primed = 1, .homed = 1});
    }
}

/* From any lines to any others: the eight edges home an armed axis of each mode, and check a homed one. Nothing else does, be it a fall of
   Z on a step forward, a rise on a step back, or a change of Z with no step or a double one. Positions are looked at in x4; either_side
   has those of x2 and x1. */
static void every_change(void)
{
    static const uint64_t kinds[AXES] = {4, 2, 1, 4};
    /* From lines to lines, A + 2B + 4Z: forward where Z rises, then back where it falls. */
    static const uint8_t edges[8][2] = {{0, 5}, {1, 7}, {3, 6}, {2, 4}, {5, 0}, {7, 1}, {6, 3}, {4, 2}};
    /* What x4 counts from code to code. */
    static const int64_t counts[4][4] = {{0, 1, -1, 0}, {-1, 0, 0, 1}, {1, 0, 0, -1}, {0, -1, 1, 0}};
    for (unsigned from = 0; from < 8; from++) {
        for (unsigned to = 0; to < 8; to++) {
            const int64_t count = counts[from & 3][to & 3];
            uint32_t edge = 0;
            for (unsigned i = 0; i < 8; i++)
                edge |= edges[i][0] == from && edges[i][1] == to;
            empty();
            for (unsigned i = 0; i < AXES; i++) {
                done("setup, 4 a turn", ubrenchip_setup(table, WORDS, i, kinds[i], 1, 0, 4));
                done("preset", ubrenchip_preset(table, WORDS, i, 2));
                if (i < 3)
                    done("arm", ubrenchip_arm(table, WORDS, i));
            }
            sampled("priming", ubrenchip_sample(table, WORDS, from * 0x1111u), (ubrenchip_sampled){0});
            table[13] |= HOMED;
            sampled("from lines to lines", ubrenchip_sample(table, WORDS, to * 0x1111u),
                    (ubrenchip_sampled){.doubles = ((from ^ to) & 3) == 3 ? 0xF : 0, .index = edge ? 0xF : 0});
            for (unsigned i = 0; i < 3; i++) {
                ubrenchip_viewed viewed = ubrenchip_view(table, WORDS, i);
                same("armed still", viewed.armed, !edge);
                same("homed", viewed.homed, edge);
                same("not checked", viewed.index, 0);
            }
            same("where an edge homes, or not", table[0], at(!edge ? 2 + count : count < 0 ? -1 : 0));
            same("a homed axis counts on", table[12], at(2 + count));
            same("and is checked", ubrenchip_view(table, WORDS, 3).index, edge);
        }
    }
}

/* It is the filtered lines that make an edge: at depth 3 on the third sample, and none where Z is a sample late. */
static void filtered_edges(void)
{
    empty();
    for (unsigned i = 0; i < 2; i++) {
        done("setup", ubrenchip_setup(table, WORDS, i, 4, 3, 0, 0));
        done("preset", ubrenchip_preset(table, WORDS, i, 7));
        done("arm", ubrenchip_arm(table, WORDS, i));
    }
    sampled("priming", ubrenchip_sample(table, WORDS, 0x55), (ubrenchip_sampled){0});
    sampled("A falls, and Z of axis 0", ubrenchip_sample(table, WORDS, 0x40), (ubrenchip_sampled){0});
    sampled("Z of axis 1 falls", ubrenchip_sample(table, WORDS, 0x00), (ubrenchip_sampled){0});
    sampled("filtered A and Z", ubrenchip_sample(table, WORDS, 0x00), (ubrenchip_sampled){.index = 1 << 0});
    sampled("filtered Z alone", ubrenchip_sample(table, WORDS, 0x00), (ubrenchip_sampled){0});
    shows("homed", ubrenchip_view(table, WORDS, 0), (ubrenchip_viewed){.position = -1, .kind = 4, .primed = 1, .homed = 1});
    shows("no edge", ubrenchip_view(table, WORDS, 1), (ubrenchip_viewed){.position = 6, .kind = 4, .primed = 1, .armed = 1});
}

/* Axes at the ends of the range, two that were held there and two that were not: an edge homes all alike, and RANGE is clear. */
static void homing_at_the_ends(void)
{
    static const int64_t ends[AXES] = {-TOP, -TOP, TOP, TOP};
    static const uint32_t held[AXES] = {1, 0, 1, 0};
    /* Priming, a step out of the range where one is to be held, and the edge: backward, then forward. */
    static const uint64_t ports[2][3] = {{0x5457, 0x5555, 0x0000}, {0x0201, 0x0000, 0x5555}};
    static const int64_t homed[2] = {-1, 0};
    for (unsigned way = 0; way < 2; way++) {
        empty();
        for (unsigned i = 0; i < AXES; i++) {
            done("setup", ubrenchip_setup(table, WORDS, i, 4, 1, 0, 0));
            done("preset to an end", ubrenchip_preset(table, WORDS, i, ends[i]));
            done("arm", ubrenchip_arm(table, WORDS, i));
        }
        sampled("priming", ubrenchip_sample(table, WORDS, ports[way][0]), (ubrenchip_sampled){0});
        sampled("out of the range", ubrenchip_sample(table, WORDS, ports[way][1]), (ubrenchip_sampled){0});
        for (unsigned i = 0; i < AXES; i++)
            shows("at the end", ubrenchip_view(table, WORDS, i),
                  (ubrenchip_viewed){.position = ends[i], .kind = 4, .primed = 1, .armed = 1, .range = held[i]});
        sampled("an edge", ubrenchip_sample(table, WORDS, ports[way][2]), (ubrenchip_sampled){.index = 0xF});
        for (unsigned i = 0; i < AXES; i++)
            shows("homed", ubrenchip_view(table, WORDS, i),
                  (ubrenchip_viewed){.position = homed[way], .kind = 4, .primed = 1, .homed = 1});
    }
}

/* Homed axes at the bottom of the range, or one above it: backward they are checked there, and then held or moved. 2^62 - 1 is a multiple
   of 3 and not of 4, 2^62 - 2 one of 2 and not of 3. */
static void checking_at_the_bottom(void)
{
    static const int64_t from[AXES] = {-TOP, -TOP, 1 - TOP, 1 - TOP};
    static const uint64_t turns[AXES] = {3, 4, 2, 3};
    static const uint32_t held[AXES] = {1, 1, 0, 0};
    static const uint32_t off[AXES] = {0, 1, 0, 1};
    empty();
    for (unsigned i = 0; i < AXES; i++) {
        done("setup", ubrenchip_setup(table, WORDS, i, 4, 1, 0, turns[i]));
        done("preset", ubrenchip_preset(table, WORDS, i, from[i]));
    }
    sampled("priming", ubrenchip_sample(table, WORDS, 0x5555), (ubrenchip_sampled){0});
    for (unsigned i = 0; i < AXES; i++)
        table[4 * i + 1] |= HOMED;
    sampled("an edge backward", ubrenchip_sample(table, WORDS, 0x0000), (ubrenchip_sampled){.index = 0xF});
    for (unsigned i = 0; i < AXES; i++)
        shows("at the bottom", ubrenchip_view(table, WORDS, i),
              (ubrenchip_viewed){.position = -TOP, .kind = 4, .primed = 1, .homed = 1, .range = held[i], .index = off[i]});
}

/* Armed axes at 7 whose first sample has Z at 1: they take the levels as they are and no more, whatever the code and the depth. */
static void priming(void)
{
    static const uint64_t kinds[AXES] = {4, 4, 2, 1};
    static const uint64_t depths[AXES] = {1, 3, 1, 8};
    static const uint64_t lines[AXES] = {7, 6, 5, 5};
    empty();
    for (unsigned i = 0; i < AXES; i++) {
        done("setup, 4 a turn", ubrenchip_setup(table, WORDS, i, kinds[i], depths[i], 0, 4));
        done("preset", ubrenchip_preset(table, WORDS, i, 7));
        done("arm", ubrenchip_arm(table, WORDS, i));
    }
    sampled("priming with Z at 1", ubrenchip_sample(table, WORDS, 0x5567), (ubrenchip_sampled){0});
    for (unsigned i = 0; i < AXES; i++) {
        row("primed", i, (uint64_t)TOP + 8, kinds[i] | depths[i] << 4 | PRIMED | ARMED | lines[i] << 19, 0, 4);
        shows("primed", ubrenchip_view(table, WORDS, i),
              (ubrenchip_viewed){.position = 7, .kind = (uint32_t)kinds[i], .primed = 1, .armed = 1});
    }
    sampled("Z stays", ubrenchip_sample(table, WORDS, 0x5567), (ubrenchip_sampled){0});
    sampled("Z falls", ubrenchip_sample(table, WORDS, 0x1123), (ubrenchip_sampled){0});
    sampled("an edge where the depth is 1", ubrenchip_sample(table, WORDS, 0x7746), (ubrenchip_sampled){.index = 1 << 0 | 1 << 2});
    shows("homed", ubrenchip_view(table, WORDS, 0), (ubrenchip_viewed){.kind = 4, .primed = 1, .homed = 1});
    shows("not yet", ubrenchip_view(table, WORDS, 1), (ubrenchip_viewed){.position = 7, .kind = 4, .primed = 1, .armed = 1});
    shows("homed in x2", ubrenchip_view(table, WORDS, 2), (ubrenchip_viewed){.kind = 2, .primed = 1, .homed = 1});
    shows("not yet", ubrenchip_view(table, WORDS, 3), (ubrenchip_viewed){.position = 7, .kind = 1, .primed = 1, .armed = 1});
}

/* More double steps than are counted, in every mode and between both pairs of codes: each is marked, and doubles stay at 65,535. */
static void every_double(void)
{
    static uint64_t all[24];
    static const uint64_t kinds[6] = {4, 2, 1, 4, 2, 1};
    for (unsigned i = 0; i < 6; i++)
        done("setup", ubrenchip_setup(all, 24, i, kinds[i], 1, 0, 0));
    sampled("priming", ubrenchip_sample(all, 24, 0x111000), (ubrenchip_sampled){0});
    for (unsigned n = 1; n <= 65540 && !wrong; n++) {
        sampled("double steps", ubrenchip_sample(all, 24, n % 2 ? 0x222333 : 0x111000), (ubrenchip_sampled){.doubles = 0x3F});
        for (unsigned i = 0; i < 6; i++)
            same("doubles", all[4 * i + 1] >> 32 & 0xFFFF, n < 65535 ? n : 65535);
    }
    sampled("no double step", ubrenchip_sample(all, 24, 0x111000), (ubrenchip_sampled){0});
    for (unsigned i = 0; i < 6; i++)
        shows("65,540 double steps", ubrenchip_view(all, 24, i),
              (ubrenchip_viewed){.kind = (uint32_t)kinds[i], .doubles = 65535, .primed = 1});
    done("acknowledge", ubrenchip_acknowledge(all, 24, 1));
    sampled("double steps", ubrenchip_sample(all, 24, 0x222333), (ubrenchip_sampled){.doubles = 0x3F});
    shows("counted anew", ubrenchip_view(all, 24, 1), (ubrenchip_viewed){.kind = 2, .doubles = 1, .primed = 1});
    shows("not acknowledged", ubrenchip_view(all, 24, 2), (ubrenchip_viewed){.kind = 1, .doubles = 65535, .primed = 1});
}

/* A reading of a counter of width 8 from a position. */
static ubrenchip_answer reading(int64_t from, uint64_t count)
{
    done("preset", ubrenchip_preset(table, WORDS, 2, from));
    return ubrenchip_reading(table, WORDS, 2, count);
}

static void readings(void)
{
    empty();
    done("setup of width 8", ubrenchip_setup(table, WORDS, 2, 8, 0, 8, 0));
    value("250, reading 3", reading(250, 3), 259);
    shows("stored", ubrenchip_view(table, WORDS, 2), (ubrenchip_viewed){.position = 259, .kind = 8});
    value("250, reading 121", reading(250, 121), 377);
    refused("250, reading 122", reading(250, 122), UBRENCHIP_HALF);
    shows("not stored", ubrenchip_view(table, WORDS, 2), (ubrenchip_viewed){.position = 250, .kind = 8});
    value("250, reading 123", reading(250, 123), 123);
    value("-1, reading 0", reading(-1, 0), 0);
    value("0, reading 255", reading(0, 255), -1);
    refused("250, reading 256", reading(250, 256), UBRENCHIP_VALUE);
    shows("not stored", ubrenchip_view(table, WORDS, 2), (ubrenchip_viewed){.position = 250, .kind = 8});
    value("to the top", reading(TOP - 3, 255), TOP);
    shows("stored", ubrenchip_view(table, WORDS, 2), (ubrenchip_viewed){.position = TOP, .kind = 8});
    refused("past the top", reading(TOP, 0), UBRENCHIP_RANGE);
    shows("not stored", ubrenchip_view(table, WORDS, 2), (ubrenchip_viewed){.position = TOP, .kind = 8});
}

/* A step to a code, and then the same code for the samples between. */
static void hold(uint64_t code, unsigned between)
{
    for (unsigned i = 0; i <= between; i++)
        sampled("held", ubrenchip_sample(table, WORDS, code), (ubrenchip_sampled){0});
}

static void speed_by_period(void)
{
    empty();
    done("setup", ubrenchip_setup(table, WORDS, 0, 4, 1, 0, 0));
    hold(0, 0);
    hold(1, 4);
    speed_refused("one step", ubrenchip_speed_by_period(table, WORDS, 0, 1000), UBRENCHIP_NO_PERIOD);
    hold(3, 0);
    speed_is("steps 5 apart", ubrenchip_speed_by_period(table, WORDS, 0, 1000), 200000, 0, 5);
    hold(3, 4);
    speed_is("5 after the last", ubrenchip_speed_by_period(table, WORDS, 0, 1000), 200000, 0, 5);
    hold(3, 6);
    speed_is("12 after the last", ubrenchip_speed_by_period(table, WORDS, 0, 1000), 83333, 4, 12);
    speed_refused("rate 0", ubrenchip_speed_by_period(table, WORDS, 0, 0), UBRENCHIP_VALUE);
    speed_refused("rate 1,000,001", ubrenchip_speed_by_period(table, WORDS, 0, 1000001), UBRENCHIP_VALUE);
    hold(1, 4);
    speed_refused("turned back", ubrenchip_speed_by_period(table, WORDS, 0, 1000), UBRENCHIP_NO_PERIOD);
    hold(0, 0);
    speed_is("backward", ubrenchip_speed_by_period(table, WORDS, 0, 1000), -200000, 0, 5);
    hold(0, 6);
    speed_is("7 after the last", ubrenchip_speed_by_period(table, WORDS, 0, 1), -143, 1, 7);
}

/* The speed by period of an x4 axis that goes forward, 1, or back, 2, with these two in its word 2. */
static ubrenchip_speed paced(uint64_t direction, uint64_t age, uint64_t period, uint64_t rate)
{
    table[0] = at(0);
    table[1] = 4 | 1 << 4 | PRIMED | direction << 48;
    table[2] = age | period << 32;
    table[3] = 0;
    return ubrenchip_speed_by_period(table, WORDS, 0, rate);
}

/* The divisor is the larger of period and age; halves both ways, and the longest of both. */
static void remainders_by_period(void)
{
    const uint64_t last = UINT32_MAX;
    empty();
    speed_is("the period is larger", paced(1, 6, 7, 1), 143, -1, 7);
    speed_is("they are alike", paced(1, 7, 7, 1), 143, -1, 7);
    speed_is("the age is larger", paced(1, 9, 7, 1), 111, 1, 9);
    speed_is("the period is larger, back", paced(2, 6, 7, 1), -143, 1, 7);
    speed_is("they are alike, back", paced(2, 7, 7, 1), -143, 1, 7);
    speed_is("the age is larger, back", paced(2, 9, 7, 1), -111, -1, 9);
    speed_is("a half by the period", paced(1, 0, 16, 1), 63, -8, 16);
    speed_is("a half by the age", paced(1, 16, 1, 1), 63, -8, 16);
    speed_is("a half by the period, back", paced(2, 0, 16, 1), -63, 8, 16);
    speed_is("a half by the age, back", paced(2, 16, 1, 1), -63, 8, 16);
    speed_is("a step each sample", paced(1, 0, 1, 1000000), 1000000000, 0, 1);
    speed_is("a step back each sample", paced(2, 0, 1, 1000000), -1000000000, 0, 1);
    speed_is("a long half", paced(1, 3, 2000000000, 1000000), 1, -1000000000, 2000000000);
    speed_is("a long half back", paced(2, 2000000000, 3, 1000000), -1, 1000000000, 2000000000);
    speed_is("the longest period", paced(1, 0, last - 1, 1000000), 0, 1000000000, last - 1);
    speed_is("the longest age", paced(2, last, last - 1, 1000000), 0, -1000000000, last);
    speed_is("the longest age at rate 1", paced(1, last, 1, 1), 0, 1000, last);
    speed_refused("no period", paced(1, 9, 0, 1), UBRENCHIP_NO_PERIOD);
    speed_refused("no rate, and no period", paced(1, 9, 0, 0), UBRENCHIP_VALUE);
}

static void saving(void)
{
    uint8_t buffer[40];
    fill(buffer, sizeof buffer);
    empty();
    done("setup", ubrenchip_setup(table, WORDS, 0, 4, 3, 0, 4096));
    done("preset", ubrenchip_preset(table, WORDS, 0, -2));
    remember();
    refused("a buffer of 33", ubrenchip_save(table, WORDS, 0, buffer, 33), UBRENCHIP_ROOM);
    refused("no buffer", ubrenchip_save(table, WORDS, 0, NULL, 0), UBRENCHIP_ROOM);
    unwritten("a buffer of 33", buffer, sizeof buffer);
    value("34 bytes", ubrenchip_save(table, WORDS, 0, buffer, sizeof buffer), 34);
    written("34 bytes, and none beyond", buffer, sizeof buffer, saved, sizeof saved);
    kept("saves");
    done("the record is one", ubrenchip_test_record(buffer, 34));
    done("restore", ubrenchip_restore(table, WORDS, 3, buffer, 34));
    row("as setup and preset", 3, (uint64_t)TOP - 1, 52, 0, 4096);
    row("the axis that was saved", 0, (uint64_t)TOP - 1, 52, 0, 4096);
    occupied("the row of a restore", 3);
    buffer[23] = 9;
    buffer[3] = 0x12;
    buffer[4] = 0x34;
    remember();
    for (unsigned i = 2; i < AXES; i++)
        expect("layout 0x1234, depth 9", ubrenchip_restore(table, WORDS, i, buffer, 34), UBRENCHIP_LAYOUT, 0x1234, 0);
    kept("refused restores");
    done("setup of a counter", ubrenchip_setup(table, WORDS, 1, 8, 0, 12, 0));
    done("preset", ubrenchip_preset(table, WORDS, 1, 99));
    fill(buffer, sizeof buffer);
    refused("a buffer of 26", ubrenchip_save(table, WORDS, 1, buffer, 26), UBRENCHIP_ROOM);
    unwritten("a buffer of 26", buffer, sizeof buffer);
    value("27 bytes", ubrenchip_save(table, WORDS, 1, buffer, sizeof buffer), 27);
    written("27 bytes, and none beyond", buffer, sizeof buffer, saved_counter, sizeof saved_counter);
    value("27 bytes in 27", ubrenchip_save(table, WORDS, 1, buffer, 27), 27);
    done("erase", ubrenchip_erase(table, WORDS, 0));
    done("restore", ubrenchip_restore(table, WORDS, 0, buffer, 27));
    shows("counter again", ubrenchip_view(table, WORDS, 0), (ubrenchip_viewed){.position = 99, .kind = 8});
    row("counter again", 0, table[4], table[5], table[6], table[7]);
}

/* The rows that the record of the table stands for, and none behind them. */
static void is_saved_table(const char *what)
{
    newly(what, 0, &configurations[0], -2);
    row(what, 1, 0, 0, 0, 0);
    newly(what, 2, &configurations[1], 70000);
    row(what, 3, 0, 0, 0, 0);
}

static void saving_the_table(void)
{
    uint8_t buffer[80];
    fill(buffer, sizeof buffer);
    empty();
    done("setup", ubrenchip_setup(table, WORDS, 0, 4, 3, 0, 4096));
    done("preset", ubrenchip_preset(table, WORDS, 0, -2));
    done("setup of a counter", ubrenchip_setup(table, WORDS, 2, 8, 0, 12, 0));
    done("preset", ubrenchip_preset(table, WORDS, 2, 70000));
    remember();
    for (unsigned room = 0; room < 65; room++)
        refused("a smaller buffer", ubrenchip_save_table(table, WORDS, buffer, room), UBRENCHIP_ROOM);
    refused("no buffer", ubrenchip_save_table(table, WORDS, NULL, 0), UBRENCHIP_ROOM);
    unwritten("a smaller buffer", buffer, sizeof buffer);
    value("65 bytes in 65", ubrenchip_save_table(table, WORDS, buffer, 65), 65);
    written("65 bytes, and none beyond", buffer, sizeof buffer, saved_table, sizeof saved_table);
    fill(buffer, sizeof buffer);
    value("65 bytes", ubrenchip_save_table(table, WORDS, buffer, sizeof buffer), 65);
    written("65 bytes, and none beyond", buffer, sizeof buffer, saved_table, sizeof saved_table);
    kept("saves of the table");
    done("the record is one", ubrenchip_test_any(buffer, 65));
    expect("and none of one axis", ubrenchip_test_record(buffer, 65), UBRENCHIP_LAYOUT, 2, 0);
    expect("and no axis is restored by it", ubrenchip_restore(table, WORDS, 1, buffer, 65), UBRENCHIP_LAYOUT, 2, 0);
    table_occupied("two axes");

    /* In three rows, and in more. */
    for (unsigned axes = 1; axes <= AXES; axes++) {
        empty();
        expect("restore", ubrenchip_restore_table(table, 4 * axes, buffer, 65), axes < 3 ? UBRENCHIP_AXIS : UBRENCHIP_DONE, 0, 0);
        if (axes < 3) {
            for (unsigned i = 0; i < WORDS; i++)
                same("no axis 2", table[i], 0);
            continue;
        }
        is_saved_table("as setups and presets");
        fill(buffer, sizeof buffer);
        value("again", ubrenchip_save_table(table, 4 * axes, buffer, sizeof buffer), 65);
        written("the same bytes again", buffer, sizeof buffer, saved_table, sizeof saved_table);
    }
}

/* A table without an axis: twelve bytes, which an empty table takes, and no other. */
static void saving_nothing(void)
{
    uint8_t buffer[20];
    for (unsigned axes = 1; axes <= AXES; axes++) {
        empty();
        fill(buffer, sizeof buffer);
        refused("a buffer of 11", ubrenchip_save_table(table, 4 * axes, buffer, 11), UBRENCHIP_ROOM);
        unwritten("a buffer of 11", buffer, sizeof buffer);
        value("12 bytes", ubrenchip_save_table(table, 4 * axes, buffer, 12), 12);
        written("12 bytes, and none beyond", buffer, sizeof buffer, saved_nothing, sizeof saved_nothing);
        done("restore", ubrenchip_restore_table(table, 4 * axes, buffer, 12));
        for (unsigned i = 0; i < WORDS; i++)
            same("still empty", table[i], 0);
    }
}

/* ---- what a call leaves of every word */

/* Of an axis with every field off zero: x4, depth 3, filtered A and Z at 1, runs 1, 2 and 1, direction back; doubles; age and period. */
#define STATE (52 | PRIMED | 5 << 19 | 1 << 22 | 2 << 25 | 1 << 28 | (uint64_t)2 << 48)
#define DOUBLES ((uint64_t)9 << 32)
#define PACE (7 | (uint64_t)6 << 32)

/* Makes row 1 such an axis at 5, with these flags. */
static void busy(uint64_t flags)
{
    table[4] = at(5);
    table[5] = STATE | flags | DOUBLES;
    table[6] = PACE;
    table[7] = 4096;
}

/* A call on axis 1: what it answers, the row it leaves, and every other row as it was. */
static void leaves(const char *what, ubrenchip_answer got, int64_t stated, uint64_t w0, uint64_t w1, uint64_t w2, uint64_t w3)
{
    value(what, got, stated);
    row(what, 1, w0, w1, w2, w3);
    others_kept(what, 1);
}

/* A busy axis between one that is primed, a broken row and a counter. */
static void one_row(void)
{
    uint8_t buffer[72];
    empty();
    done("setup", ubrenchip_setup(table, WORDS, 0, 4, 1, 0, 4));
    done("setup", ubrenchip_setup(table, WORDS, 3, 8, 0, 8, 0));
    table[8] = 1;
    sampled("a broken row", ubrenchip_sample(table, WORDS, 3), (ubrenchip_sampled){.broken = 1 << 2});
    busy(HOMED | RANGE | INDEX);
    remember();
    shows("looked at", ubrenchip_view(table, WORDS, 1),
          (ubrenchip_viewed){.position = 5, .kind = 4, .doubles = 9, .primed = 1, .homed = 1, .range = 1, .index = 1});
    kept("a look");
    speed_is("speed", ubrenchip_speed_by_period(table, WORDS, 1, 7), -1000, 0, 7);
    kept("a speed");
    value("save", ubrenchip_save(table, WORDS, 1, buffer, sizeof buffer), 34);
    kept("a save");
    refused("save of the table", ubrenchip_save_table(table, WORDS, buffer, sizeof buffer), UBRENCHIP_BROKEN);
    value("save of two rows of it", ubrenchip_save_table(table, 8, buffer, sizeof buffer), 72);
    kept("saves of the table");
    leaves("preset of a homed axis", ubrenchip_preset(table, WORDS, 1, -1), 0, at(-1), STATE | INDEX | DOUBLES, PACE, 4096);
    busy(HOMED | RANGE | INDEX);
    leaves("acknowledge", ubrenchip_acknowledge(table, WORDS, 1), 0, at(5), STATE | HOMED | RANGE, PACE, 4096);
    busy(HOMED | RANGE | INDEX);
    leaves("arm", ubrenchip_arm(table, WORDS, 1), 0, at(5), STATE | ARMED | RANGE | INDEX | DOUBLES, PACE, 4096);
    leaves("acknowledge of an armed axis", ubrenchip_acknowledge(table, WORDS, 1), 0, at(5), STATE | ARMED | RANGE, PACE, 4096);
    busy(ARMED | RANGE | INDEX);
    leaves("preset", ubrenchip_preset(table, WORDS, 1, 0), 0, at(0), STATE | ARMED | INDEX | DOUBLES, PACE, 4096);
    busy(ARMED | RANGE | INDEX);
    occupied("a busy axis", 1);
    leaves("erase of an axis", ubrenchip_erase(table, WORDS, 1), 0, 0, 0, 0, 0);
    leaves("setup after it", ubrenchip_setup(table, WORDS, 1, 2, 1, 0, 8), 0, at(0), 2 | 1 << 4, 0, 8);
    leaves("erase of a new axis", ubrenchip_erase(table, WORDS, 1), 0, 0, 0, 0, 0);
    leaves("restore after it", restore_saved(1), 0, at(-2), 52, 0, 4096);
    busy(ARMED | HOMED);
    occupied("a broken row", 1);
    leaves("erase of a broken row", ubrenchip_erase(table, WORDS, 1), 0, 0, 0, 0, 0);
    leaves("setup after it", ubrenchip_setup(table, WORDS, 1, 8, 0, 8, 0), 0, at(0), 8 | 8 << 8, 0, 0);
    leaves("reading", ubrenchip_reading(table, WORDS, 1, 255), -1, at(-1), 8 | 8 << 8, 0, 0);
}

/* ---- the refusals that every call shares */

/* Every call that names an axis, for one reason. */
static void all_refused(const char *what, uint64_t *words, size_t count, uint64_t axis, uint32_t refusal, int any_row)
{
    uint8_t buffer[40];
    fill(buffer, sizeof buffer);
    if (any_row) {
        refused(what, ubrenchip_setup(words, count, axis, 4, 1, 0, 0), refusal);
        refused(what, ubrenchip_erase(words, count, axis), refusal);
        refused(what, ubrenchip_restore(words, count, axis, saved, sizeof saved), refusal);
    }
    if (refusal == UBRENCHIP_LENGTH) { /* the calls that name no axis */
        refused(what, ubrenchip_save_table(words, count, buffer, sizeof buffer), refusal);
        refused(what, ubrenchip_save_table(words, count, NULL, 0), refusal);
        refused(what, ubrenchip_restore_table(words, count, saved_table, sizeof saved_table), refusal);
        refused(what, ubrenchip_restore_table(words, count, saved_nothing, sizeof saved_nothing), refusal);
        refused(what, ubrenchip_restore_table(words, count, saved, sizeof saved), refusal);
        refused(what, ubrenchip_restore_table(words, count, NULL, 0), refusal);
    }
    refused(what, ubrenchip_preset(words, count, axis, 0), refusal);
    refused(what, ubrenchip_arm(words, count, axis), refusal);
    refused(what, ubrenchip_acknowledge(words, count, axis), refusal);
    shows(what, ubrenchip_view(words, count, axis), (ubrenchip_viewed){.refusal = refusal});
    refused(what, ubrenchip_reading(words, count, axis, 0), refusal);
    speed_refused(what, ubrenchip_speed_by_period(words, count, axis, 1000), refusal);
    refused(what, ubrenchip_save(words, count, axis, buffer, sizeof buffer), refusal);
    unwritten(what, buffer, sizeof buffer);
}

/* Rows 0 to 3: a counter, an empty one, a broken one, and behind it an axis that has run. */
static void four_rows(void)
{
    empty();
    done("setup", ubrenchip_setup(table, WORDS, 0, 8, 0, 8, 0));
    done("setup", ubrenchip_setup(table, WORDS, 3, 4, 1, 0, 4));
    table[8] = 1;
    for (unsigned i = 0; i < 3; i++)
        sampled("a broken row", ubrenchip_sample(table, WORDS, 0x777 | i << 12),
                (ubrenchip_sampled){.doubles = i == 2 ? 1 << 3 : 0, .broken = 1 << 2});
    row("counter", 0, at(0), 8 | 8 << 8, 0, 0);
    row("empty", 1, 0, 0, 0, 0);
    row("broken", 2, 1, 0, 0, 0);
}

static void refusals(void)
{
    four_rows();
    remember();
    all_refused("no table", NULL, 0, 0, UBRENCHIP_LENGTH, 1);
    all_refused("15 words", table, WORDS - 1, 0, UBRENCHIP_LENGTH, 1);
    sampled("no table", ubrenchip_sample(NULL, 0, 1), (ubrenchip_sampled){.refusal = UBRENCHIP_LENGTH});
    sampled("15 words", ubrenchip_sample(table, WORDS - 1, 1), (ubrenchip_sampled){.refusal = UBRENCHIP_LENGTH});
    all_refused("axis 4 of 4", table, WORDS, AXES, UBRENCHIP_AXIS, 1);
    all_refused("axis 2^62", table, WORDS, (uint64_t)TOP + 1, UBRENCHIP_AXIS, 1);
    all_refused("broken", table, WORDS, 2, UBRENCHIP_BROKEN, 0);
    all_refused("empty", table, WORDS, 1, UBRENCHIP_EMPTY, 0);
    refused("arm of a counter", ubrenchip_arm(table, WORDS, 0), UBRENCHIP_KIND);
    refused("acknowledge of a counter", ubrenchip_acknowledge(table, WORDS, 0), UBRENCHIP_KIND);
    speed_refused("speed of a counter at rate 0", ubrenchip_speed_by_period(table, WORDS, 0, 0), UBRENCHIP_KIND);
    refused("reading 2^62 of an axis", ubrenchip_reading(table, WORDS, 3, (uint64_t)TOP + 1), UBRENCHIP_KIND);
    kept("refused calls");
}

/* ---- rows that are not empty */

/* Each single bit of an otherwise empty row, beside a counter, a broken row and an axis that has run; and then these three. */
static void not_empty(void)
{
    four_rows();
    for (unsigned bit = 0; bit < 256; bit++) {
        table[4 + bit / 64] = (uint64_t)1 << bit % 64;
        occupied("one bit", 1);
        freed("one bit", 1);
    }
    for (unsigned i = 0; i < AXES; i++) {
        if (i != 1)
            occupied("a counter, a broken row, an axis that has run", i);
        freed("a counter, an empty row, a broken row, an axis that has run", i);
    }
}

/* Tables with one bit set, anywhere, which is a broken row: a restore wants every row empty, those that its record does not name too, and
   a save says BROKEN, whatever the room. Then tables with one axis, and one with rows of each sort. */
static void table_not_empty(void)
{
    uint8_t buffer[80];
    for (unsigned bit = 0; bit < 64 * WORDS; bit++) {
        empty();
        table[bit / 64] = (uint64_t)1 << bit % 64;
        table_occupied("one bit");
        fill(buffer, sizeof buffer);
        refused("one bit", ubrenchip_save_table(table, WORDS, buffer, sizeof buffer), UBRENCHIP_BROKEN);
        refused("one bit, and no room", ubrenchip_save_table(table, WORDS, NULL, 0), UBRENCHIP_BROKEN);
        unwritten("one bit", buffer, sizeof buffer);
        done("erase", ubrenchip_erase(table, WORDS, bit / 256));
        done("restore", restore_table(saved_table, sizeof saved_table));
        is_saved_table("after the erase");
    }
    for (unsigned axis = 0; axis < AXES; axis++) {
        empty();
        done("setup", set_up(axis, &configurations[2]));
        table_occupied("one axis");
    }
    four_rows();
    table_occupied("a counter, an empty row, a broken row, an axis that has run");
}

/* An axis that the table has not is AXIS before any row is looked at, and after the record. */
static void axes_beyond(void)
{
    uint8_t record[65];
    static const uint8_t beyond[] = {AXES, AXES + 1, 15, 16, 17, 127, 128, 255};
    for (unsigned i = 0; i < COUNT(beyond); i++) {
        for (unsigned k = 0; k < sizeof record; k++)
            record[k] = k == 42 ? beyond[i] : saved_table[k];
        done("a good record", ubrenchip_test_any(record, sizeof record));
        for (unsigned full = 0; full < 3; full++) {
            if (full < 2)
                empty();
            if (full == 1)
                done("setup", set_up(1, &configurations[0]));
            if (full == 2)
                four_rows();
            remember();
            refused("an axis beyond the table", restore_table(record, sizeof record), UBRENCHIP_AXIS);
            kept("an axis beyond the table");
            record[61] = 33;
            refused("and a width beyond its limit", restore_table(record, sizeof record), UBRENCHIP_VALUE);
            kept("and a width beyond its limit");
            record[61] = 12;
        }
    }
}

/* Axes of every configuration, which have moved: saved and erased, each is restored in its own row, and in another. */
static void moved_out(void)
{
    static const uint8_t codes[] = {0, 1, 3, 2, 6, 7};
    uint8_t record[UBRENCHIP_RECORD_BYTES_SAMPLED];
    uint8_t all[UBRENCHIP_RECORD_BYTES_TABLE];
    for (unsigned n = 0; n < COUNT(configurations); n++) {
        const configuration *to = &configurations[n];
        if (!to->fits)
            continue;
        empty();
        done(to->what, set_up(1, to));
        done("preset", ubrenchip_preset(table, WORDS, 1, -1000));
        for (unsigned i = 0; i < 60; i++)
            ubrenchip_sample(table, WORDS, (uint64_t)codes[i / 10] << 4);
        if (to->kind == 8)
            ubrenchip_reading(table, WORDS, 1, 1);
        const int64_t position = ubrenchip_view(table, WORDS, 1).position;
        holds("it has moved", position != -1000);
        const ubrenchip_answer length = ubrenchip_save(table, WORDS, 1, record, sizeof record);
        value("save", length, to->kind == 8 ? UBRENCHIP_RECORD_BYTES_COUNTER : UBRENCHIP_RECORD_BYTES_SAMPLED);
        const ubrenchip_answer whole = ubrenchip_save_table(table, WORDS, all, sizeof all);
        value("save of the table", whole, length.value + 8);
        remember();
        refused("its own table", restore_table(all, (size_t)whole.value), UBRENCHIP_OCCUPIED);
        refused("its own record", ubrenchip_restore(table, WORDS, 1, record, (size_t)length.value), UBRENCHIP_OCCUPIED);
        kept("its own record");
        done("erase", ubrenchip_erase(table, WORDS, 1));
        for (unsigned i = 1; i < 3; i++) {
            done("restore", ubrenchip_restore(table, WORDS, i, record, (size_t)length.value));
            newly(to->what, i, to, position);
        }
        empty();
        done("restore of the table", restore_table(all, (size_t)whole.value));
        newly(to->what, 1, to, position);
        for (unsigned i = 0; i < WORDS; i++)
            holds("no other row", i / 4 == 1 || table[i] == 0);
    }
}

/* A number below a limit: the same each time that the program runs. */
static unsigned below(unsigned limit)
{
    static uint64_t state = 1;
    state = state * 6364136223846793005 + 1442695040888963407;
    return (unsigned)((state >> 33) % limit);
}

/* A setup, a restore or a look on any of the axes, or a save or a restore of the table, which is never empty. The last axis alone can be
   empty: there a setup and a restore may be done, and there alone an erase is made. */
static void meddle(void)
{
    const unsigned axis = below(AXES);
    const configuration *to = &configurations[below(COUNT(configurations))];
    const int live = axis < 3 || table[4 * axis + 1] != 0;
    uint8_t buffer[UBRENCHIP_RECORD_BYTES_SAMPLED], whole[UBRENCHIP_RECORD_BYTES_TABLE];
    switch (below(9)) {
    case 0:
        expect("a setup", set_up(axis, to), live ? UBRENCHIP_OCCUPIED : to->fits ? UBRENCHIP_DONE : UBRENCHIP_VALUE, 0, 0);
        break;
    case 1:
        expect("a restore", restore_saved(axis), live ? UBRENCHIP_OCCUPIED : UBRENCHIP_DONE, 0, 0);
        break;
    case 2:
        restore_flawed(axis, &flawed[below(COUNT(flawed))]);
        break;
    case 3:
        same("looked at", ubrenchip_view(table, WORDS, axis).refusal, live ? UBRENCHIP_DONE : UBRENCHIP_EMPTY);
        break;
    case 4:
        ubrenchip_speed_by_period(table, WORDS, axis, 1000);
        break;
    case 5:
        ubrenchip_save(table, WORDS, axis, buffer, sizeof buffer);
        break;
    case 6:
        ubrenchip_save_table(table, WORDS, whole, sizeof whole);
        break;
    case 7:
        refused("a restore of the table", restore_table(saved_table, sizeof saved_table), UBRENCHIP_OCCUPIED);
        break;
    default:
        done("erase of the last", ubrenchip_erase(table, WORDS, 3));
    }
}

/* Two tables with the same three axes, on one port and with the same readings. One is meddled with between the samples, the other is not.
   After every sample the three stand alike in both, and the samples and readings answer the same of them. */
static void meddled_with(void)
{
    static const uint64_t codes[4] = {0, 1, 3, 2};
    uint64_t alone[WORDS] = {0}, count = 0;
    unsigned angles[2] = {0, 0};
    empty();
    done("setup of x4", ubrenchip_setup(table, WORDS, 0, 4, 1, 0, 4));
    done("arm", ubrenchip_arm(table, WORDS, 0));
    done("setup of a counter", ubrenchip_setup(table, WORDS, 1, 8, 0, 8, 0));
    done("setup of x2", ubrenchip_setup(table, WORDS, 2, 2, 2, 0, 0));
    for (unsigned i = 0; i < WORDS; i++)
        alone[i] = table[i];
    for (unsigned n = 0; n < 5000; n++) {
        for (unsigned i = below(5); i > 0; i--)
            meddle();
        for (unsigned i = 0; i < 2; i++)
            angles[i] += 7 + below(3) + (below(50) == 0); /* of 8: a step back, none or one forward, or now and then one more */
        count += 129 + below(255);                        /* of 256: less than half a turn either way */
        const uint64_t port = codes[angles[0] % 4] | (angles[0] % 8 < 3 ? 4u : 0) | codes[angles[1] % 4] << 8 | (uint64_t)below(16) << 12;
        const ubrenchip_sampled got = ubrenchip_sample(table, WORDS, port), stated = ubrenchip_sample(alone, WORDS, port);
        sampled("meddled with", (ubrenchip_sampled){got.refusal, got.found, got.doubles & 7, got.index & 7, got.broken & 7}, stated);
        value("meddled with", ubrenchip_reading(table, WORDS, 1, count & 255), ubrenchip_reading(alone, WORDS, 1, count & 255).value);
        for (unsigned i = 0; i < 12; i++)
            same("meddled with", table[i], alone[i]);
    }
    holds("the axes have moved", ubrenchip_view(alone, WORDS, 0).homed && alone[0] != at(0) && alone[4] != at(0) && alone[8] != at(0));
}

static void sixteen_axes(void)
{
    static uint64_t all[68];
    done("setup of axis 15", ubrenchip_setup(all, 64, 15, 4, 1, 0, 0));
    sampled("priming", ubrenchip_sample(all, 64, 0), (ubrenchip_sampled){0});
    sampled("a double step of axis 15", ubrenchip_sample(all, 64, UINT64_MAX), (ubrenchip_sampled){.doubles = 1 << 15});
    sampled("an edge of axis 15", ubrenchip_sample(all, 64, (uint64_t)1 << 60), (ubrenchip_sampled){.index = 1 << 15});
    shows("axis 15", ubrenchip_view(all, 64, 15), (ubrenchip_viewed){.position = -1, .kind = 4, .doubles = 1, .primed = 1});
    sampled("17 axes", ubrenchip_sample(all, 68, 0), (ubrenchip_sampled){.refusal = UBRENCHIP_LENGTH});
    refused("17 axes", ubrenchip_erase(all, 68, 0), UBRENCHIP_LENGTH);
}

/* Sixteen axes in one record of 492 bytes, and back; one more is too many for any table. */
static void sixteen_axes_saved(void)
{
    static uint64_t all[64], fresh[64];
    static uint8_t record[UBRENCHIP_RECORD_BYTES_TABLE + 8];
    static const uint64_t kinds[3] = {4, 2, 1};
    for (unsigned i = 0; i < 16; i++) {
        done("setup", ubrenchip_setup(all, 64, i, kinds[i % 3], 1 + i % 8, 0, 100 * i));
        done("preset", ubrenchip_preset(all, 64, i, i % 2 ? TOP - i : -TOP));
    }
    for (unsigned i = 0; i < 64; i++)
        fresh[i] = all[i];
    for (unsigned i = 0; i < 20; i++)
        ubrenchip_sample(all, 64, i / 10 ? 0x1111111111111111 : 0);
    for (unsigned i = 0; i < 16; i++)
        done("preset", ubrenchip_preset(all, 64, i, i % 2 ? TOP - i : -TOP));
    fill(record, sizeof record);
    refused("491 bytes", ubrenchip_save_table(all, 64, record, UBRENCHIP_RECORD_BYTES_TABLE - 1), UBRENCHIP_ROOM);
    unwritten("491 bytes", record, sizeof record);
    value("492 bytes", ubrenchip_save_table(all, 64, record, sizeof record), UBRENCHIP_RECORD_BYTES_TABLE);
    for (unsigned i = UBRENCHIP_RECORD_BYTES_TABLE; i < sizeof record; i++)
        same("none beyond", record[i], filler(i));
    refused("over live axes", ubrenchip_restore_table(all, 64, record, UBRENCHIP_RECORD_BYTES_TABLE), UBRENCHIP_OCCUPIED);
    for (unsigned i = 0; i < 16; i++) {
        holds("they have seen samples", all[4 * i + 1] != fresh[4 * i + 1]);
        done("erase", ubrenchip_erase(all, 64, i));
    }
    refused("15 rows", ubrenchip_restore_table(all, 60, record, UBRENCHIP_RECORD_BYTES_TABLE), UBRENCHIP_AXIS);
    done("16 rows", ubrenchip_restore_table(all, 64, record, UBRENCHIP_RECORD_BYTES_TABLE));
    for (unsigned i = 0; i < 64; i++)
        same("as setups and presets", all[i], fresh[i]);
    record[8] = 17;
    refused("17 axes", ubrenchip_test_any(record, UBRENCHIP_RECORD_BYTES_TABLE), UBRENCHIP_VALUE);
    record[8] = 15;
    refused("15 axes and 16 entries", ubrenchip_test_any(record, UBRENCHIP_RECORD_BYTES_TABLE), UBRENCHIP_RECORD);
}

int main(void)
{
    setting_up();
    counting();
    double_steps();
    filter();
    limit();
    homing();
    homing_backward();
    either_side();
    every_change();
    filtered_edges();
    homing_at_the_ends();
    checking_at_the_bottom();
    priming();
    every_double();
    readings();
    speed_by_period();
    remainders_by_period();
    saving();
    saving_the_table();
    saving_nothing();
    one_row();
    refusals();
    not_empty();
    table_not_empty();
    axes_beyond();
    moved_out();
    meddled_with();
    sixteen_axes();
    sixteen_axes_saved();
    return verdict("the calls on a table", 0x3FFE);
}
