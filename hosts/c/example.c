/* Two axles on one port: sampled, looked at, one of them saved and restored in the other's row, then both in one record. */
#include <stdio.h>
#include "ubrenchip.h"

enum { AXES = 2, WORDS = UBRENCHIP_WORDS_A_ROW * AXES };

/* Whether a call was done; says which one was not, and why, by the number that docs/FITTER.md explains. */
static int done(const char *call, uint32_t refusal)
{
    if (refusal != UBRENCHIP_DONE)
        fprintf(stderr, "%s: refusal %u\n", call, (unsigned)refusal);
    return refusal == UBRENCHIP_DONE;
}

int main(void)
{
    static uint64_t table[WORDS]; /* zeroed: both axes are empty */
    for (unsigned axis = 0; axis < AXES; axis++)
        if (!done("setup", ubrenchip_setup(table, WORDS, axis, UBRENCHIP_KIND_X4, 1, 0, 4096).refusal))
            return 1;

    /* Axis 0 has bits 0 to 3 and turns forward; axis 1 has bits 4 to 7 and turns back. */
    static const uint64_t ports[] = {0x00, 0x21, 0x33, 0x12, 0x00};
    for (unsigned i = 0; i < sizeof ports / sizeof ports[0]; i++) {
        ubrenchip_sampled sampled = ubrenchip_sample(table, WORDS, ports[i]);
        if (!done("sample", sampled.refusal))
            return 1;
        if (sampled.doubles || sampled.broken)
            fprintf(stderr, "sample %u: double steps %llx, broken rows %llx\n", i, (unsigned long long)sampled.doubles,
                    (unsigned long long)sampled.broken);
    }

    for (unsigned axis = 0; axis < AXES; axis++) {
        ubrenchip_viewed viewed = ubrenchip_view(table, WORDS, axis);
        if (!done("view", viewed.refusal))
            return 1;
        printf("axis %u: position %lld, doubles %u\n", axis, (long long)viewed.position, (unsigned)viewed.doubles);
    }

    uint8_t record[UBRENCHIP_RECORD_BYTES_SAMPLED];
    ubrenchip_answer saved = ubrenchip_save(table, WORDS, 0, record, sizeof record);
    if (!done("save", saved.refusal))
        return 1;
    if (!done("erase", ubrenchip_erase(table, WORDS, 1).refusal)) /* a restore takes an empty row alone */
        return 1;
    ubrenchip_answer restored = ubrenchip_restore(table, WORDS, 1, record, (size_t)saved.value);
    if (restored.refusal == UBRENCHIP_LAYOUT)
        fprintf(stderr, "the record is of layout %u\n", (unsigned)restored.found);
    if (!done("restore", restored.refusal))
        return 1;
    ubrenchip_viewed viewed = ubrenchip_view(table, WORDS, 1);
    if (!done("view", viewed.refusal))
        return 1;
    printf("axis 1 from the record of axis 0, %lld bytes: position %lld\n", (long long)saved.value, (long long)viewed.position);

    /* Before an update: the whole table in one record. After it: into a table of empty rows, all axes or none. */
    uint8_t whole[UBRENCHIP_RECORD_BYTES_TABLE];
    saved = ubrenchip_save_table(table, WORDS, whole, sizeof whole);
    if (!done("save of the table", saved.refusal))
        return 1;
    static uint64_t updated[WORDS];
    restored = ubrenchip_restore_table(updated, WORDS, whole, (size_t)saved.value);
    if (restored.refusal == UBRENCHIP_LAYOUT)
        fprintf(stderr, "the record is of layout %u\n", (unsigned)restored.found);
    if (!done("restore of the table", restored.refusal))
        return 1;
    for (unsigned axis = 0; axis < AXES; axis++) {
        viewed = ubrenchip_view(updated, WORDS, axis);
        if (!done("view", viewed.refusal))
            return 1;
        printf("axis %u from the record of the table, %lld bytes: position %lld\n", axis, (long long)saved.value,
               (long long)viewed.position);
    }
    return 0;
}
