/* What the C checks share: expectations that are counted, and the verdict at the end. */
#ifndef CHECK_H
#define CHECK_H

#include <stdint.h>
#include <stdio.h>
#include "ubrenchip.h"

#define TOP INT64_C(4611686018427387903) /* 2^62 - 1 */

static int checks, wrong;
static unsigned given; /* bit n: refusal n was answered where it should be */

/* Counts a check, and answers whether it was right. */
static int counted(int right)
{
    checks++;
    wrong += !right;
    return right;
}

static void expect(const char *what, ubrenchip_answer got, uint32_t refusal, uint32_t found, int64_t value)
{
    if (counted(got.refusal == refusal && got.found == found && got.value == value)) {
        given |= 1u << refusal;
        return;
    }
    printf("WRONG: %s: refusal %u, found %u, value %lld; it should be %u, %u, %lld\n", what, (unsigned)got.refusal,
           (unsigned)got.found, (long long)got.value, (unsigned)refusal, (unsigned)found, (long long)value);
}

static void expect_speed(const char *what, ubrenchip_speed got, ubrenchip_speed stated)
{
    if (counted(got.refusal == stated.refusal && got.found == stated.found && got.number == stated.number &&
                got.remainder == stated.remainder && got.divisor == stated.divisor)) {
        given |= 1u << stated.refusal;
        return;
    }
    printf("WRONG: %s: refusal %u, found %u, number %lld, remainder %lld, divisor %llu; ", what, (unsigned)got.refusal,
           (unsigned)got.found, (long long)got.number, (long long)got.remainder, (unsigned long long)got.divisor);
    printf("it should be %u, %u, %lld, %lld, %llu\n", (unsigned)stated.refusal, (unsigned)stated.found,
           (long long)stated.number, (long long)stated.remainder, (unsigned long long)stated.divisor);
}

static void speed_is(const char *what, ubrenchip_speed got, int64_t number, int64_t remainder, uint64_t divisor)
{
    expect_speed(what, got, (ubrenchip_speed){UBRENCHIP_DONE, 0, number, remainder, divisor});
}

/* A speed that is refused shows 0 in every field but the reason. */
static void speed_refused(const char *what, ubrenchip_speed got, uint32_t refusal)
{
    expect_speed(what, got, (ubrenchip_speed){.refusal = refusal});
}

/* Anything else that should hold. */
static inline void holds(const char *what, int right)
{
    if (!counted(right))
        printf("WRONG: %s\n", what);
}

/* The number of the program's exit: 1 where a check was wrong or a refusal of `all` was never answered. */
static int verdict(const char *name, unsigned all)
{
    for (unsigned n = 0; n <= UBRENCHIP_OCCUPIED; n++) {
        if ((all & ~given) >> n & 1) {
            printf("%s: refusal %u was never answered\n", name, n);
            return 1;
        }
    }
    if (wrong) {
        printf("%s: %d of %d checks are wrong\n", name, wrong, checks);
        return 1;
    }
    printf("%s: %d checks, none wrong\n", name, checks);
    return 0;
}

#endif
