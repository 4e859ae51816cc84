/* A sum of speeds that stays exact. All of its speeds have one divisor and one rate. */
#ifndef SPEED_SUM_H
#define SPEED_SUM_H

#include "ubrenchip.h"

/* Zeroed at first. After every speed divisor * sum + carry is exactly 1000 * rate * the counts of all of them,
   and the carry is at most half the divisor, either way. */
typedef struct speed_sum {
    int64_t sum;
    int64_t carry;
} speed_sum;

/* Adds a speed, unless it was refused; answers whether it was added. */
static inline int add_speed(speed_sum *speeds, ubrenchip_speed speed)
{
    if (speed.refusal != UBRENCHIP_DONE)
        return 0;
    const int64_t divisor = (int64_t)speed.divisor; /* below 2^32; signed, as what it is compared with */
    const int64_t left = speeds->carry + speed.remainder;
    const int64_t more = 2 * left >= divisor ? 1 : 2 * left <= -divisor ? -1 : 0;
    speeds->sum += speed.number + more;
    speeds->carry = left - more * divisor;
    return 1;
}

#endif
