/* Sums of speeds, kept as docs/HOSTS.md shows it: exact after every speed, where numbers alone drift. */
#include "check.h"
#include "speed_sum.h"

/* Speeds of one divisor and one rate that are summed, and what the sum is held against. */
typedef struct series {
    uint64_t samples, rate;
    speed_sum kept;
    int64_t counts;  /* of all speeds */
    int64_t numbers; /* of all speeds, with nothing carried over */
} series;

/* Adds a speed of so many counts: the sum is exact then, and its carry at most half the divisor. */
static void add(const char *what, series *to, ubrenchip_speed speed, int64_t counts)
{
    const int64_t divisor = (int64_t)to->samples;
    holds(what, add_speed(&to->kept, speed) && speed.divisor == to->samples);
    to->counts += counts;
    to->numbers += speed.number;
    holds(what, divisor * to->kept.sum + to->kept.carry == 1000 * (int64_t)to->rate * to->counts);
    holds(what, -divisor <= 2 * to->kept.carry && 2 * to->kept.carry <= divisor);
}

static void add_by_count(const char *what, series *to, int64_t difference)
{
    add(what, to, ubrenchip_speed_by_count(difference, to->samples, to->rate), difference);
}

/* What a series has come to: its sum and carry, and its numbers alone. */
static void comes_to(const char *what, const series *of, int64_t sum, int64_t carry, int64_t numbers)
{
    holds(what, of->kept.sum == sum && of->kept.carry == carry && of->numbers == numbers);
}

/* A difference of any size that keeps the counts of all within UBRENCHIP_DIFFERENCE_LIMIT, so that 1000 * rate * counts
   fits. */
static int64_t any_difference(int64_t counts)
{
    static uint64_t random = 88172645463325252;
    const int64_t most = UBRENCHIP_DIFFERENCE_LIMIT;
    random ^= random << 13;
    random ^= random >> 7;
    random ^= random << 17;
    const int64_t any = (int64_t)(random >> 33); /* 31 bits */
    const int64_t size = random % 4 == 0 ? most : random % 4 == 1 ? any : any % 20;
    const int64_t difference = random >> 8 & 1 ? size : -size;
    return counts + difference < -most || counts + difference > most ? -difference : difference;
}

static void mixed(void)
{
    static const uint64_t samples[] = {1, 2, 3, 7, 16, 1000, 2000, 2001, 999983, 4000000000, 4294967294, UINT32_MAX};
    static const uint64_t rates[] = {1, 3, 1000, 999999, 1000000};
    for (unsigned i = 0; i < sizeof samples / sizeof samples[0]; i++) {
        for (unsigned j = 0; j < sizeof rates / sizeof rates[0]; j++) {
            series list = {.samples = samples[i], .rate = rates[j]};
            for (unsigned n = 0; n < 20000 && !wrong; n++)
                add_by_count("a mixed list", &list, any_difference(list.counts));
        }
    }
}

/* The same difference 300,000 times, at rate 1. */
static void alike(const char *what, int64_t difference, uint64_t samples, int64_t sum, int64_t carry, int64_t numbers)
{
    series list = {.samples = samples, .rate = 1};
    for (unsigned n = 0; n < 300000 && !wrong; n++)
        add_by_count(what, &list, difference);
    comes_to(what, &list, sum, carry, numbers);
}

/* Numbers alone: one part in a thousand is lost, a half counts for a whole, and what is less than half for nothing. */
static void drifting(void)
{
    alike("1 in 3, over and over", 1, 3, 100000000, 0, 99900000);
    alike("-1 in 3, over and over", -1, 3, -100000000, 0, -99900000);
    alike("1 in 2000, over and over", 1, 2000, 150000, 0, 300000);
    alike("-1 in 2000, over and over", -1, 2000, -150000, 0, -300000);
    alike("1 in 2001, over and over", 1, 2001, 149925, 75, 0);
    alike("-1 in 2001, over and over", -1, 2001, -149925, -75, 0);
}

/* Speeds by period of a shaft that makes a step each 7 samples, 600 of them forward and then 400 back. After the first
   either way there is no speed yet, and what is refused changes no sum. */
static void by_period(void)
{
    static const uint64_t codes[4] = {0, 1, 3, 2};
    uint64_t table[UBRENCHIP_WORDS_A_ROW] = {0};
    const size_t words = UBRENCHIP_WORDS_A_ROW;
    series list = {.samples = 7, .rate = 1};
    unsigned angle = 0;
    expect("setup", ubrenchip_setup(table, words, 0, UBRENCHIP_KIND_X4, 1, 0, 0), UBRENCHIP_DONE, 0, 0);
    ubrenchip_sample(table, words, codes[angle]);
    for (unsigned n = 1; n <= 1000; n++) {
        const int64_t way = n <= 600 ? 1 : -1;
        angle += (unsigned)way;
        for (unsigned i = 0; i < 7; i++)
            ubrenchip_sample(table, words, codes[angle % 4]);
        const ubrenchip_speed speed = ubrenchip_speed_by_period(table, words, 0, list.rate);
        if (n == 1 || n == 601) {
            const speed_sum before = list.kept;
            speed_refused("no period", speed, UBRENCHIP_NO_PERIOD);
            holds("it is not added", !add_speed(&list.kept, speed));
            holds("the sum is as before", list.kept.sum == before.sum && list.kept.carry == before.carry);
        } else {
            speed_is("a step each 7 samples", speed, 143 * way, -way, 7);
            add("steps 7 samples apart", &list, speed, way);
        }
    }
    comes_to("599 steps forward and 399 back", &list, 28571, 3, 28600);
}

int main(void)
{
    mixed();
    drifting();
    by_period();
    return verdict("sums of speeds", 1u << UBRENCHIP_DONE | 1u << UBRENCHIP_NO_PERIOD);
}
