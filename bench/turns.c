/*
 * turns: the starts from which the search for the smallest funnel table takes the most turns, for each exponent.
 *
 *     cc -O2 -o target/turns bench/turns.c && target/turns
 *
 * A model of crates/geometry_smallest/src/layouts.rt that counts. The search is long only where the set of special lengths changes: at the
 * first and the last n of a length, and where g changes. The n up to 130 before and after these are tried, for every length that is 0 or 1
 * modulo 4g, up to that from which on the bounds always hold every remainder; and 800,000 others for each exponent.
 */
#include <stdint.h>
#include <stdio.h>

#define LAST ((uint64_t)1 << 32)
#define AROUND 130
#define OTHERS 800000

static uint64_t ceil_log2(uint64_t n)
{
    return n <= 1 ? 0 : 64 - (uint64_t)__builtin_clzll(n - 1);
}

static uint64_t loglog(uint64_t n)
{
    uint64_t g = ceil_log2(ceil_log2(n));
    return g != 0 ? g : 1;
}

static uint64_t main_slots(uint64_t e)
{
    return (4 * e + 10) * (2 * e);
}

static uint64_t special_least(uint64_t n, uint64_t e)
{
    uint64_t part = (n + ((uint64_t)1 << (e + 1)) - 1) >> (e + 1);
    return part < 4 * loglog(n) ? 4 * loglog(n) : part;
}

/* Whether n has a special length: tried from the upper bound down, where whole buckets are left; after 2g tries the remainders repeat. */
static int has_length(uint64_t n, uint64_t e)
{
    uint64_t beta = 2 * e, w = 2 * loglog(n), least = special_least(n, e), s = 3 * n >> (e + 2), k;
    if (n < main_slots(e))
        return 0;
    if (n - main_slots(e) < s)
        s = n - main_slots(e);
    s -= (beta - (n - s) % beta) % beta;
    for (k = 0; k < w && least <= s && s <= n; k++, s -= beta)
        if (s / 2 % w == 0)
            return 1;
    return 0;
}

/* The first n whose upper bound reaches a length. */
static uint64_t slots_from(uint64_t s, uint64_t e)
{
    uint64_t part = ((s << (e + 2)) + 2) / 3;
    return part < s + main_slots(e) ? s + main_slots(e) : part;
}

static uint64_t last_alike(uint64_t n)
{
    return n <= 256 ? 256 : n <= 65536 ? 65536 : LAST;
}

static uint64_t next_slots(uint64_t n, uint64_t e)
{
    uint64_t period = 4 * loglog(n), least = special_least(n, e), over = least % period;
    uint64_t t = slots_from(over < 2 ? least : least + (period - over), e);
    if (last_alike(n) < t)
        return last_alike(n) + 1;
    return n < t ? t : n + 1;
}

struct worst {
    unsigned turns;
    uint64_t start, found;
};

static void try_start(struct worst *worst, uint64_t e, uint64_t start)
{
    unsigned turns = 0;
    uint64_t n = start;
    if (start < 17)
        return;
    while (n <= LAST) {
        turns++;
        if (has_length(n, e))
            break;
        n = next_slots(n, e);
    }
    if (start <= LAST && turns > worst->turns)
        *worst = (struct worst){ turns, start, n };
}

static void try_around(struct worst *worst, uint64_t e, uint64_t n)
{
    uint64_t start;
    for (start = n < AROUND ? 0 : n - AROUND; start <= n + AROUND; start++)
        try_start(worst, e, start);
}

static struct worst of_exponent(uint64_t e)
{
    static uint64_t random = 1;
    struct worst worst = { 0, 0, 0 };
    uint64_t g, k, s, i, ends[] = { 17, 256, 65536, LAST };
    for (i = 0; i < 4; i++)
        try_around(&worst, e, ends[i]);
    for (g = 3; g <= 5; g++)
        for (k = 1; 4 * g * k <= 16 * e * g + 80; k++)
            for (s = 4 * g * k; s <= 4 * g * k + 1; s++) {
                if (loglog(slots_from(s, e)) == g)
                    try_around(&worst, e, slots_from(s, e));
                if (loglog(s << (e + 1)) == g)
                    try_around(&worst, e, s << (e + 1));
            }
    for (i = 0; i < OTHERS; i++) {
        random = random * 6364136223846793005u + 1442695040888963407u;
        try_start(&worst, e, random >> 32 >> (random >> 7 & 15));
    }
    return worst;
}

int main(void)
{
    unsigned e;
    for (e = 3; e <= 27; e++) {
        struct worst worst = of_exponent(e);
        printf("e %2u: %3u turns from %llu, found %llu\n", e, worst.turns, (unsigned long long)worst.start, (unsigned long long)worst.found);
    }
    return 0;
}
