/* mix64 of the probes: what the identities of bulk runs and the random numbers of guard are made with (splitmix64). */
#ifndef HOST_MIX64_H
#define HOST_MIX64_H

#include <stdint.h>

#define GOLDEN 0x9E3779B97F4A7C15u

static inline uint64_t mix64(uint64_t x)
{
    x = (x ^ x >> 30) * 0xBF58476D1CE4E5B9u;
    x = (x ^ x >> 27) * 0x94D049BB133111EBu;
    return x ^ x >> 31;
}

#endif
