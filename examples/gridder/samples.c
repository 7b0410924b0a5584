/*
 * samples: makes the samples of the demonstration, always the same ones.
 *
 *     samples first|second > FILE
 *
 * A field of 256 x 256 cells lies in the middle of a grid of 362 x 362. The sky has 6 bright point sources and 24 faint ones, and
 * each sample is the sky at its cell with noise. "first" is the long part: 4 samples of weight 9 of every cell of the grid; "second"
 * is the short rest: one sample of weight 1 of every cell of the field. A record is 24 bytes: identity, value, weight (a
 * little-endian 64-bit number and two doubles). Exit status: 0; 2 for a wrong argument or where writing fails.
 */
#include "grid.h"

#include <stdio.h>
#include <stdlib.h>
#include <string.h>

#define FIRST_ROUNDS 4
#define FIRST_WEIGHT 9.0

/* The noise of a sample of weight 1, and of one of weight 9, which is a third. All samples of a cell together, weight 37, have 1. */
#define NOISE 6.083
#define FIRST_NOISE (NOISE / 3.0)

static uint64_t random_state;

/* splitmix64, written out here so that the example needs nothing but the header and the archive. */
static uint64_t draw(void)
{
    uint64_t x = random_state += 0x9E3779B97F4A7C15u;
    x = (x ^ x >> 30) * 0xBF58476D1CE4E5B9u;
    x = (x ^ x >> 27) * 0x94D049BB133111EBu;
    return x ^ x >> 31;
}

static double uniform(void)
{
    return (double)(draw() >> 11) / 9007199254740992.0;
}

/* Near enough to a normal deviate, and the same on every machine: no library function is called. */
static double deviate(void)
{
    double sum = -6.0;
    int i;
    for (i = 0; i < 12; i++)
        sum += uniform();
    return sum;
}

static double sky_at(uint32_t x, uint32_t y)
{
    double sum = 0.0;
    int i;
    for (i = 0; i < SOURCES; i++) {
        struct source source = source_number(i);
        sum += source.height * source_shape(x - source.x, y - source.y);
    }
    return sum;
}

static void put_double(uint8_t *bytes, double value)
{
    uint64_t bits;
    memcpy(&bits, &value, sizeof bits);
    landovireph_put(bytes, 0, bits);
}

static void write_sample(uint32_t x, uint32_t y, double noise, double weight)
{
    uint8_t record[SAMPLE_BYTES];
    landovireph_put(record, 0, cell_identity(x, y));
    put_double(record + 8, sky_at(x, y) + noise * deviate());
    put_double(record + 16, weight);
    fwrite(record, 1, sizeof record, stdout);
}

static void write_round(uint32_t from, uint32_t to, double noise, double weight)
{
    uint32_t x, y;
    for (y = from; y < to; y++)
        for (x = from; x < to; x++)
            write_sample(x, y, noise, weight);
}

int main(int count, char **words)
{
    int round;
    if (count == 2 && strcmp(words[1], "first") == 0) {
        random_state = 1;
        for (round = 0; round < FIRST_ROUNDS; round++)
            write_round(0, GRID, FIRST_NOISE, FIRST_WEIGHT);
    } else if (count == 2 && strcmp(words[1], "second") == 0) {
        random_state = 2;
        write_round(BORDER, BORDER + FIELD, NOISE, 1.0);
    } else {
        fprintf(stderr, "usage: samples first|second > FILE\n");
        return 2;
    }
    if (fflush(stdout) != 0 || ferror(stdout)) {
        perror("samples");
        return 2;
    }
    return 0;
}
