/* The grid of the demonstration: a field of 256 x 256 cells with a border on every side, and the sources in the field. */
#ifndef GRID_H
#define GRID_H

#include "landovireph_table.h"

#define FIELD 256
#define BORDER 53
#define GRID (FIELD + 2 * BORDER)

#define SAMPLE_BYTES 24

/* What a table is opened with; its size follows from the number of cells. */
#define RESERVE_EXPONENT 3
#define SEED 2024
#define WORD_CAP 8

static inline uint64_t cell_identity(uint32_t x, uint32_t y)
{
    return (uint64_t)y << 32 | x;
}

/* Whether an identity is a cell of the grid. */
static inline int is_in_grid(uint64_t identity)
{
    return (identity & 0xffffffffu) < GRID && identity >> 32 < GRID;
}

/* Whether it is one of the field; the others are the border's. */
static inline int is_in_field(uint64_t identity)
{
    uint64_t x = identity & 0xffffffffu, y = identity >> 32;
    return x >= BORDER && x < BORDER + FIELD && y >= BORDER && y < BORDER + FIELD;
}

#define BRIGHT 6
#define FAINT 24
#define SOURCES (BRIGHT + FAINT)

struct source {
    double x, y, height;
};

/* The sources stand at fixed, scattered places; the noise of the finished picture is 1. */
static inline struct source source_number(int i)
{
    struct source source;
    uint32_t step = (uint32_t)i;
    source.x = BORDER + 12 + (step * 89 + 40) % 232;
    source.y = BORDER + 12 + (step * 53 + step * step * 7 + 20) % 232;
    source.height = i < BRIGHT ? 20.0 + 4.0 * i : 5.0;
    return source;
}

/* A round source of height 1 at a distance from its centre: it falls off within about three cells. */
static inline double source_shape(double dx, double dy)
{
    double fall = 1.0 + (dx * dx + dy * dy) / 9.0;
    return 1.0 / (fall * fall * fall);
}

/* The pictures' black and white, in units of the finished picture's noise. */
#define BLACK (-5.0)
#define WHITE 10.0

#endif
