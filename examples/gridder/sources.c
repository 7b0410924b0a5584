/*
 * sources: how plainly each known source stands in two pictures of the field, and what else looks like one.
 *
 *     sources HONEST.pgm OTHER.pgm
 *
 * A source's height is fitted over the cells around a place, and held against the picture's noise. The noise is estimated in two ways, from
 * the median distance from 0 of all cells and as the root mean square of the cells away from sources: where part of the cells are far
 * noisier than the rest, as in a picture whose cells lost their weight, the median sees the quiet part alone. At 5 times the noise of the fit
 * or more something counts as found; away from the known sources it is a false one, counted where no place around it stands out more. The
 * pictures are cut at their black and white, so that the largest errors look smaller than they are.
 * Exit status: 0; 2 where an argument or a picture is wrong, or writing fails.
 */
#include "grid.h"

#include <math.h>
#include <stdbool.h>
#include <stdio.h>
#include <stdlib.h>

#define AROUND 4 /* cells on each side that the fit takes in */
#define FOUND_AT 5.0

enum estimate { BY_MEDIAN, BY_SQUARES, ESTIMATES };

struct picture {
    double cells[FIELD][FIELD];
    double noise[ESTIMATES];
};

/* What is found in a picture by one estimate of its noise. */
struct found {
    int bright, faint, other;
};

static void read_picture(const char *path, struct picture *picture)
{
    FILE *file = fopen(path, "rb");
    int width, height, most, x, y;
    if (file == NULL || fscanf(file, "P5 %d %d %d", &width, &height, &most) != 3 || width != FIELD || height != FIELD ||
        most != 65535 || getc(file) == EOF) {
        fprintf(stderr, "sources: %s is no picture of the field, or cannot be read\n", path);
        exit(2);
    }
    for (y = 0; y < FIELD; y++)
        for (x = 0; x < FIELD; x++) {
            int high = getc(file), low = getc(file);
            if (low == EOF) {
                fprintf(stderr, "sources: %s ends early\n", path);
                exit(2);
            }
            picture->cells[y][x] = BLACK + (256 * high + low) / 65535.0 * (WHITE - BLACK);
        }
    fclose(file);
}

static int by_size(const void *a, const void *b)
{
    double x = *(const double *)a, y = *(const double *)b;
    return (x > y) - (x < y);
}

/* Whether a place of the field is away from every source. */
static bool is_away(int x, int y)
{
    int i;
    for (i = 0; i < SOURCES; i++) {
        struct source source = source_number(i);
        if (fabs(source.x - BORDER - x) <= 2 * AROUND && fabs(source.y - BORDER - y) <= 2 * AROUND)
            return false;
    }
    return true;
}

/* The median distance from 0, scaled to the deviation that normal noise of that median has. */
static double noise_by_median(const struct picture *picture)
{
    static double all[FIELD * FIELD];
    int i;
    for (i = 0; i < FIELD * FIELD; i++)
        all[i] = fabs(picture->cells[i / FIELD][i % FIELD]);
    qsort(all, FIELD * FIELD, sizeof all[0], by_size);
    return 1.4826 * all[FIELD * FIELD / 2];
}

static double noise_by_squares(const struct picture *picture)
{
    double squares = 0.0, cells = 0.0;
    int x, y;
    for (y = 0; y < FIELD; y++)
        for (x = 0; x < FIELD; x++)
            if (is_away(x, y)) {
                squares += picture->cells[y][x] * picture->cells[y][x];
                cells += 1.0;
            }
    return sqrt(squares / cells);
}

/* The height fitted at a place, in units of what noise of 1 in each cell gives. */
static double fitted(const struct picture *picture, int cx, int cy)
{
    int dx, dy;
    double with = 0.0, square = 0.0;
    for (dy = -AROUND; dy <= AROUND; dy++)
        for (dx = -AROUND; dx <= AROUND; dx++) {
            double shape = source_shape(dx, dy);
            with += shape * picture->cells[cy + dy][cx + dx];
            square += shape * shape;
        }
    return with / sqrt(square);
}

/* How many places away from the sources stand out so far, and not less than any place around them. */
static int count_false(double (*heights)[FIELD], double least)
{
    int x, y, dx, dy, count = 0;
    for (y = 2 * AROUND; y < FIELD - 2 * AROUND; y++)
        for (x = 2 * AROUND; x < FIELD - 2 * AROUND; x++) {
            bool top = heights[y][x] >= least && is_away(x, y);
            for (dy = -AROUND; top && dy <= AROUND; dy++)
                for (dx = -AROUND; top && dx <= AROUND; dx++)
                    top = heights[y][x] >= heights[y + dy][x + dx];
            count += top;
        }
    return count;
}

static void look(struct picture *picture, struct found found[ESTIMATES])
{
    static double heights[FIELD][FIELD];
    int x, y, i, k;
    picture->noise[BY_MEDIAN] = noise_by_median(picture);
    picture->noise[BY_SQUARES] = noise_by_squares(picture);
    for (y = AROUND; y < FIELD - AROUND; y++)
        for (x = AROUND; x < FIELD - AROUND; x++)
            heights[y][x] = fitted(picture, x, y);
    for (k = 0; k < ESTIMATES; k++) {
        double least = FOUND_AT * picture->noise[k];
        found[k] = (struct found){ 0, 0, count_false(heights, least) };
        for (i = 0; i < SOURCES; i++) {
            struct source source = source_number(i);
            int stands = heights[(int)source.y - BORDER][(int)source.x - BORDER] >= least;
            if (i < BRIGHT)
                found[k].bright += stands;
            else
                found[k].faint += stands;
        }
    }
}

static void print_found(const char *estimate, const struct picture *honest, const struct picture *other, const struct found *a,
                        const struct found *b, int k)
{
    printf("noise, %-12s %6.2f  %6.2f\n", estimate, honest->noise[k], other->noise[k]);
    printf("  bright sources   %3d/%d    %3d/%d\n", a[k].bright, BRIGHT, b[k].bright, BRIGHT);
    printf("  faint sources   %3d/%d   %3d/%d\n", a[k].faint, FAINT, b[k].faint, FAINT);
    printf("  false ones      %6d  %6d\n", a[k].other, b[k].other);
}

int main(int count, char **words)
{
    static struct picture honest, other;
    struct found in_honest[ESTIMATES], in_other[ESTIMATES];
    if (count != 3) {
        fprintf(stderr, "usage: sources HONEST.pgm OTHER.pgm\n");
        return 2;
    }
    read_picture(words[1], &honest);
    read_picture(words[2], &other);
    look(&honest, in_honest);
    look(&other, in_other);
    printf("                    honest   other\n");
    print_found("median", &honest, &other, in_honest, in_other, BY_MEDIAN);
    print_found("rms", &honest, &other, in_honest, in_other, BY_SQUARES);
    if (fflush(stdout) != 0 || ferror(stdout)) {
        perror("sources");
        return 2;
    }
    return 0;
}
