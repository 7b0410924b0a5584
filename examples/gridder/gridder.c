/*
 * gridder: sums samples in their cells, and makes a picture of the weighted means.
 *
 *     gridder [--from IMAGE SUMS] [--unchecked] [--to IMAGE SUMS] [--picture FILE] SAMPLES
 *
 * A cell's identity gets a slot of a funnel table, and its samples are summed at that slot. --from goes on with the table and the
 * sums of another run; the table goes through the check first, and the run ends there where no order of insertions
 * makes it. --unchecked leaves the check out, as was done before there was one. --to writes the table's image and its sums,
 * --picture the field as a PGM file.
 * Exit status: 0; 1 where the table was refused; 2 where an argument or a file is wrong. Nothing is written unless every sample was
 * summed, and then all files or none: none where the status is not 0.
 */
#include "files.h"
#include "grid.h"

#include <errno.h>
#include <inttypes.h>
#include <math.h>
#include <stdio.h>
#include <stdlib.h>
#include <string.h>

const char *const program = "gridder";

/* Samples that are placed by one call. */
#define BATCH 4096

struct gridder {
    struct landovireph_table table;
    double *sums, *weights; /* by slot; the weights lie behind the sums */
};

struct options {
    const char *from_image, *from_sums, *to_image, *to_sums, *picture, *samples;
    int unchecked;
};

/* ---- the table */

/* The smallest table whose maximum leaves a tenth free. Not every size has a layout: the next one that has is taken. */
static void open_table(struct gridder *g, uint64_t cells)
{
    uint64_t n = cells + cells * 3 / 10, refused;
    while (landovireph_table_exists(n, RESERVE_EXPONENT, WORD_CAP) == LANDOVIREPH_REFUSED_LAYOUT)
        n++;
    refused = landovireph_table_open(&g->table, n, RESERVE_EXPONENT, SEED, WORD_CAP, memory(n, 8), memory(n, 1));
    if (refused != 0)
        give_up(1, "no table could be opened", landovireph_refusal_name(refused));
    g->sums = memory(2 * n, sizeof *g->sums);
    g->weights = g->sums + n;
}

static void close_table(struct gridder *g)
{
    free(g->table.words);
    free(g->table.flags);
    free(g->sums);
}

/* Ends the run unless some order of insertions makes the table that was handed over. */
static void check_table(struct gridder *g)
{
    uint8_t *marks = memory(g->table.n, 1), *order = memory(g->table.n, 8);
    uint64_t refused = landovireph_table_check(&g->table, marks, order);
    uint64_t slot = landovireph_answer_slot(g->table.answer);
    free(marks);
    free(order);
    if (refused == 0)
        return;
    fprintf(stderr, "gridder: the table that was handed over is refused: %s (%" PRIu64 ")\n", landovireph_refusal_name(refused),
            refused);
    if (refused == LANDOVIREPH_REFUSED_DISORDER)
        fprintf(stderr, "gridder: %" PRIu64 " of %" PRIu64 " members can be placed; slot %" PRIu64 " is the first that cannot\n",
                landovireph_answer_placed(g->table.answer), landovireph_state_count(g->table.state), slot);
    fprintf(stderr, "gridder: no sample was summed\n");
    exit(1);
}

/* ---- files that are handed over */

static void load_image(struct gridder *g, const char *path)
{
    struct bytes image = read_file(path, (size_t)landovireph_image_bytes(g->table.n, 64));
    uint64_t refused = landovireph_table_load(&g->table, image.at, image.length);
    free(image.at);
    if (refused == LANDOVIREPH_REFUSED_IMAGE)
        fprintf(stderr, "gridder: %s is no image: it is malformed at byte %" PRIu64 "\n", path,
                landovireph_answer_byte(g->table.answer));
    if (refused != 0)
        give_up(1, path, landovireph_refusal_name(refused));
}

static void write_image(struct gridder *g, const char *path)
{
    static const uint8_t label[] = { 'g', 'r', 'i', 'd', 'd', 'e', 'r' };
    size_t room = (size_t)landovireph_image_bytes(landovireph_state_count(g->table.state), sizeof label);
    uint8_t *image = memory(room, 1);
    uint64_t refused = landovireph_table_write(&g->table, label, sizeof label, image, room);
    if (refused != 0)
        give_up(1, "the table cannot be written", landovireph_refusal_name(refused));
    write_part(path, image, (size_t)landovireph_answer_image_bytes(g->table.answer));
    free(image);
}

static size_t sums_bytes(const struct gridder *g)
{
    return 2 * (size_t)g->table.n * sizeof *g->sums;
}

static void load_sums(struct gridder *g, const char *path)
{
    struct bytes sums = read_file(path, sums_bytes(g));
    if (sums.length != sums_bytes(g))
        give_up(2, path, "these are not the sums of this table");
    memcpy(g->sums, sums.at, sums.length);
    free(sums.at);
}

/* ---- samples */

static double get_double(const uint8_t *bytes)
{
    uint64_t bits = landovireph_get(bytes, 0);
    double value;
    memcpy(&value, &bits, sizeof value);
    return value;
}

/* A cell of the grid, a value, and a weight above 0. */
static int is_sample(const uint8_t *record)
{
    return is_in_grid(landovireph_get(record, 0)) && isfinite(get_double(record + 8)) && isfinite(get_double(record + 16)) &&
           get_double(record + 16) > 0.0;
}

/* Finds or enters the cells of a batch by one call, and adds each sample at its slot. */
static void grid_batch(struct gridder *g, const uint8_t *records, size_t count)
{
    static uint8_t identities[8 * BATCH], slots[8 * BATCH];
    uint64_t refused;
    size_t k;
    for (k = 0; k < count; k++)
        memcpy(identities + 8 * k, records + SAMPLE_BYTES * k, 8);
    refused = landovireph_table_place_all(&g->table, identities, slots, count);
    if (refused != 0)
        give_up(1, "a cell has no slot", landovireph_refusal_name(refused));
    for (k = 0; k < count; k++) {
        uint64_t slot = landovireph_get(slots, 8 * k);
        double weight = get_double(records + SAMPLE_BYTES * k + 16);
        g->sums[slot] += weight * get_double(records + SAMPLE_BYTES * k + 8);
        g->weights[slot] += weight;
    }
}

/* The samples of a batch are all right, or the run ends. */
static void test_batch(const uint8_t *records, size_t length, const char *path)
{
    size_t at;
    if (length % SAMPLE_BYTES != 0)
        give_up(2, path, "the file ends inside a sample");
    for (at = 0; at < length; at += SAMPLE_BYTES)
        if (!is_sample(records + at))
            give_up(2, path, "a record is no sample: no cell of the grid, or no value, or no weight");
}

static uint64_t grid_samples(struct gridder *g, const char *path)
{
    static uint8_t records[SAMPLE_BYTES * BATCH];
    FILE *file = fopen(path, "rb");
    uint64_t all = 0;
    size_t length;
    if (file == NULL)
        give_up(2, path, strerror(errno));
    while ((length = fread(records, 1, sizeof records, file)) != 0) {
        test_batch(records, length, path);
        grid_batch(g, records, length / SAMPLE_BYTES);
        all += length / SAMPLE_BYTES;
    }
    if (ferror(file))
        give_up(2, path, strerror(errno));
    fclose(file);
    return all;
}

/* ---- the picture */

/* The weighted mean of a cell's samples, 0 where it has none. */
static double mean_of(struct gridder *g, uint64_t identity)
{
    uint64_t slot;
    if (landovireph_table_search(&g->table, identity) != 0 || !landovireph_answer_found(g->table.answer))
        return 0.0;
    slot = landovireph_answer_slot(g->table.answer);
    return g->weights[slot] > 0.0 ? g->sums[slot] / g->weights[slot] : 0.0;
}

static unsigned grey_of(double value)
{
    double share = (value - BLACK) / (WHITE - BLACK);
    if (share < 0.0)
        return 0;
    return share > 1.0 ? 65535 : (unsigned)(share * 65535.0);
}

static void write_picture(struct gridder *g, const char *path)
{
    static uint8_t picture[32 + 2 * FIELD * FIELD];
    size_t at = (size_t)sprintf((char *)picture, "P5\n%d %d\n65535\n", FIELD, FIELD);
    uint32_t x, y;
    for (y = BORDER; y < BORDER + FIELD; y++)
        for (x = BORDER; x < BORDER + FIELD; x++) {
            unsigned grey = grey_of(mean_of(g, cell_identity(x, y)));
            picture[at++] = (uint8_t)(grey >> 8);
            picture[at++] = (uint8_t)(grey & 255);
        }
    write_part(path, picture, at);
}

/* ---- arguments */

static void usage(void)
{
    give_up(2, "usage", "gridder [--from IMAGE SUMS] [--unchecked] [--to IMAGE SUMS] [--picture FILE] SAMPLES");
}

static struct options read_options(int count, char **words)
{
    struct options options;
    int i = 1;
    memset(&options, 0, sizeof options);
    for (; i < count && strncmp(words[i], "--", 2) == 0; i++) {
        if (strcmp(words[i], "--unchecked") == 0) {
            options.unchecked = 1;
        } else if (strcmp(words[i], "--from") == 0 && i + 2 < count) {
            options.from_image = words[++i];
            options.from_sums = words[++i];
        } else if (strcmp(words[i], "--to") == 0 && i + 2 < count) {
            options.to_image = words[++i];
            options.to_sums = words[++i];
        } else if (strcmp(words[i], "--picture") == 0 && i + 1 < count) {
            options.picture = words[++i];
        } else {
            usage();
        }
    }
    if (i + 1 != count)
        usage();
    options.samples = words[i];
    return options;
}

int main(int count, char **words)
{
    struct options options = read_options(count, words);
    struct gridder g;
    uint64_t samples, before;
    open_table(&g, (uint64_t)GRID * GRID);
    if (options.from_image != NULL) {
        load_image(&g, options.from_image);
        if (!options.unchecked)
            check_table(&g);
        load_sums(&g, options.from_sums);
    }
    before = landovireph_state_count(g.table.state);
    samples = grid_samples(&g, options.samples);
    if (options.to_image != NULL) {
        write_image(&g, options.to_image);
        write_part(options.to_sums, g.sums, sums_bytes(&g));
    }
    if (options.picture != NULL)
        write_picture(&g, options.picture);
    printf("%" PRIu64 " samples; %" PRIu64 " cells entered, %" PRIu64 " in all, in a table of %" PRIu64 " slots\n", samples,
           landovireph_state_count(g.table.state) - before, landovireph_state_count(g.table.state), g.table.n);
    finish_printing();
    keep_parts();
    close_table(&g);
    return 0;
}
