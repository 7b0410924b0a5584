/*
 * tidy: what the worker did before it handed its table over. It takes the cells of the border out, which no picture shows.
 *
 *     tidy IMAGE SUMS TIDIED-IMAGE TIDIED-SUMS
 *
 * Every cell of the field stays where it is, with its sums. This is the mistake: a vacancy is left wherever a border cell was, and
 * a lookup of a cell that stands behind such a vacancy stops there.
 * Exit status: 0; 1 where the table was refused; 2 where an argument or a file is wrong. Both files are written, or none.
 */
#include "files.h"
#include "grid.h"

#include <inttypes.h>
#include <stdio.h>
#include <stdlib.h>

const char *const program = "tidy";

/* Of a table of the demonstration there are fewer. */
#define MOST_SLOTS (2 * (size_t)GRID * GRID)

struct handed {
    struct landovireph_table table;
    struct bytes image, sums; /* sums: 8 bytes to a slot, then as many weights */
};

/* The image has n at byte 3. */
static void load(struct handed *h)
{
    uint64_t n = h->image.length < 11 ? 0 : landovireph_get(h->image.at, 3), refused;
    if (h->sums.length % 16 != 0 || h->sums.length / 16 != n)
        give_up(2, "image and sums", "they are not of one table");
    refused = landovireph_table_open(&h->table, n, RESERVE_EXPONENT, SEED, WORD_CAP, memory(n, 8), memory(n, 1));
    if (refused != 0)
        give_up(1, "the table cannot be opened", landovireph_refusal_name(refused));
    refused = landovireph_table_load(&h->table, h->image.at, h->image.length);
    if (refused != 0)
        give_up(1, "the image cannot be loaded", landovireph_refusal_name(refused));
}

/* A slot vacant again, its sum and weight 0. */
static void clear_slot(struct handed *h, uint64_t slot)
{
    landovireph_put(h->table.words, 8 * slot, 0);
    h->table.flags[slot] = 0;
    landovireph_put(h->sums.at, 8 * slot, 0);
    landovireph_put(h->sums.at, 8 * (h->table.n + slot), 0);
}

static uint64_t take_border_out(struct handed *h)
{
    uint64_t slot, taken = 0;
    for (slot = 0; slot < h->table.n; slot++)
        if (h->table.flags[slot] != 0 && !is_in_field(landovireph_get(h->table.words, 8 * slot))) {
            clear_slot(h, slot);
            taken++;
        }
    landovireph_put(h->table.state, LANDOVIREPH_STATE_COUNT, landovireph_state_count(h->table.state) - taken);
    return taken;
}

static void write_image(struct handed *h, const char *path)
{
    static const uint8_t label[] = { 't', 'i', 'd', 'i', 'e', 'd' };
    uint64_t refused = landovireph_table_write(&h->table, label, sizeof label, h->image.at, h->image.length);
    if (refused != 0)
        give_up(1, "the image cannot be written", landovireph_refusal_name(refused));
    write_part(path, h->image.at, (size_t)landovireph_answer_image_bytes(h->table.answer));
}

int main(int count, char **words)
{
    struct handed handed;
    uint64_t taken;
    if (count != 5)
        give_up(2, "usage", "tidy IMAGE SUMS TIDIED-IMAGE TIDIED-SUMS");
    handed.image = read_file(words[1], (size_t)landovireph_image_bytes(MOST_SLOTS, 64));
    handed.sums = read_file(words[2], 16 * MOST_SLOTS);
    load(&handed);
    taken = take_border_out(&handed);
    write_image(&handed, words[3]);
    write_part(words[4], handed.sums.at, handed.sums.length);
    printf("%" PRIu64 " cells of the border taken out\n", taken);
    finish_printing();
    keep_parts();
    free(handed.image.at);
    free(handed.sums.at);
    free(handed.table.words);
    free(handed.table.flags);
    return 0;
}
