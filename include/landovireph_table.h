/*
 * landovireph_table.h: the calls of landovireph.h with fewer arguments.
 *
 * A struct landovireph_table is what every call is lent: both blocks, and where words and flags are. It owns nothing (you give words and
 * flags, and free them) and hides nothing: every call of landovireph.h may be made on its parts. Each function here is one call on a
 * whole table; landovireph.h says what it answers, writes and refuses. After it, table.answer has what the call had to say.
 *
 *     struct landovireph_table table;
 *     uint64_t n = 4104;
 *     uint64_t refused = landovireph_table_open(&table, n, 3, 2024, 8, malloc(8 * n), malloc(n));
 *     if (refused == 0)
 *         refused = landovireph_table_insert(&table, identity);
 *     if (refused == 0 || refused == LANDOVIREPH_REFUSED_DUPLICATE)
 *         sums[landovireph_answer_slot(table.answer)] += value;
 *
 * Searches of one table at the same time: give each thread a copy of the struct. The copies share words and flags, and each has its
 * own answer block.
 */
#ifndef LANDOVIREPH_TABLE_H
#define LANDOVIREPH_TABLE_H

#include "landovireph.h"

struct landovireph_table {
    uint64_t n;
    uint8_t *words; /* 8n bytes */
    uint8_t *flags; /* n bytes */
    uint8_t state[LANDOVIREPH_STATE_BYTES];
    uint8_t answer[LANDOVIREPH_ANSWER_BYTES];
};

/* What the calls are lent of a table, in the order of their arguments. */
#define LANDOVIREPH_TABLE_BLOCKS(table) \
    (table)->state, LANDOVIREPH_STATE_BYTES, (table)->words, 8 * (table)->n, (table)->flags, (table)->n
#define LANDOVIREPH_TABLE_ANSWER(table) (table)->answer, LANDOVIREPH_ANSWER_BYTES

/* ---- funnel tables */

/* A fresh table over words and flags. */
static inline uint64_t landovireph_table_open(struct landovireph_table *table, uint64_t n, uint32_t e, uint64_t seed, uint64_t word_cap,
                                              uint8_t *words, uint8_t *flags)
{
    table->n = n;
    table->words = words;
    table->flags = flags;
    return landovireph_funnel_open(n, e, seed, word_cap, LANDOVIREPH_TABLE_BLOCKS(table), LANDOVIREPH_TABLE_ANSWER(table));
}

/* Whether n and e have a table: 0, or a refusal from 1 to 6. It needs no memory, since STATE is the last of the tests. */
static inline uint64_t landovireph_table_exists(uint64_t n, uint32_t e, uint64_t word_cap)
{
    uint8_t state[LANDOVIREPH_STATE_BYTES], answer[LANDOVIREPH_ANSWER_BYTES];
    uint64_t refused = landovireph_funnel_open(n, e, 0, word_cap, state, LANDOVIREPH_STATE_BYTES, NULL, 0, NULL, 0, answer,
                                               LANDOVIREPH_ANSWER_BYTES);
    return refused == LANDOVIREPH_REFUSED_STATE ? 0 : refused;
}

/* 0 also for a vacancy: ask landovireph_answer_found(table->answer). */
static inline uint64_t landovireph_table_search(struct landovireph_table *table, uint64_t identity)
{
    return landovireph_funnel_search(LANDOVIREPH_TABLE_BLOCKS(table), identity, LANDOVIREPH_TABLE_ANSWER(table));
}

static inline uint64_t landovireph_table_insert(struct landovireph_table *table, uint64_t identity)
{
    return landovireph_funnel_insert(LANDOVIREPH_TABLE_BLOCKS(table), identity, LANDOVIREPH_TABLE_ANSWER(table));
}

/* Identities and slots are `many` words each, lent as bytes. */
static inline uint64_t landovireph_table_place_all(struct landovireph_table *table, const uint8_t *identities, uint8_t *slots, size_t many)
{
    return landovireph_funnel_place_all(LANDOVIREPH_TABLE_BLOCKS(table), identities, 8 * many, slots, 8 * many,
                                        LANDOVIREPH_TABLE_ANSWER(table));
}

/* marks has n bytes, order 8n. */
static inline uint64_t landovireph_table_check(struct landovireph_table *table, uint8_t *marks, uint8_t *order)
{
    return landovireph_funnel_check(LANDOVIREPH_TABLE_BLOCKS(table), marks, table->n, order, 8 * table->n,
                                    LANDOVIREPH_TABLE_ANSWER(table));
}

static inline uint64_t landovireph_table_load(struct landovireph_table *table, const uint8_t *image, size_t image_bytes)
{
    return landovireph_funnel_load(LANDOVIREPH_TABLE_BLOCKS(table), image, image_bytes, LANDOVIREPH_TABLE_ANSWER(table));
}

static inline uint64_t landovireph_table_write(struct landovireph_table *table, const uint8_t *label, size_t label_bytes, uint8_t *image,
                                               size_t image_bytes)
{
    return landovireph_funnel_write(LANDOVIREPH_TABLE_BLOCKS(table), label, label_bytes, image, image_bytes,
                                    LANDOVIREPH_TABLE_ANSWER(table));
}

/* ---- elastic tables */

/* A fresh table over words and flags. */
static inline uint64_t landovireph_table_elastic_open(struct landovireph_table *table, uint64_t n, uint32_t e, uint64_t seed, uint64_t c,
                                                      uint64_t word_cap, uint64_t search_cap, uint64_t position_cap,
                                                      uint8_t *words, uint8_t *flags)
{
    table->n = n;
    table->words = words;
    table->flags = flags;
    return landovireph_elastic_open(n, e, seed, c, word_cap, search_cap, position_cap, LANDOVIREPH_TABLE_BLOCKS(table),
                                    LANDOVIREPH_TABLE_ANSWER(table));
}

static inline uint64_t landovireph_table_elastic_insert(struct landovireph_table *table, uint64_t identity)
{
    return landovireph_elastic_insert(LANDOVIREPH_TABLE_BLOCKS(table), identity, LANDOVIREPH_TABLE_ANSWER(table));
}

static inline uint64_t landovireph_table_elastic_query(struct landovireph_table *table, uint64_t identity)
{
    return landovireph_elastic_query(LANDOVIREPH_TABLE_BLOCKS(table), identity, LANDOVIREPH_TABLE_ANSWER(table));
}

#endif
