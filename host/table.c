#include "table.h"

#include <stdio.h>
#include <stdlib.h>
#include <unistd.h>

/* Bytes beside each slot, at most: two tables (9 each), marks and order of a check (9), a word for a list. */
#define BYTES_BESIDE_A_SLOT 40

void *must_have(size_t bytes)
{
    return must_have_again(NULL, bytes);
}

void *must_have_again(void *memory, size_t bytes)
{
    memory = realloc(memory, bytes != 0 ? bytes : 1);
    if (memory == NULL) {
        fprintf(stderr, "no memory for %zu bytes\n", bytes);
        exit(3);
    }
    return memory;
}

uint64_t table_most_slots(void)
{
    long pages = sysconf(_SC_PHYS_PAGES), page = sysconf(_SC_PAGESIZE);
    if (pages <= 0 || page <= 0)
        return 1 << 24;
    return (uint64_t)pages * (uint64_t)page / BYTES_BESIDE_A_SLOT;
}

static uint64_t open_lent(struct landovireph_table *table, const struct numbers *numbers)
{
    if (numbers->kind == LANDOVIREPH_KIND_ELASTIC)
        return landovireph_elastic_open(numbers->n, numbers->e, numbers->seed, numbers->c, numbers->word_cap, numbers->search_cap,
                                        numbers->position_cap, LANDOVIREPH_TABLE_BLOCKS(table), LANDOVIREPH_TABLE_ANSWER(table));
    return landovireph_funnel_open(numbers->n, numbers->e, numbers->seed, numbers->word_cap, LANDOVIREPH_TABLE_BLOCKS(table),
                                   LANDOVIREPH_TABLE_ANSWER(table));
}

/* Every n above 1 makes empty buffers STATE, which is the last test: what comes before it is told without any memory. */
uint64_t table_open(struct landovireph_table *table, const struct numbers *numbers, uint64_t most_slots)
{
    uint64_t refused;
    table->n = 0;
    table->words = NULL;
    table->flags = NULL;
    refused = open_lent(table, numbers);
    if (refused != LANDOVIREPH_REFUSED_STATE)
        return refused;
    if (numbers->n > most_slots)
        return TABLE_TOO_LARGE;
    table->n = numbers->n;
    table->words = must_have(8 * table->n);
    table->flags = must_have(table->n);
    refused = open_lent(table, numbers);
    if (refused != 0)
        table_close(table);
    return refused;
}

void table_close(struct landovireph_table *table)
{
    free(table->words);
    free(table->flags);
}

void table_set(struct landovireph_table *table, uint64_t slot, uint64_t identity, uint8_t flag)
{
    landovireph_put(table->words, 8 * slot, identity);
    table->flags[slot] = flag;
}

static uint64_t fnv(uint64_t hash, uint64_t word)
{
    int i;
    for (i = 0; i < 8; i++)
        hash = (hash ^ (word >> (8 * i) & 255)) * 0x100000001b3u;
    return hash;
}

uint64_t table_digest(const struct landovireph_table *table)
{
    uint64_t hash = 0xcbf29ce484222325u, slot;
    for (slot = 0; slot < table->n; slot++)
        if (table->flags[slot] != 0)
            hash = fnv(fnv(hash, slot), landovireph_get(table->words, 8 * slot));
    return hash;
}
