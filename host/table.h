/* Tables from the heap, of any size that the machine's memory holds. */
#ifndef HOST_TABLE_H
#define HOST_TABLE_H

#include "landovireph_table.h"

/* No refusal has this number: the table has a layout, but is larger than the machine or the given bound holds. */
#define TABLE_TOO_LARGE 1000

/* The numbers that a table is opened with; the last three are an elastic table's alone. */
struct numbers {
    enum landovireph_state_kind kind;
    uint64_t n, seed, word_cap;
    uint32_t e;
    uint64_t c, search_cap, position_cap;
};

/* The most slots for which the machine's memory holds a table and all that is needed beside it. */
uint64_t table_most_slots(void);

/* A fresh table of at most most_slots: 0, a refusal from 1 to 6, or TABLE_TOO_LARGE. To be closed only after 0. */
uint64_t table_open(struct landovireph_table *table, const struct numbers *numbers, uint64_t most_slots);
void table_close(struct landovireph_table *table);

/* A slot's word and flag, as the caller wishes. */
void table_set(struct landovireph_table *table, uint64_t slot, uint64_t identity, uint8_t flag);

/* FNV-1a, 64 bits, over slot and identity of the occupied slots in rising order. */
uint64_t table_digest(const struct landovireph_table *table);

/* Memory, or the end of the program with a message and status 3. */
void *must_have(size_t bytes);
/* The same with what was in it. */
void *must_have_again(void *memory, size_t bytes);

#endif
