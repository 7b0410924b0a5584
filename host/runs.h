/* Runs of operations and bulk runs, on tables of both kinds. */
#ifndef HOST_RUNS_H
#define HOST_RUNS_H

#include "replay.h"

/* The identities of a bulk run: mix64(start + k * GOLDEN), k from 1 to count. */
struct bulk {
    uint64_t start, count;
};

uint64_t bulk_identity(struct bulk bulk, uint64_t k);

/* What a run on one kind of table has of its own. */
struct run {
    const char *letters;                                              /* the operations that it takes */
    void (*ask)(struct landovireph_table *table, char letter, uint64_t identity); /* prints the answer to i, q or s */
    uint64_t (*insert)(struct landovireph_table *table, uint64_t identity);
    size_t summed[2]; /* the words of the answer block whose sums a bulk run tells: */
    size_t sums;      /* so many */
};

/* Answers a run: operations behind the numbers, each with its answer, then the counts and the digest of the table. */
bool answer_run(const struct run *run, const struct numbers *numbers, struct given operations);

/* Inserts all of a bulk run and prints the table's count, the refusals, the sums, and the end of a run. */
void run_bulk(const struct run *run, struct bulk bulk, struct landovireph_table *table);

/* Reads start and count, the last two fields of a bulk run. */
bool take_bulk(struct given given, struct bulk *bulk);

#endif
