/* The commands of replay on elastic tables: ERUN and EBULK. */
#include "runs.h"

#include <inttypes.h>
#include <stdio.h>

static void print_refused(const struct landovireph_table *table, uint64_t refused)
{
    printf("R %" PRIu64, refused);
    if (refused == LANDOVIREPH_REFUSED_RANGE)
        printf(" %" PRIu64, said(table, LANDOVIREPH_ANSWER_WORDS));
    if (refused == LANDOVIREPH_REFUSED_DUPLICATE)
        printf(" %" PRIu64, said(table, LANDOVIREPH_ANSWER_SLOT));
}

static void print_insertion(const struct landovireph_table *table)
{
    static const size_t shown[] = { LANDOVIREPH_ELASTIC_CASE,      LANDOVIREPH_ELASTIC_BATCH,  LANDOVIREPH_ELASTIC_FREE,
                                    LANDOVIREPH_ELASTIC_FREE_NEXT, LANDOVIREPH_ELASTIC_BUDGET, LANDOVIREPH_ANSWER_LEVEL,
                                    LANDOVIREPH_ANSWER_WITHIN,     LANDOVIREPH_ANSWER_SLOT,    LANDOVIREPH_ELASTIC_PAPER_PROBE,
                                    LANDOVIREPH_ANSWER_POSITION };
    printf("I");
    print_said(table, shown, sizeof shown / sizeof shown[0]);
}

static void print_found(const struct landovireph_table *table)
{
    static const size_t shown[] = { LANDOVIREPH_ANSWER_POSITION, LANDOVIREPH_ANSWER_SLOT, LANDOVIREPH_ANSWER_MAPPED,
                                    LANDOVIREPH_ANSWER_GAP, LANDOVIREPH_ANSWER_WORDS };
    printf("Q");
    print_said(table, shown, sizeof shown / sizeof shown[0]);
}

static void ask(struct landovireph_table *table, char letter, uint64_t identity)
{
    uint64_t refused = letter == 'i' ? landovireph_table_elastic_insert(table, identity) : landovireph_table_elastic_query(table, identity);
    if (refused != 0)
        print_refused(table, refused);
    else if (letter == 'i')
        print_insertion(table);
    else
        print_found(table);
}

/* A refused insertion has 0 at both of the summed words. */
static const struct run elastic = {
    "iqocl", ask, landovireph_table_elastic_insert, { LANDOVIREPH_ELASTIC_PAPER_PROBE, LANDOVIREPH_ANSWER_POSITION }, 2
};

bool answer_elastic_run(struct given given)
{
    struct numbers numbers;
    return take_elastic(&given, &numbers) && answer_run(&elastic, &numbers, given);
}

bool answer_elastic_bulk(struct given given)
{
    struct numbers numbers;
    struct landovireph_table table;
    struct bulk bulk;
    if (!take_elastic(&given, &numbers) || !take_bulk(given, &bulk))
        return false;
    if (open_or_say(&table, &numbers)) {
        run_bulk(&elastic, bulk, &table);
        table_close(&table);
    }
    return true;
}
