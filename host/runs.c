#include "runs.h"

#include "mix64.h"

#include <inttypes.h>
#include <stdio.h>
#include <string.h>

/* The levels whose counts an elastic state block has. */
#define LEVELS 32

/* Results from 0 to 26. */
#define RESULTS 27

uint64_t bulk_identity(struct bulk bulk, uint64_t k)
{
    return mix64(bulk.start + k * GOLDEN);
}

bool take_bulk(struct given given, struct bulk *bulk)
{
    return take_word(&given, &bulk->start) && take_word(&given, &bulk->count) && given.count == 0;
}

/* An operation: a letter and what it is given. */
struct operation {
    char letter;
    uint64_t at, value;
};

/* iID, qID, sID, lCOUNT, oSLOT=ID or cLEVEL=COUNT, as far as the run takes them. */
static bool read_operation(const struct run *run, struct field field, uint64_t n, struct operation *operation)
{
    struct field rest = { field.text + 1, field.length - 1 };
    operation->letter = field.text[0];
    if (memchr(run->letters, operation->letter, strlen(run->letters)) == NULL)
        return false;
    if (operation->letter != 'o' && operation->letter != 'c')
        return field_word(rest, &operation->value);
    return field_pair(rest, &operation->at, &operation->value) && operation->at < (operation->letter == 'o' ? n : LEVELS);
}

static void run_operation(const struct run *run, struct landovireph_table *table, struct operation operation)
{
    switch (operation.letter) {
    case 'o':
        table_set(table, operation.at, operation.value, 1);
        return;
    case 'c':
        landovireph_put(table->state, LANDOVIREPH_ELASTIC_COUNTS + 8 * operation.at, operation.value);
        return;
    case 'l':
        landovireph_put(table->state, LANDOVIREPH_STATE_COUNT, operation.value);
        return;
    default:
        run->ask(table, operation.letter, operation.value);
        printf("; ");
    }
}

/* The level counts of an elastic table joined by commas, and the digest. */
static void print_end(const struct landovireph_table *table)
{
    uint64_t levels = 0, i;
    if (landovireph_state_kind(table->state) == LANDOVIREPH_KIND_ELASTIC)
        levels = landovireph_get(table->state, LANDOVIREPH_ELASTIC_LEVELS);
    for (i = 0; i < levels && i < LEVELS; i++)
        printf("%c%" PRIu64, i == 0 ? ' ' : ',', landovireph_get(table->state, LANDOVIREPH_ELASTIC_COUNTS + 8 * i));
    printf(" %016" PRIx64, table_digest(table));
}

bool answer_run(const struct run *run, const struct numbers *numbers, struct given operations)
{
    struct operation operation;
    struct landovireph_table table;
    size_t i;
    for (i = 0; i < operations.count; i++)
        if (!read_operation(run, operations.fields[i], numbers->n, &operation))
            return false;
    if (!open_or_say(&table, numbers))
        return true;
    for (i = 0; i < operations.count; i++)
        if (read_operation(run, operations.fields[i], numbers->n, &operation))
            run_operation(run, &table, operation);
    printf("END %" PRIu64, landovireph_state_count(table.state));
    print_end(&table);
    table_close(&table);
    return true;
}

/* How often each refusal came up, as number:times joined by commas, or -. */
static void print_tally(const uint64_t *tally)
{
    const char *before = " ";
    int number;
    for (number = 1; number < RESULTS; number++)
        if (tally[number] != 0) {
            printf("%s%d:%" PRIu64, before, number, tally[number]);
            before = ",";
        }
    if (*before == ' ')
        printf(" -");
}

void run_bulk(const struct run *run, struct bulk bulk, struct landovireph_table *table)
{
    uint64_t k, tally[RESULTS] = { 0 }, sums[2] = { 0 };
    size_t i;
    for (k = 1; k <= bulk.count; k++) {
        tally[run->insert(table, bulk_identity(bulk, k)) % RESULTS]++;
        for (i = 0; i < run->sums; i++)
            sums[i] += said(table, run->summed[i]);
    }
    printf("%" PRIu64, landovireph_state_count(table->state));
    print_tally(tally);
    for (i = 0; i < run->sums; i++)
        printf(" %" PRIu64, sums[i]);
    print_end(table);
}
