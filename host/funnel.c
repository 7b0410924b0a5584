/* The commands of replay on funnel tables: FL, SN, FRUN and FBULK. */
#include "runs.h"

#include <inttypes.h>
#include <stdio.h>
#include <string.h>

static void print_counts(const struct landovireph_table *table)
{
    uint64_t i;
    for (i = 0; i < landovireph_get(table->state, LANDOVIREPH_STATE_LEVELS); i++)
        printf(" %" PRIu64, landovireph_get(table->state, LANDOVIREPH_STATE_COUNTS + 8 * i));
}

/* A layout is what open writes into the state block; the word cap plays no part in it. */
bool answer_funnel_layout(struct given given)
{
    static const size_t shown[] = { LANDOVIREPH_STATE_MAXIMUM, LANDOVIREPH_STATE_LEVELS, LANDOVIREPH_STATE_BUCKET,
                                    LANDOVIREPH_STATE_PRIMARY_PROBES, LANDOVIREPH_STATE_FALLBACK_BUCKET,
                                    LANDOVIREPH_STATE_SPECIAL };
    struct numbers numbers = { .kind = LANDOVIREPH_KIND_FUNNEL, .word_cap = 1 };
    struct landovireph_table table;
    uint64_t i;
    if (!take_word(&given, &numbers.n) || !take_half_word(&given, &numbers.e) || given.count != 0)
        return false;
    if (!open_or_say(&table, &numbers))
        return true;
    for (i = 0; i < sizeof shown / sizeof shown[0]; i++)
        printf("%s%" PRIu64, i == 0 ? "" : " ", landovireph_get(table.state, shown[i]));
    print_counts(&table);
    table_close(&table);
    return true;
}

/* Whether the plan in the answer block is that of the table which is opened with its n. */
static bool same_plan(const uint8_t *answer, const struct landovireph_table *table)
{
    return memcmp(answer + LANDOVIREPH_SMALLEST_MAXIMUM, table->state + LANDOVIREPH_STATE_MAXIMUM,
                  LANDOVIREPH_SMALLEST_FIRST + 8 - LANDOVIREPH_SMALLEST_MAXIMUM) == 0;
}

/* The counts of buckets come with opening the table; where that is too large L stands in their place. */
static void print_smallest(const uint8_t *answer, uint32_t e)
{
    struct numbers numbers = { .kind = LANDOVIREPH_KIND_FUNNEL, .word_cap = 1, .e = e };
    struct landovireph_table table;
    size_t at;
    numbers.n = landovireph_get(answer, LANDOVIREPH_SMALLEST_N);
    printf("%" PRIu64, numbers.n);
    for (at = LANDOVIREPH_SMALLEST_MAXIMUM; at <= LANDOVIREPH_SMALLEST_SPECIAL; at += 8)
        printf(" %" PRIu64, landovireph_get(answer, at));
    if (numbers.n > bounds.slots) {
        printf(" L");
        return;
    }
    if (table_open(&table, &numbers, bounds.slots) != 0) {
        printf(" no table has this n");
        return;
    }
    print_counts(&table);
    if (!same_plan(answer, &table))
        printf(" DIFFERS");
    table_close(&table);
}

bool answer_smallest(struct given given)
{
    uint8_t answer[LANDOVIREPH_ANSWER_BYTES];
    uint64_t count, first, last, refused;
    uint32_t e;
    if (!take_word(&given, &count) || !take_half_word(&given, &e) || !take_word(&given, &first) || !take_word(&given, &last) ||
        given.count != 0)
        return false;
    refused = landovireph_funnel_smallest(count, e, first, last, answer, sizeof answer);
    if (refused != 0)
        printf("R %" PRIu64, refused);
    else
        print_smallest(answer, e);
    return true;
}

static void print_place(const struct landovireph_table *table)
{
    static const size_t shown[] = { LANDOVIREPH_ANSWER_LEVEL, LANDOVIREPH_ANSWER_BUCKET, LANDOVIREPH_ANSWER_WITHIN,
                                    LANDOVIREPH_ANSWER_SLOT };
    switch (landovireph_answer_kind(table->answer)) {
    case LANDOVIREPH_ORDINARY:
        printf(" O");
        print_said(table, shown, 4);
        return;
    case LANDOVIREPH_PRIMARY:
        printf(" P");
        print_said(table, shown + 2, 2);
        return;
    case LANDOVIREPH_FALLBACK:
        printf(" B");
        print_said(table, shown + 1, 3);
        return;
    default:
        printf(" no place");
    }
}

/* What a refused search or insertion carries. */
static void print_refused(const struct landovireph_table *table, uint64_t refused)
{
    printf("R %" PRIu64, refused);
    if (refused == LANDOVIREPH_REFUSED_RANGE)
        printf(" %" PRIu64, said(table, LANDOVIREPH_ANSWER_WORDS));
    if (refused == LANDOVIREPH_REFUSED_DUPLICATE || refused == LANDOVIREPH_REFUSED_EXHAUSTED || refused == LANDOVIREPH_REFUSED_FULL)
        printf(" %" PRIu64, said(table, LANDOVIREPH_ANSWER_PROBES));
    if (refused == LANDOVIREPH_REFUSED_DUPLICATE)
        print_place(table);
}

static void ask(struct landovireph_table *table, char letter, uint64_t identity)
{
    uint64_t refused = letter == 'i' ? landovireph_table_insert(table, identity) : landovireph_table_search(table, identity);
    if (refused != 0) {
        print_refused(table, refused);
        return;
    }
    if (letter == 's')
        letter = landovireph_answer_found(table->answer) ? 'H' : 'V';
    else
        letter = 'I';
    printf("%c %" PRIu64, letter, said(table, LANDOVIREPH_ANSWER_PROBES));
    print_place(table);
}

static const struct run funnel = { "isol", ask, landovireph_table_insert, { LANDOVIREPH_ANSWER_PROBES, 0 }, 1 };

bool answer_funnel_run(struct given given)
{
    struct numbers numbers;
    return take_funnel(&given, &numbers) && answer_run(&funnel, &numbers, given);
}

/* Identities that one placement of many is given. */
#define BATCH 4096

/* Places the identities from k on up to the last or to a whole batch, by one call; how many came out of it. */
static uint64_t place_batch(struct landovireph_table *table, struct bulk bulk, uint64_t k)
{
    static uint8_t identities[8 * BATCH], slots[8 * BATCH];
    uint64_t many = bulk.count - k + 1 < BATCH ? bulk.count - k + 1 : BATCH, i, refused;
    for (i = 0; i < many; i++)
        landovireph_put(identities, 8 * i, bulk_identity(bulk, k + i));
    refused = landovireph_table_place_all(table, identities, slots, many);
    /* The identity that was refused is passed over, as the single insertions pass it. */
    return refused == 0 ? many : landovireph_answer_placed(table->answer) + 1;
}

/* Whether the same identities, placed many at a time, leave the same table. */
static bool placing_agrees(const struct numbers *numbers, struct bulk bulk, const struct landovireph_table *table)
{
    struct landovireph_table second;
    uint64_t k = 1;
    bool agrees;
    if (table_open(&second, numbers, bounds.slots) != 0)
        return false;
    while (k <= bulk.count)
        k += place_batch(&second, bulk, k);
    agrees = same_table(&second, table);
    table_close(&second);
    return agrees;
}

bool answer_funnel_bulk(struct given given)
{
    struct numbers numbers;
    struct landovireph_table table;
    struct bulk bulk;
    if (!take_funnel(&given, &numbers) || !take_bulk(given, &bulk))
        return false;
    if (!open_or_say(&table, &numbers))
        return true;
    run_bulk(&funnel, bulk, &table);
    if (!placing_agrees(&numbers, bulk, &table))
        printf(" DIFFERS");
    table_close(&table);
    return true;
}
