/*
 * range: RANGE of a funnel table, which no table that fits into memory meets: fewer than n of 2^64 words are rejected. So the buffers
 * are mapped without memory behind them, and only the slots of one path are ever touched.
 *
 *     range N E SEED CAP IDENTITY
 *
 * The state block is the model's (model.h), since an opening would write every byte; the calls test it. Then the identity is searched, and
 * each vacancy that the search meets is given to another identity, until the search is refused. Prints a line for each place on the path,
 * as O LEVEL BUCKET WITHIN or P WITHIN or B BUCKET WITHIN, and at the end what search, insertion and place_all answer; each is held
 * against the model's answer.
 * Exit status: 0; 1 where a call and the model differ; 2 for a wrong argument; 77 where there is no room for such buffers.
 */
#include "landovireph_table.h"
#include "model.h"

#include <inttypes.h>
#include <stdio.h>
#include <stdlib.h>
#include <string.h>
#include <sys/mman.h>

static struct landovireph_table table;

static uint8_t *mapped(uint64_t bytes)
{
    void *at = mmap(NULL, bytes, PROT_READ | PROT_WRITE, MAP_PRIVATE | MAP_ANONYMOUS | MAP_NORESERVE, -1, 0);
    if (at == MAP_FAILED) {
        perror("range: mmap");
        exit(77);
    }
    return at;
}

static void must(int holds, const char *what)
{
    if (holds)
        return;
    fprintf(stderr, "range: %s\n", what);
    exit(1);
}

/* The table with another answer block and a state block of its own, for the model. */
static struct lent copy(uint8_t *state, uint8_t *answer)
{
    struct lent lent = { { state, sizeof table.state }, { table.words, 8 * table.n }, { table.flags, table.n }, { answer, sizeof table.answer } };
    memcpy(state, table.state, sizeof table.state);
    memset(answer, 0xA5, sizeof table.answer);
    return lent;
}

/* A search, as the model answers it. */
static uint64_t search(uint64_t identity)
{
    uint8_t state[LANDOVIREPH_STATE_BYTES], answer[LANDOVIREPH_ANSWER_BYTES];
    uint64_t wanted = model_search(copy(state, answer), identity), result = landovireph_table_search(&table, identity);
    must(result == wanted && memcmp(answer, table.answer, sizeof answer) == 0, "a search is not answered as by the model");
    return result;
}

static void print_place(void)
{
    uint64_t kind = landovireph_answer_kind(table.answer), within = landovireph_answer_within(table.answer);
    uint64_t bucket = landovireph_answer_bucket(table.answer);
    if (kind == LANDOVIREPH_ORDINARY)
        printf("O %" PRIu64 " %" PRIu64 " %" PRIu64 "\n", landovireph_answer_level(table.answer), bucket, within);
    else if (kind == LANDOVIREPH_PRIMARY)
        printf("P %" PRIu64 "\n", within);
    else
        printf("B %" PRIu64 " %" PRIu64 "\n", bucket, within);
}

/* Gives every vacancy on the identity's path to another one; what the search answers at the end. */
static uint64_t fill_path(uint64_t identity)
{
    uint64_t result, steps = 0;
    while ((result = search(identity)) == 0 && !landovireph_answer_found(table.answer)) {
        uint64_t slot = landovireph_answer_slot(table.answer);
        print_place();
        must(table.flags[slot] == 0 && ++steps < 1000, "the search does not stop at a vacancy");
        landovireph_put(table.words, 8 * slot, ~identity);
        table.flags[slot] = 1;
    }
    return result;
}

static void print_refused(const char *call, uint64_t result)
{
    printf("%s %s %" PRIu64 " words", call, landovireph_refusal_name(result), landovireph_answer_words(table.answer));
}

static void try_insert(uint64_t identity)
{
    uint8_t state[LANDOVIREPH_STATE_BYTES], answer[LANDOVIREPH_ANSWER_BYTES], before[LANDOVIREPH_STATE_BYTES];
    uint64_t wanted = model_insert(copy(state, answer), identity), result;
    memcpy(before, table.state, sizeof before);
    result = landovireph_table_insert(&table, identity);
    must(result == wanted && memcmp(answer, table.answer, sizeof answer) == 0, "an insertion is not answered as by the model");
    must(memcmp(before, table.state, sizeof before) == 0, "a refused insertion changed the state block");
    print_refused("insert", result);
    printf("\n");
}

/* The identity between two that have their place: the first of them gets it, nothing behind the refused one is touched. */
static void try_place_all(uint64_t identity)
{
    uint8_t identities[24], slots[24];
    uint64_t result, slot, count = landovireph_state_count(table.state);
    landovireph_put(identities, 0, identity + 1);
    landovireph_put(identities, 8, identity);
    landovireph_put(identities, 16, identity + 2);
    memset(slots, 0xA5, sizeof slots);
    must(search(identity + 1) == 0, "the identity before it is refused too");
    slot = landovireph_answer_slot(table.answer);
    result = landovireph_table_place_all(&table, identities, slots, 3);
    print_refused("place_all", result);
    printf(" %" PRIu64 " placed\n", landovireph_answer_placed(table.answer));
    must(landovireph_get(slots, 0) == slot && landovireph_get(table.words, 8 * slot) == identity + 1 && table.flags[slot] == 1,
         "the one before it is not in its slot");
    must(landovireph_get(slots, 8) == 0xA5A5A5A5A5A5A5A5u && landovireph_get(slots, 16) == 0xA5A5A5A5A5A5A5A5u,
         "slots behind the placed were written");
    must(landovireph_state_count(table.state) == count + 1, "the count is not one member on");
}

static uint64_t argument(const char *text)
{
    char *end;
    uint64_t value = strtoull(text, &end, 10);
    if (*text < '0' || *text > '9' || *end != 0) {
        fprintf(stderr, "usage: range N E SEED CAP IDENTITY\n");
        exit(2);
    }
    return value;
}

int main(int count, char **words)
{
    uint64_t identity, result;
    if (count != 6)
        argument("");
    table.n = argument(words[1]);
    identity = argument(words[5]);
    result = model_state(table.n, (uint32_t)argument(words[2]), argument(words[3]), argument(words[4]), table.state);
    if (result != 0) {
        fprintf(stderr, "range: no table: %s\n", landovireph_refusal_name(result));
        return 2;
    }
    table.words = mapped(8 * table.n);
    table.flags = mapped(table.n);
    result = fill_path(identity);
    print_refused("search", result);
    printf("\n");
    try_insert(identity);
    try_place_all(identity);
    return fflush(stdout) != 0 || ferror(stdout) ? 2 : 0;
}
