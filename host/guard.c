/*
 * guard: every buffer against a guard page, and whatever bytes come.
 *
 *     guard [CALLS [SEED]]      a million calls and seed 1 if none are given
 *
 * Each call's blocks and buffers are lent so that the byte behind the last one, or before the first one, cannot be touched; the
 * two kinds alternate. The tables are honest ones at first; then blocks get other lengths and other bytes, states are made up,
 * members moved, doubled and taken out, images damaged, buffers filled with noise; an empty buffer is a null pointer now and then.
 * After each call the program tests what may have changed and what must not, and what the answer block holds
 * (include/landovireph.h); and after each call on a funnel table, that its answer and every byte of what it was lent are those of the
 * model (model.h). It ends with the first call that did otherwise, or with how often each call answered each number.
 * Exit status: 0, or 1 with a message, or 2 for a wrong argument or where writing fails; the same CALLS and SEED make the same calls.
 */
#include "landovireph.h"
#include "mix64.h"
#include "model.h"

#include <inttypes.h>
#include <signal.h>
#include <stdbool.h>
#include <stdio.h>
#include <stdlib.h>
#include <string.h>
#include <sys/mman.h>
#include <unistd.h>

#define NUMBERS 28         /* results from 0 to 27 */
#define ROOM (1u << 16)    /* bytes that an arena can lend; whole pages */
#define POOL 48            /* tables of each kind */
#define MOST_SLOTS 700     /* of one of them */
#define MOST_IDENTITIES 40 /* of one place_all */

enum call { OPEN, SEARCH, INSERT, PLACE_ALL, CHECK, LOAD, WRITE, SMALLEST, ELASTIC_OPEN, ELASTIC_INSERT, ELASTIC_QUERY, CALLS };

static const char *const names[CALLS] = { "funnel_open",     "funnel_search", "funnel_insert",  "funnel_place_all",
                                          "funnel_check",    "funnel_load",   "funnel_write",   "funnel_smallest",
                                          "elastic_open",    "elastic_insert", "elastic_query" };

static uint64_t tally[CALLS][NUMBERS];
static uint64_t turn, seed_given;
static enum call current;

/* ---- how it ends early */

static void fail(const char *what)
{
    fprintf(stderr, "guard: call %" PRIu64 " of seed %" PRIu64 ", %s: %s\n", turn, seed_given, names[current], what);
    exit(1);
}

static void must(bool holds, const char *what)
{
    if (!holds)
        fail(what);
}

/* A byte outside a buffer was touched. Only what a signal handler may is called. */
static void touched(int number)
{
    static const char said[] = "guard: a byte outside a lent buffer was touched, or an address that is none; in the call landovireph_";
    ssize_t written = write(STDERR_FILENO, said, sizeof said - 1);
    written += write(STDERR_FILENO, names[current], strlen(names[current]));
    written += write(STDERR_FILENO, "\n", 1);
    (void)number;
    _exit(written < 0 ? 2 : 1);
}

/* ---- random numbers: splitmix64 */

static uint64_t random_state;

static uint64_t draw(void)
{
    return mix64(random_state += GOLDEN);
}

static uint64_t below(uint64_t bound)
{
    return draw() % bound;
}

static bool one_in(uint64_t times)
{
    return below(times) == 0;
}

static void noise(uint8_t *bytes, size_t length)
{
    size_t i;
    for (i = 0; i < length; i++)
        bytes[i] = (uint8_t)draw();
}

/* ---- arenas: memory between two pages that cannot be touched */

struct arena {
    uint8_t *base; /* ROOM bytes, a guard page on each side */
    uint8_t *at;   /* what is lent now */
    size_t length;
    uint8_t before[ROOM]; /* what it held when it was lent */
};

enum { STATE, WORDS, FLAGS, ANSWER, IDENTITIES, SLOTS, MARKS, ORDER, IMAGE, LABEL, ARENAS };

static struct arena arenas[ARENAS];

static void make_arena(struct arena *arena)
{
    size_t page = (size_t)sysconf(_SC_PAGESIZE);
    uint8_t *all = mmap(NULL, ROOM + 2 * page, PROT_NONE, MAP_PRIVATE | MAP_ANONYMOUS, -1, 0);
    if (all == MAP_FAILED || mprotect(all + page, ROOM, PROT_READ | PROT_WRITE) != 0) {
        perror("guard: mmap");
        exit(2);
    }
    arena->base = all + page;
}

/* Lends bytes at the arena's upper or lower end, in turn. */
static void lend(int which, const uint8_t *bytes, size_t length)
{
    struct arena *arena = &arenas[which];
    bool upper = (turn + (uint64_t)which) % 2 == 0;
    must(length <= ROOM, "this program's arena is too small");
    arena->at = arena->base + (upper ? ROOM - length : 0);
    arena->length = length;
    memcpy(arena->at, bytes, length);
    memcpy(arena->before, bytes, length);
}

/* Gives what is lent another length: bytes are cut, or noise is added. */
static void resize(int which, size_t length)
{
    static uint8_t bytes[ROOM];
    size_t kept = arenas[which].length < length ? arenas[which].length : length;
    memcpy(bytes, arenas[which].at, kept);
    noise(bytes + kept, length - kept);
    lend(which, bytes, length);
}

/* What is lent was changed on purpose: that is how it was before the call. */
static void settle(int which)
{
    memcpy(arenas[which].before, arenas[which].at, arenas[which].length);
}

static bool same(int which)
{
    return memcmp(arenas[which].before, arenas[which].at, arenas[which].length) == 0;
}

static uint64_t word_now(int which, size_t k)
{
    return landovireph_get(arenas[which].at, 8 * k);
}

static uint64_t word_before(int which, size_t k)
{
    return landovireph_get(arenas[which].before, 8 * k);
}

/* ---- the tables that the calls start from */

struct table {
    bool elastic;
    uint64_t n, seed, cap;
    uint32_t e;
    uint64_t c, search_cap, position_cap; /* elastic */
    uint8_t state[LANDOVIREPH_STATE_BYTES], words[8 * MOST_SLOTS], flags[MOST_SLOTS];
};

static struct table pool[POOL], elastic_pool[POOL];
static struct table *table; /* the one of this call */
static bool damaged;        /* whether what is lent differs from it */

static uint64_t member(void)
{
    return one_in(4) ? draw() : below(1000);
}

static uint64_t reopen(struct table *t)
{
    uint8_t answer[LANDOVIREPH_ANSWER_BYTES];
    if (t->elastic)
        return landovireph_elastic_open(t->n, t->e, t->seed, t->c, t->cap, t->search_cap, t->position_cap, t->state, sizeof t->state,
                                        t->words, 8 * t->n, t->flags, t->n, answer, sizeof answer);
    return landovireph_funnel_open(t->n, t->e, t->seed, t->cap, t->state, sizeof t->state, t->words, 8 * t->n, t->flags, t->n,
                                   answer, sizeof answer);
}

static void fill(struct table *t, uint64_t members)
{
    uint8_t answer[LANDOVIREPH_ANSWER_BYTES];
    for (; members != 0; members--) {
        if (t->elastic)
            landovireph_elastic_insert(t->state, sizeof t->state, t->words, 8 * t->n, t->flags, t->n, member(), answer, sizeof answer);
        else
            landovireph_funnel_insert(t->state, sizeof t->state, t->words, 8 * t->n, t->flags, t->n, member(), answer, sizeof answer);
    }
}

/* Numbers that often make a table. */
static void choose(struct table *t, bool elastic)
{
    t->elastic = elastic;
    t->n = elastic ? 2 + below(200) : 100 + below(MOST_SLOTS - 100 + 1);
    t->e = elastic ? 1 + (uint32_t)below(6) : 3 + (uint32_t)below(2);
    t->seed = one_in(2) ? below(10) : draw();
    t->cap = one_in(3) ? 1 : 1 + below(elastic ? 8 : 256);
    t->c = 1 + below(8);
    t->search_cap = one_in(4) ? 1 + below(20) : 8192;
    t->position_cap = 1 + below(one_in(4) ? 100 : 100000);
}

/* A table whose first levels alone have more than one bucket, and whose members all take the first of them: they fill one path up to
 * and into the special part, which random members hardly ever reach. */
static void fill_one_path(struct table *t)
{
    uint8_t answer[LANDOVIREPH_ANSWER_BYTES];
    uint64_t tries, members = 100 + below(45);
    t->n = 168;
    t->e = 3;
    if (reopen(t) != 0)
        fail("a table of 168 slots cannot be opened");
    for (tries = 0; tries < 5000 && landovireph_state_count(t->state) < members; tries++) {
        uint64_t identity = member();
        if (landovireph_funnel_search(t->state, sizeof t->state, t->words, 8 * t->n, t->flags, t->n, identity, answer, sizeof answer) != 0 ||
            (landovireph_answer_kind(answer) == LANDOVIREPH_ORDINARY && landovireph_answer_bucket(answer) != 0))
            continue;
        landovireph_funnel_insert(t->state, sizeof t->state, t->words, 8 * t->n, t->flags, t->n, identity, answer, sizeof answer);
    }
}

/* Tables of sizes that have a layout: empty ones, some that are half full, some that are full; of the funnel's every other one is of
 * one path. */
static void make_pool(struct table *tables, bool elastic)
{
    int made = 0;
    while (made < POOL) {
        choose(&tables[made], elastic);
        if (reopen(&tables[made]) != 0)
            continue;
        if (!elastic && made % 2 == 1)
            fill_one_path(&tables[made]);
        else
            fill(&tables[made], (uint64_t)(made / 2 % 3) * tables[made].n);
        made++;
    }
}

/* An identity to ask for: any, or one that is in the table, or the one whose first word in an elastic table is 0, which a draw
 * rejects unless the length is a power of two. */
static uint64_t asked(void)
{
    if (one_in(16))
        return 0 - table->seed - GOLDEN;
    if (one_in(2))
        return landovireph_get(table->words, 8 * below(table->n));
    return member();
}

/* ---- what is done to the blocks and buffers before a call */

/* The same length in seven of eight times, else one near it, or any. */
static size_t about(size_t length)
{
    if (!one_in(8))
        return length;
    switch (below(4)) {
    case 0:
        return 0;
    case 1:
        return length - (length != 0);
    case 2:
        return length + 1 + below(8);
    default:
        return below(ROOM / 4);
    }
}

/* Members of an elastic table counted in another of its first levels; the sum stays. */
static void shift_levels(void)
{
    size_t from = LANDOVIREPH_ELASTIC_COUNTS + 8 * below(3), to = LANDOVIREPH_ELASTIC_COUNTS + 8 * below(3);
    uint64_t many;
    if (!table->elastic || arenas[STATE].length != LANDOVIREPH_STATE_BYTES)
        return;
    many = below(landovireph_get(arenas[STATE].at, from) + 1);
    landovireph_put(arenas[STATE].at, from, landovireph_get(arenas[STATE].at, from) - many);
    landovireph_put(arenas[STATE].at, to, landovireph_get(arenas[STATE].at, to) + many);
}

static void damage_state(void)
{
    uint8_t *state = arenas[STATE].at;
    size_t words = arenas[STATE].length / 8, at;
    if (words == 0)
        return;
    switch (below(8)) {
    case 0:
        noise(state, arenas[STATE].length);
        break;
    case 1:
        noise(state + 8 * below(words), 8);
        break;
    case 2: /* one of the numbers that open writes is one more or less */
        at = below(words < 40 ? words : 40);
        landovireph_put(state, 8 * at, word_now(STATE, at) + 2 * below(2) - 1);
        break;
    case 3:
        state[8 * below(words)] ^= (uint8_t)(1u << below(8));
        break;
    case 4:
        if (words > 5)
            landovireph_put(state, LANDOVIREPH_STATE_COUNT, below(2 * table->n));
        break;
    case 5:
        landovireph_put(state, LANDOVIREPH_STATE_KIND, below(4));
        break;
    case 6: /* n, e, seed or word cap is a small number */
        if (words > 4)
            landovireph_put(state, 8 * (1 + below(4)), below(4));
        break;
    default:
        shift_levels();
    }
    settle(STATE);
}

static void swap_flags(uint64_t a, uint64_t b)
{
    uint8_t flag = arenas[FLAGS].at[a];
    arenas[FLAGS].at[a] = arenas[FLAGS].at[b];
    arenas[FLAGS].at[b] = flag;
}

/* Every slot before the special part, or before the fallback buckets, holds something: so a search goes on to what is behind. */
static void cram(void)
{
    uint64_t slot, taken = table->n - landovireph_get(table->state, LANDOVIREPH_STATE_SPECIAL);
    if (table->elastic)
        return;
    if (one_in(2))
        taken += landovireph_get(table->state, LANDOVIREPH_STATE_PRIMARY);
    for (slot = 0; slot < taken; slot++) {
        landovireph_put(arenas[WORDS].at, 8 * slot, draw());
        arenas[FLAGS].at[slot] = 1;
    }
}

/* Members moved, doubled, taken out; flags that are no flags. */
static void damage_slots(void)
{
    uint64_t from = below(table->n), to = below(table->n), word;
    if (arenas[WORDS].length < 8 * table->n || arenas[FLAGS].length < table->n)
        return;
    switch (below(8)) {
    case 0:
        landovireph_put(arenas[WORDS].at, 8 * from, 0);
        arenas[FLAGS].at[from] = 0;
        break;
    case 4: /* two members exchanged, or one moved */
        word = word_now(WORDS, from);
        landovireph_put(arenas[WORDS].at, 8 * from, word_now(WORDS, to));
        landovireph_put(arenas[WORDS].at, 8 * to, word);
        swap_flags(from, to);
        break;
    case 5:
    case 6:
        cram();
        break;
    case 1:
        landovireph_put(arenas[WORDS].at, 8 * to, word_now(WORDS, from));
        arenas[FLAGS].at[to] = arenas[FLAGS].at[from];
        break;
    case 2:
        arenas[FLAGS].at[from] = (uint8_t)draw();
        break;
    case 3:
        noise(arenas[WORDS].at, arenas[WORDS].length);
        memset(arenas[FLAGS].at, 1, arenas[FLAGS].length);
        break;
    default:
        noise(arenas[WORDS].at, arenas[WORDS].length);
        noise(arenas[FLAGS].at, arenas[FLAGS].length);
    }
    settle(WORDS);
    settle(FLAGS);
}

static void lend_table(void)
{
    uint8_t answer[LANDOVIREPH_ANSWER_BYTES];
    noise(answer, sizeof answer);
    lend(STATE, table->state, sizeof table->state);
    lend(WORDS, table->words, 8 * table->n);
    lend(FLAGS, table->flags, table->n);
    lend(ANSWER, answer, sizeof answer);
    damaged = one_in(3);
    if (!damaged)
        return;
    resize(STATE, about(arenas[STATE].length));
    resize(WORDS, about(arenas[WORDS].length));
    resize(FLAGS, about(arenas[FLAGS].length));
    resize(ANSWER, about(arenas[ANSWER].length));
    if (one_in(2))
        damage_state();
    if (one_in(2))
        damage_slots();
}

static void lend_noise(int which, size_t length)
{
    static uint8_t bytes[ROOM];
    noise(bytes, length);
    lend(which, bytes, length);
}

/* ---- rules that every call keeps */

/* Whether the state block is one that this call can take anything from. */
static bool holds_table(void)
{
    uint64_t kind = current >= ELASTIC_OPEN ? LANDOVIREPH_KIND_ELASTIC : LANDOVIREPH_KIND_FUNNEL;
    return arenas[STATE].length == LANDOVIREPH_STATE_BYTES && word_before(STATE, 0) == kind &&
           word_before(STATE, LANDOVIREPH_STATE_E / 8) < (uint64_t)1 << 32;
}

/* Every word of the answer block is 0, but for those whose bit is set. */
static bool only(unsigned words)
{
    size_t k;
    for (k = 0; k < LANDOVIREPH_ANSWER_BYTES / 8; k++)
        if ((words >> k & 1) == 0 && word_now(ANSWER, k) != 0)
            return false;
    return true;
}

#define BIT(offset) (1u << (offset) / 8)
#define PROBES BIT(LANDOVIREPH_ANSWER_PROBES)
#define PLACE                                                                                                     \
    (BIT(LANDOVIREPH_ANSWER_KIND) | BIT(LANDOVIREPH_ANSWER_LEVEL) | BIT(LANDOVIREPH_ANSWER_BUCKET) |               \
     BIT(LANDOVIREPH_ANSWER_WITHIN) | BIT(LANDOVIREPH_ANSWER_SLOT))
#define SLOT BIT(LANDOVIREPH_ANSWER_SLOT)
#define RANGE_WORDS BIT(LANDOVIREPH_ANSWER_WORDS)
#define FOUND BIT(LANDOVIREPH_ANSWER_FOUND)
#define PLACED BIT(LANDOVIREPH_ANSWER_PLACED)
#define BYTE BIT(LANDOVIREPH_ANSWER_BYTE)
#define LABEL_AT (BIT(LANDOVIREPH_ANSWER_LABEL) | BIT(LANDOVIREPH_ANSWER_LABEL_BYTES))
#define IMAGE_BYTES BIT(LANDOVIREPH_ANSWER_IMAGE_BYTES)

/* What a call may answer: the numbers that it has, each with the words of the answer block that it may set. */
struct may {
    int number;
    unsigned words;
};

static void keeps_answers(uint64_t result, const struct may *may, bool answer_stays)
{
    if (arenas[ANSWER].length != LANDOVIREPH_ANSWER_BYTES)
        must(result != 0, "an answer block of another length was taken");
    if (answer_stays || arenas[ANSWER].length != LANDOVIREPH_ANSWER_BYTES) {
        must(same(ANSWER), "the answer block was to stay as it was");
        must(result != 0, "no refusal");
        return;
    }
    if (result >= 1 && result <= 7) {
        must(only(0), "a refusal from 1 to 7 has nothing to say");
        return;
    }
    while (may->number != -1 && (uint64_t)may->number != result)
        may++;
    must(may->number != -1, "the call does not have this number");
    must(only(may->words), "a word of the answer block is set that is to be 0");
}

static void count(uint64_t result)
{
    must(result < NUMBERS, "no refusal has this number");
    tally[current][result]++;
}

/* The rules of a call on a table: a block that holds none of its kind is STATE, and says nothing. */
static void keeps_rules(uint64_t result, const struct may *may)
{
    count(result);
    if (!holds_table())
        must(result == LANDOVIREPH_REFUSED_STATE, "a block that holds no such table was taken");
    keeps_answers(result, may, !holds_table());
}

static void keeps_table(void)
{
    must(same(STATE), "the state block was changed");
    must(same(WORDS), "words were changed");
    must(same(FLAGS), "flags were changed");
}

/* The arena is as it was, apart from the bytes of some words. */
static bool same_but_word(int which, size_t k)
{
    size_t at = 8 * k;
    return memcmp(arenas[which].before, arenas[which].at, at) == 0 &&
           memcmp(arenas[which].before + at + 8, arenas[which].at + at + 8, arenas[which].length - at - 8) == 0;
}

/* What a call left of an undamaged table is the pool's from now on. */
static void keep_table(void)
{
    if (damaged)
        return;
    memcpy(table->state, arenas[STATE].at, sizeof table->state);
    memcpy(table->words, arenas[WORDS].at, 8 * table->n);
    memcpy(table->flags, arenas[FLAGS].at, table->n);
}

/* Where the arena's bytes are: nowhere, in one of three turns, where there are none. */
static uint8_t *lent_at(int which)
{
    return arenas[which].length == 0 && turn % 3 == 0 ? NULL : arenas[which].at;
}

#define LENT(which) lent_at(which), arenas[which].length
#define TABLE LENT(STATE), LENT(WORDS), LENT(FLAGS)

/* ---- the model: what is lent is copied before the call, the model does to the copies what is to be done, and both are compared */

static uint8_t expected[ARENAS][ROOM];
static bool compared[ARENAS];

static struct span expect(int which)
{
    struct span span = { expected[which], arenas[which].length };
    memcpy(expected[which], arenas[which].at, arenas[which].length);
    compared[which] = true;
    return span;
}

static struct lent expect_table(void)
{
    struct lent lent;
    memset(compared, 0, sizeof compared);
    lent.state = expect(STATE);
    lent.words = expect(WORDS);
    lent.flags = expect(FLAGS);
    lent.answer = expect(ANSWER);
    return lent;
}

static void agrees(uint64_t result, uint64_t wanted)
{
    int which;
    must(result == wanted, "the model answers another number");
    for (which = 0; which < ARENAS; which++)
        if (compared[which])
            must(memcmp(arenas[which].at, expected[which], arenas[which].length) == 0, "the model leaves other bytes");
}

/* ---- the calls */

static void try_search(void)
{
    static const struct may may[] = { { 0, PROBES | PLACE | FOUND }, { LANDOVIREPH_REFUSED_RANGE, RANGE_WORDS },
                                      { LANDOVIREPH_REFUSED_FULL, PROBES },  { -1, 0 } };
    uint64_t identity = asked(), slot;
    uint64_t wanted = model_search(expect_table(), identity);
    uint64_t result = landovireph_funnel_search(TABLE, identity, LENT(ANSWER));
    agrees(result, wanted);
    keeps_rules(result, may);
    keeps_table();
    if (result != 0)
        return;
    slot = landovireph_answer_slot(arenas[ANSWER].at);
    must(slot < arenas[FLAGS].length, "the slot is none of the table");
    if (landovireph_answer_found(arenas[ANSWER].at))
        must(arenas[FLAGS].at[slot] != 0 && word_now(WORDS, slot) == identity, "the slot does not hold the identity");
    else
        must(arenas[FLAGS].at[slot] == 0, "the slot is not vacant");
}

/* One slot, vacant before, holds the identity, and all others are as they were. */
static void keeps_entered(uint64_t slot, uint64_t identity)
{
    must(slot < arenas[FLAGS].length && arenas[FLAGS].before[slot] == 0, "the slot was not vacant");
    must(word_now(WORDS, slot) == identity && same_but_word(WORDS, slot), "other words than the slot's were changed");
    arenas[FLAGS].before[slot] = 1;
    must(same(FLAGS), "other flags than the slot's were changed, or it is not 1");
}

static void try_insert(void)
{
    static const struct may may[] = { { 0, PROBES | PLACE },          { LANDOVIREPH_REFUSED_RANGE, RANGE_WORDS },
                                      { LANDOVIREPH_REFUSED_DUPLICATE, PROBES | PLACE }, { LANDOVIREPH_REFUSED_EXHAUSTED, PROBES },
                                      { LANDOVIREPH_REFUSED_FULL, PROBES },   { -1, 0 } };
    uint64_t identity = one_in(4) ? asked() : member(), slot;
    uint64_t wanted = model_insert(expect_table(), identity);
    uint64_t result = landovireph_funnel_insert(TABLE, identity, LENT(ANSWER));
    agrees(result, wanted);
    keeps_rules(result, may);
    if (result != 0) {
        keeps_table();
        return;
    }
    slot = landovireph_answer_slot(arenas[ANSWER].at);
    keeps_entered(slot, identity);
    must(word_now(STATE, 5) == word_before(STATE, 5) + 1 && same_but_word(STATE, 5), "the state block is not one member on");
    keep_table();
}

/* As many new flags as the count went up; identities up to the placed one in their slots. */
static void keeps_placed(uint64_t placed)
{
    uint64_t k, entered = 0;
    for (k = 0; k < arenas[FLAGS].length; k++)
        if (arenas[FLAGS].at[k] != arenas[FLAGS].before[k]) {
            must(arenas[FLAGS].before[k] == 0 && arenas[FLAGS].at[k] == 1, "a flag was changed that was not vacant");
            entered++;
        } else {
            must(word_now(WORDS, k) == word_before(WORDS, k), "a word was changed where nothing was entered");
        }
    must(word_now(STATE, 5) == word_before(STATE, 5) + entered && same_but_word(STATE, 5), "the count is not that of the entered");
    for (k = 0; k < placed; k++) {
        uint64_t slot = word_now(SLOTS, k);
        must(slot < arenas[FLAGS].length && arenas[FLAGS].at[slot] != 0 && word_now(WORDS, slot) == word_now(IDENTITIES, k),
             "an identity is not in its slot");
    }
    must(memcmp(arenas[SLOTS].at + 8 * placed, arenas[SLOTS].before + 8 * placed, arenas[SLOTS].length - 8 * placed) == 0,
         "slots behind the placed were changed");
}

static void try_place_all(void)
{
    static const struct may may[] = { { 0, PLACED }, { LANDOVIREPH_REFUSED_RANGE, RANGE_WORDS | PLACED },
                                      { LANDOVIREPH_REFUSED_EXHAUSTED, PROBES | PLACED }, { LANDOVIREPH_REFUSED_FULL, PROBES | PLACED }, { -1, 0 } };
    uint8_t identities[8 * MOST_IDENTITIES] = { 0 };
    uint64_t k, result, wanted, many = below(MOST_IDENTITIES + 1);
    struct lent lent;
    for (k = 0; k < many; k++)
        landovireph_put(identities, 8 * k, member());
    lend(IDENTITIES, identities, 8 * many);
    lend_noise(SLOTS, 8 * (many + below(3)));
    resize(IDENTITIES, about(8 * many));
    resize(SLOTS, about(arenas[SLOTS].length));
    lent = expect_table();
    wanted = model_place_all(lent, expect(IDENTITIES), expect(SLOTS));
    result = landovireph_funnel_place_all(TABLE, LENT(IDENTITIES), LENT(SLOTS), LENT(ANSWER));
    agrees(result, wanted);
    keeps_rules(result, may);
    must(same(IDENTITIES), "identities were changed");
    if (result != 0 && result != LANDOVIREPH_REFUSED_RANGE && result != LANDOVIREPH_REFUSED_EXHAUSTED && result != LANDOVIREPH_REFUSED_FULL) {
        must(same(SLOTS), "a refusal wrote slots");
        keeps_table();
        return;
    }
    must(arenas[IDENTITIES].length % 8 == 0 && arenas[SLOTS].length % 8 == 0 && arenas[SLOTS].length >= arenas[IDENTITIES].length,
         "lengths that are STATE");
    if (result == 0)
        must(landovireph_answer_placed(arenas[ANSWER].at) == arenas[IDENTITIES].length / 8, "placed is not all");
    keeps_placed(landovireph_answer_placed(arenas[ANSWER].at));
    keep_table();
}

/* Marks are 1 at the slots of the order, which are occupied, and 0 elsewhere; the tail of the order is as it was. */
static void keeps_marks(uint64_t placed)
{
    uint64_t k, ones = 0;
    for (k = 0; k < arenas[MARKS].length; k++) {
        must(arenas[MARKS].at[k] <= 1 && arenas[MARKS].at[k] <= arenas[FLAGS].at[k], "a mark that is none, or of a vacant slot");
        ones += arenas[MARKS].at[k];
    }
    must(ones == placed && placed <= arenas[ORDER].length / 8, "marks and placed differ");
    for (k = 0; k < placed; k++)
        must(word_now(ORDER, k) < arenas[MARKS].length && arenas[MARKS].at[word_now(ORDER, k)] == 1,
             "the order has a slot without a mark");
    must(memcmp(arenas[ORDER].at + 8 * placed, arenas[ORDER].before + 8 * placed, arenas[ORDER].length - 8 * placed) == 0,
         "the tail of the order was changed");
}

/* Where the check accepts, every member is marked; where it does not, the slot is the smallest that is not. */
static void keeps_verdict(uint64_t result)
{
    uint64_t k = 0;
    while (k < arenas[FLAGS].length && arenas[FLAGS].at[k] == arenas[MARKS].at[k])
        k++;
    if (result == 0)
        must(k == arenas[FLAGS].length, "accepted with an unplaced member");
    else
        must(k == landovireph_answer_slot(arenas[ANSWER].at), "the slot is not the smallest unplaced one");
}

static void try_check(void)
{
    static const struct may may[] = { { 0, PLACED }, { LANDOVIREPH_REFUSED_DIRTY, SLOT }, { LANDOVIREPH_REFUSED_DISORDER, PLACED | SLOT }, { -1, 0 } };
    struct lent lent;
    uint64_t result, wanted;
    lend_noise(MARKS, about(table->n));
    lend_noise(ORDER, about(8 * table->n));
    lent = expect_table();
    wanted = model_check(lent, expect(MARKS), expect(ORDER));
    result = landovireph_funnel_check(TABLE, LENT(MARKS), LENT(ORDER), LENT(ANSWER));
    agrees(result, wanted);
    keeps_rules(result, may);
    keeps_table();
    if (result == 0 || result == LANDOVIREPH_REFUSED_DISORDER) {
        keeps_marks(landovireph_answer_placed(arenas[ANSWER].at));
        keeps_verdict(result);
    } else {
        must(same(MARKS) && same(ORDER), "a refusal wrote marks or order");
    }
}

/* The image of a table of the pool, into a buffer; its length. */
static uint64_t image_of(const struct table *t, uint8_t *image, size_t room)
{
    uint8_t answer[LANDOVIREPH_ANSWER_BYTES], label[64];
    size_t length = one_in(2) ? 0 : below(65);
    noise(label, sizeof label);
    if (landovireph_funnel_write(t->state, sizeof t->state, t->words, 8 * t->n, t->flags, t->n, label, length, image, room, answer,
                                 sizeof answer) != 0)
        return 0;
    return landovireph_get(answer, LANDOVIREPH_ANSWER_IMAGE_BYTES);
}

/* A byte changed, a part cut out, the end cut off, or noise. */
static size_t damage_image(uint8_t *image, size_t length)
{
    size_t at;
    if (length == 0)
        return 0;
    at = below(length);
    switch (below(5)) {
    case 0:
        image[at] = (uint8_t)draw();
        return length;
    case 1:
        image[below(length < 40 ? length : 40)] ^= (uint8_t)(1u << below(8));
        return length;
    case 2:
        return at;
    case 3:
        memmove(image + at / 2, image + at, length - at);
        return length - (at - at / 2);
    default:
        noise(image + at, length - at);
        return length;
    }
}

/* A loaded table's image, with the label that was found, is the image that was loaded. */
static void writes_again(void)
{
    static uint8_t again[ROOM];
    uint8_t answer[LANDOVIREPH_ANSWER_BYTES];
    uint64_t at = landovireph_get(arenas[ANSWER].at, LANDOVIREPH_ANSWER_LABEL),
             length = landovireph_get(arenas[ANSWER].at, LANDOVIREPH_ANSWER_LABEL_BYTES);
    must(at <= arenas[IMAGE].length && length <= arenas[IMAGE].length - at, "the label is outside the image");
    must(landovireph_funnel_write(TABLE, arenas[IMAGE].at + at, length, again, sizeof again, answer, sizeof answer) == 0,
         "a loaded table cannot be written");
    must(landovireph_get(answer, LANDOVIREPH_ANSWER_IMAGE_BYTES) == arenas[IMAGE].length &&
             memcmp(again, arenas[IMAGE].at, arenas[IMAGE].length) == 0,
         "the image of a loaded table is another");
}

static void try_load(void)
{
    static const struct may may[] = { { 0, LABEL_AT }, { LANDOVIREPH_REFUSED_IMAGE, BYTE }, { LANDOVIREPH_REFUSED_FOREIGN, 0 }, { -1, 0 } };
    static uint8_t image[ROOM];
    size_t length = image_of(one_in(4) || table->elastic ? &pool[below(POOL)] : table, image, sizeof image);
    struct lent lent;
    uint64_t result, wanted;
    if (one_in(2))
        length = damage_image(image, length);
    lend(IMAGE, image, length);
    lent = expect_table();
    wanted = model_load(lent, expect(IMAGE));
    result = landovireph_funnel_load(TABLE, LENT(IMAGE), LENT(ANSWER));
    agrees(result, wanted);
    keeps_rules(result, may);
    must(same(IMAGE), "the image was changed");
    if (result != 0) {
        keeps_table();
        return;
    }
    must(same_but_word(STATE, 5), "more than the count was changed in the state block");
    writes_again();
}

static void try_write(void)
{
    static const struct may may[] = { { 0, IMAGE_BYTES }, { LANDOVIREPH_REFUSED_DIRTY, SLOT }, { LANDOVIREPH_REFUSED_ROOM, IMAGE_BYTES }, { -1, 0 } };
    uint64_t members = 0, k, result, wanted, needed, label_length = one_in(3) ? below(80) : 0;
    struct lent lent;
    lend_noise(LABEL, label_length);
    for (k = 0; k < arenas[FLAGS].length; k++)
        members += arenas[FLAGS].at[k] != 0;
    needed = landovireph_image_bytes(members, label_length);
    lend_noise(IMAGE, needed <= ROOM / 2 ? about(needed) : ROOM / 2);
    lent = expect_table();
    wanted = model_write(lent, expect(LABEL), expect(IMAGE));
    result = landovireph_funnel_write(TABLE, LENT(LABEL), LENT(IMAGE), LENT(ANSWER));
    agrees(result, wanted);
    keeps_rules(result, may);
    keeps_table();
    must(same(LABEL), "the label was changed");
    if (result == LANDOVIREPH_REFUSED_ROOM)
        must(landovireph_get(arenas[ANSWER].at, LANDOVIREPH_ANSWER_IMAGE_BYTES) == needed && needed > arenas[IMAGE].length,
             "ROOM without the length that is needed");
    if (result != 0) {
        must(same(IMAGE), "a refusal wrote the image");
        return;
    }
    must(landovireph_get(arenas[ANSWER].at, LANDOVIREPH_ANSWER_IMAGE_BYTES) == needed && needed <= arenas[IMAGE].length,
         "the image has another length");
    must(memcmp(arenas[IMAGE].at + needed, arenas[IMAGE].before + needed, arenas[IMAGE].length - needed) == 0,
         "bytes behind the image were changed");
}

/* What both kinds of opening must leave: a refusal nothing, else a fresh table of n slots. */
static void keeps_opened(uint64_t result, uint64_t n)
{
    static const struct may may[] = { { 0, 0 }, { -1, 0 } };
    bool other_state = arenas[STATE].length != LANDOVIREPH_STATE_BYTES;
    count(result);
    keeps_answers(result, may, other_state && result == LANDOVIREPH_REFUSED_STATE);
    if (result != 0) {
        keeps_table();
        return;
    }
    must(n == arenas[FLAGS].length && 8 * n == arenas[WORDS].length && !other_state, "a buffer of another length was taken");
    must(word_now(STATE, 1) == n && word_now(STATE, 5) == 0, "the state block is not that of a fresh table");
    while (n-- != 0)
        must(word_now(WORDS, n) == 0 && arenas[FLAGS].at[n] == 0, "a fresh table is not empty");
}

/* A number that no table has, now and then. */
static uint64_t strange_n(void)
{
    static const uint64_t odd[] = { 0, 1, 2, 143, (uint64_t)1 << 32, ((uint64_t)1 << 32) + 1, UINT64_MAX };
    return one_in(6) ? odd[below(sizeof odd / sizeof odd[0])] : table->n;
}

static uint32_t strange_e(void)
{
    return one_in(6) ? (uint32_t)draw() >> below(32) : table->e;
}

static void try_open(void)
{
    uint64_t n = strange_n(), cap = one_in(6) ? below(300) : table->cap, result;
    uint32_t e = strange_e();
    uint64_t wanted = model_open(n, e, table->seed, cap, expect_table());
    result = landovireph_funnel_open(n, e, table->seed, cap, TABLE, LENT(ANSWER));
    agrees(result, wanted);
    keeps_opened(result, n);
}

/* Whether a table of n slots has a layout and takes so many members: open with empty buffers is STATE, which comes last. */
static bool can_take(uint64_t n, uint32_t e, uint64_t members)
{
    uint8_t state[LANDOVIREPH_STATE_BYTES], answer[LANDOVIREPH_ANSWER_BYTES], none[2];
    return landovireph_funnel_open(n, e, 0, 1, state, sizeof state, none, 0, none + 1, 0, answer, sizeof answer) == LANDOVIREPH_REFUSED_STATE &&
           n - (e < 64 ? n >> e : 0) >= members;
}

#define SMALLEST_SAYS ((1u << 12) - 1) /* n and the eleven numbers of its plan */

static void try_smallest(void)
{
    static const struct may may[] = { { 0, SMALLEST_SAYS }, { LANDOVIREPH_REFUSED_NONE, 0 }, { -1, 0 } };
    uint64_t members = one_in(3) ? 0 : draw() >> below(64), first = one_in(6) ? strange_n() : draw() >> (32 + below(32));
    uint64_t last = one_in(6) ? strange_n() : first + (draw() >> (32 + below(32))), n, result;
    uint32_t e = one_in(2) ? 3 + (uint32_t)below(26) : strange_e();
    result = landovireph_funnel_smallest(members, e, first, last, LENT(ANSWER));
    count(result);
    keeps_answers(result, may, false);
    keeps_table();
    if (result == LANDOVIREPH_REFUSED_NONE)
        must(last < first || !can_take(last, e, members), "the last n of the range takes the members");
    if (result != 0)
        return;
    n = landovireph_get(arenas[ANSWER].at, LANDOVIREPH_SMALLEST_N);
    must(first <= n && n <= last && can_take(n, e, members), "an n that is outside the range, has no layout or does not take the members");
    must(n == first || !can_take(n - 1, e, members), "a smaller n takes the members");
    must(landovireph_get(arenas[ANSWER].at, LANDOVIREPH_SMALLEST_MAXIMUM) == n - (n >> e), "another maximum");
}

static void try_elastic_open(void)
{
    uint64_t n = strange_n(), c = one_in(6) ? below(9000) : table->c, cap = one_in(6) ? below(20) : table->cap;
    uint64_t search_cap = one_in(6) ? below(9000) : table->search_cap;
    uint64_t position_cap = one_in(6) ? below(1000000000) : table->position_cap;
    keeps_opened(landovireph_elastic_open(n, strange_e(), table->seed, c, cap, search_cap, position_cap, TABLE, LENT(ANSWER)), n);
}

#define ELASTIC_INSERTED                                                                                                     \
    (PROBES | PLACE | BIT(LANDOVIREPH_ANSWER_POSITION) | BIT(LANDOVIREPH_ELASTIC_FREE) | BIT(LANDOVIREPH_ELASTIC_FREE_NEXT) | \
     BIT(LANDOVIREPH_ELASTIC_BUDGET))

static void try_elastic_insert(void)
{
    static const struct may may[] = { { 0, ELASTIC_INSERTED },       { LANDOVIREPH_REFUSED_DUPLICATE, SLOT }, { LANDOVIREPH_REFUSED_EXHAUSTED, 0 },
                                      { LANDOVIREPH_REFUSED_SCHEDULE, 0 },   { LANDOVIREPH_REFUSED_RANGE, RANGE_WORDS }, { LANDOVIREPH_REFUSED_SEARCH, 0 },
                                      { LANDOVIREPH_REFUSED_POSITION, 0 },   { -1, 0 } };
    uint64_t identity = one_in(4) ? asked() : member(), slot, level;
    uint64_t result = landovireph_elastic_insert(TABLE, identity, LENT(ANSWER));
    keeps_rules(result, may);
    if (result != 0) {
        keeps_table();
        return;
    }
    slot = landovireph_answer_slot(arenas[ANSWER].at);
    level = landovireph_get(arenas[ANSWER].at, LANDOVIREPH_ANSWER_LEVEL);
    keeps_entered(slot, identity);
    must(level < 32 && word_now(STATE, 11 + level) == word_before(STATE, 11 + level) + 1, "the level is not one member on");
    landovireph_put(arenas[STATE].before, 8 * (11 + level), word_now(STATE, 11 + level));
    must(word_now(STATE, 5) == word_before(STATE, 5) + 1 && same_but_word(STATE, 5), "the state block is not one member on");
    keep_table();
}

static void try_elastic_query(void)
{
    static const struct may may[] = { { 0, SLOT | RANGE_WORDS | BIT(LANDOVIREPH_ANSWER_POSITION) | BIT(LANDOVIREPH_ANSWER_MAPPED) |
                                            BIT(LANDOVIREPH_ANSWER_GAP) },
                                      { LANDOVIREPH_REFUSED_RANGE, RANGE_WORDS }, { LANDOVIREPH_REFUSED_ABSENT, 0 }, { -1, 0 } };
    uint64_t identity = asked(), slot;
    uint64_t result = landovireph_elastic_query(TABLE, identity, LENT(ANSWER));
    keeps_rules(result, may);
    keeps_table();
    if (result != 0)
        return;
    slot = landovireph_answer_slot(arenas[ANSWER].at);
    must(slot < arenas[FLAGS].length && arenas[FLAGS].at[slot] != 0 && word_now(WORDS, slot) == identity,
         "the slot does not hold the identity");
}

static void (*const tries[CALLS])(void) = { try_open,  try_search,   try_insert,       try_place_all,      try_check,        try_load,
                                            try_write, try_smallest, try_elastic_open, try_elastic_insert, try_elastic_query };

/* A table of the call's own kind, but for a few times. */
static void one_call(void)
{
    bool elastic;
    current = (enum call)below(CALLS);
    elastic = (current >= ELASTIC_OPEN) != one_in(50);
    table = elastic ? &elastic_pool[below(POOL)] : &pool[below(POOL)];
    if (one_in(100) && reopen(table) != 0)
        fail("a table of the pool cannot be opened again");
    lend_table();
    tries[current]();
}

static void print_tally(void)
{
    int call, number;
    for (call = 0; call < CALLS; call++) {
        uint64_t all = 0;
        for (number = 0; number < NUMBERS; number++)
            all += tally[call][number];
        printf("%-16s %9" PRIu64 " calls:", names[call], all);
        for (number = 0; number < NUMBERS; number++)
            if (tally[call][number] != 0)
                printf(" %s %" PRIu64, landovireph_refusal_name((uint64_t)number), tally[call][number]);
        printf("\n");
    }
}

static void usage(void)
{
    fprintf(stderr, "usage: guard [CALLS [SEED]]\n");
    exit(2);
}

/* A plain decimal, else the end of the program. */
static uint64_t argument(const char *text)
{
    char *end;
    uint64_t value = strtoull(text, &end, 10);
    if (*text < '0' || *text > '9' || *end != 0)
        usage();
    return value;
}

int main(int words, char **word)
{
    uint64_t calls = words > 1 ? argument(word[1]) : 1000000;
    int i;
    seed_given = words > 2 ? argument(word[2]) : 1;
    if (words > 3)
        usage();
    random_state = seed_given;
    signal(SIGSEGV, touched);
    signal(SIGBUS, touched);
    for (i = 0; i < ARENAS; i++)
        make_arena(&arenas[i]);
    make_pool(pool, false);
    make_pool(elastic_pool, true);
    for (turn = 1; turn <= calls; turn++)
        one_call();
    print_tally();
    printf("guard: %" PRIu64 " calls of seed %" PRIu64 ", every buffer against a guard page, no rule broken; funnel calls as the model\n", calls, seed_given);
    if (fflush(stdout) != 0 || ferror(stdout)) {
        perror("guard");
        return 2;
    }
    return 0;
}
