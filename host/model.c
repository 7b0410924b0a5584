#include "model.h"

#include "landovireph.h"

#include <stdbool.h>
#include <stdlib.h>
#include <string.h>

#define LEVELS 118

__extension__ typedef unsigned __int128 two_words;

/* ---- words lent as bytes: little-endian, as the machine's own are */

static uint64_t word_at(const uint8_t *bytes, size_t offset)
{
    uint64_t value;
    memcpy(&value, bytes + offset, sizeof value);
    return value;
}

static void put_word(uint8_t *bytes, size_t offset, uint64_t value)
{
    memcpy(bytes + offset, &value, sizeof value);
}

/* ---- layouts */

struct layout {
    uint64_t n, maximum, alpha, beta, g, s, primary, fallback, fallback_buckets, buckets, counts[LEVELS];
    uint32_t e;
};

/* floor(x / 2^k) */
static uint64_t shifted(uint64_t x, uint64_t k)
{
    return k > 63 ? 0 : x >> k;
}

/* ceil(x / 2^k) */
static uint64_t shifted_up(uint64_t x, uint64_t k)
{
    return shifted(x, k) + (k > 63 ? x != 0 : x > shifted(x, k) << k);
}

static uint64_t ceil_log2(uint64_t x)
{
    uint64_t k = 0;
    while (k < 64 && shifted_up(x, k) > 1)
        k++;
    return k;
}

/* "C(L) = L - floor(L/4)"; "the next lies between max(1, C(x)-1) and min(x, x - ceil(x/4) + 1)" */
static uint64_t least_next(uint64_t x)
{
    uint64_t least = x - x / 4 - 1;
    return least < 1 ? 1 : least;
}

static uint64_t most_next(uint64_t x)
{
    uint64_t most = x - (x + 3) / 4 + 1;
    return most < x ? most : x;
}

/* The sum of a path of so many levels that starts with x and always takes the least, or the most. */
static uint64_t path_sum(uint64_t x, uint64_t levels, bool most)
{
    uint64_t sum = 0;
    for (; levels != 0; levels--) {
        sum += x;
        x = most ? most_next(x) : least_next(x);
    }
    return sum;
}

/* Both sums rise with x. The smallest x whose largest path reaches the sum; and the largest whose smallest path stays within it, or 0. */
static uint64_t smallest_reaching(uint64_t sum, uint64_t levels)
{
    uint64_t low = 1, high = sum;
    while (low < high) {
        uint64_t middle = low + (high - low) / 2;
        if (path_sum(middle, levels, true) >= sum)
            high = middle;
        else
            low = middle + 1;
    }
    return low;
}

static uint64_t largest_within(uint64_t sum, uint64_t levels)
{
    uint64_t low = 0, high = sum;
    while (low < high) {
        uint64_t middle = low + (high - low + 1) / 2;
        if (path_sum(middle, levels, false) <= sum)
            low = middle;
        else
            high = middle - 1;
    }
    return low;
}

/* "T = (n-s)/beta buckets fill alpha levels. First count: T/4 rounded (remainder 3 goes up), clamped [..]. Each next is the largest whose
 * smallest and largest paths bracket the remaining sum." */
static bool set_counts(struct layout *layout)
{
    uint64_t left = layout->buckets, least = smallest_reaching(left, layout->alpha), most = largest_within(left, layout->alpha), k;
    uint64_t x = left / 4 + (left % 4 == 3);
    if (least > most)
        return false;
    x = x < least ? least : x > most ? most : x;
    for (k = 0;; k++) {
        uint64_t levels = layout->alpha - k;
        if (path_sum(x, levels, false) > left || path_sum(x, levels, true) < left)
            return false;
        layout->counts[k] = x;
        left -= x;
        if (levels == 1)
            return left == 0;
        least = least_next(x);
        most = largest_within(left, levels - 1);
        x = most < most_next(x) ? most : most_next(x);
        if (x < least)
            return false;
    }
}

/* "Special length s is the largest with max(ceil(n/2^(e+1)), 4g) <= s <= min(floor(3n/2^(e+2)), n - alpha*beta), beta dividing n - s,
 * and floor(s/2) a positive multiple of 2g." */
static bool set_special(struct layout *layout)
{
    uint64_t n = layout->n, least = shifted_up(n, (uint64_t)layout->e + 1), most = shifted(3 * n, (uint64_t)layout->e + 2), s;
    if (layout->alpha * layout->beta > n)
        return false;
    if (least < 4 * layout->g)
        least = 4 * layout->g;
    if (most > n - layout->alpha * layout->beta)
        most = n - layout->alpha * layout->beta;
    for (s = most; s >= least && s != 0; s--)
        if ((n - s) % layout->beta == 0 && s / 2 != 0 && s / 2 % (2 * layout->g) == 0) {
            layout->s = s;
            return true;
        }
    return false;
}

/* The layout of n and e, or the refusal: "1 to 7 by number". With e above 23,170 alpha * beta is above every n that is taken. */
static uint64_t work_layout_out(uint64_t n, uint32_t e, struct layout *layout)
{
    memset(layout, 0, sizeof *layout);
    if (n < 2)
        return LANDOVIREPH_REFUSED_N;
    if (e == 0)
        return LANDOVIREPH_REFUSED_ZEROEXP;
    if (n > (uint64_t)1 << 32)
        return LANDOVIREPH_REFUSED_SIZE;
    if (e < 3)
        return LANDOVIREPH_REFUSED_EXPONENT;
    layout->n = n;
    layout->e = e;
    layout->maximum = n - shifted(n, e);
    layout->alpha = 4 * (uint64_t)e + 10;
    layout->beta = 2 * (uint64_t)e;
    layout->g = ceil_log2(ceil_log2(n));
    if (layout->g < 1)
        layout->g = 1;
    if (e > 23170 || !set_special(layout) || layout->alpha > LEVELS)
        return LANDOVIREPH_REFUSED_LAYOUT;
    layout->primary = layout->s - layout->s / 2;
    layout->fallback = layout->s / 2;
    layout->fallback_buckets = layout->fallback / (2 * layout->g);
    layout->buckets = (n - layout->s) / layout->beta;
    return set_counts(layout) ? 0 : LANDOVIREPH_REFUSED_LAYOUT;
}

/* The same, remembered: the calls of one run ask for the same few tables again and again. */
static uint64_t layout_of(uint64_t n, uint32_t e, struct layout *layout)
{
    static struct {
        uint64_t n, refused;
        uint32_t e;
        struct layout layout;
    } known[256], *here;
    here = &known[(n * 31 + e) % 256];
    if (here->n != n || here->e != e || n == 0) {
        here->n = n;
        here->e = e;
        here->refused = work_layout_out(n, e, &here->layout);
    }
    *layout = here->layout;
    return here->refused;
}

/* The words of a state block from the maximum on: those that the layout gives. */
static void put_layout(uint8_t *state, const struct layout *layout)
{
    uint64_t k;
    put_word(state, LANDOVIREPH_STATE_MAXIMUM, layout->maximum);
    put_word(state, LANDOVIREPH_STATE_LEVELS, layout->alpha);
    put_word(state, LANDOVIREPH_STATE_BUCKET, layout->beta);
    put_word(state, LANDOVIREPH_STATE_PRIMARY_PROBES, layout->g);
    put_word(state, LANDOVIREPH_STATE_FALLBACK_BUCKET, 2 * layout->g);
    put_word(state, LANDOVIREPH_STATE_SPECIAL, layout->s);
    put_word(state, LANDOVIREPH_STATE_PRIMARY, layout->primary);
    put_word(state, LANDOVIREPH_STATE_FALLBACK, layout->fallback);
    put_word(state, LANDOVIREPH_STATE_FALLBACK_BUCKETS, layout->fallback_buckets);
    put_word(state, LANDOVIREPH_STATE_BUCKETS, layout->buckets);
    put_word(state, LANDOVIREPH_STATE_FIRST, layout->counts[0]);
    for (k = 0; k < LEVELS; k++)
        put_word(state, LANDOVIREPH_STATE_COUNTS + 8 * k, layout->counts[k]);
}

/* ---- a table as a call is lent it */

#define STATE_END (LANDOVIREPH_STATE_COUNTS + 8 * LEVELS)

struct table {
    struct layout layout;
    uint64_t seed, cap, count;
    uint8_t *state, *words, *flags, *answer;
};

static uint64_t table_word(const struct table *table, uint64_t slot)
{
    return word_at(table->words, 8 * slot);
}

static bool right_lengths(const struct lent *lent, uint64_t n)
{
    return lent->state.length == 2048 && lent->answer.length == 128 && lent->words.length == 8 * n && lent->flags.length == n;
}

static void clear_answer(struct span answer)
{
    if (answer.length == 128)
        memset(answer.at, 0, 128);
}

/* Whether the numbers in the state block from the maximum on are those of its layout. */
static bool right_plan(const uint8_t *state, const struct layout *layout)
{
    uint8_t plan[2048];
    put_layout(plan, layout);
    return memcmp(state + LANDOVIREPH_STATE_MAXIMUM, plan + LANDOVIREPH_STATE_MAXIMUM, STATE_END - LANDOVIREPH_STATE_MAXIMUM) == 0;
}

/* Tests 1 to 7 of a call on a table. `limits` and `lengths` say whether what else the call tests under LIMITS and STATE is right. */
static uint64_t enter(struct table *table, const struct lent *lent, bool limits, bool (*lengths)(const struct span *, uint64_t),
                      const struct span *more)
{
    const uint8_t *state = lent->state.at;
    uint64_t refused;
    if (lent->state.length != 2048 || word_at(state, 0) != 1 || word_at(state, LANDOVIREPH_STATE_E) >> 32 != 0)
        return LANDOVIREPH_REFUSED_STATE;
    clear_answer(lent->answer);
    refused = layout_of(word_at(state, LANDOVIREPH_STATE_N), (uint32_t)word_at(state, LANDOVIREPH_STATE_E), &table->layout);
    if (refused != 0)
        return refused;
    table->seed = word_at(state, LANDOVIREPH_STATE_SEED);
    table->cap = word_at(state, LANDOVIREPH_STATE_WORD_CAP);
    table->count = word_at(state, LANDOVIREPH_STATE_COUNT);
    if (table->cap < 1 || table->cap > 256 || !limits)
        return LANDOVIREPH_REFUSED_LIMITS;
    if (!right_lengths(lent, table->layout.n) || table->count > table->layout.n || !right_plan(state, &table->layout) ||
        (lengths != NULL && !lengths(more, table->layout.n)))
        return LANDOVIREPH_REFUSED_STATE;
    table->state = lent->state.at;
    table->words = lent->words.at;
    table->flags = lent->flags.at;
    table->answer = lent->answer.at;
    return 0;
}

uint64_t model_state(uint64_t n, uint32_t e, uint64_t seed, uint64_t word_cap, uint8_t *state)
{
    struct layout layout;
    uint64_t refused = layout_of(n, e, &layout);
    if (refused != 0)
        return refused;
    memset(state, 0, 2048);
    put_word(state, LANDOVIREPH_STATE_KIND, 1);
    put_word(state, LANDOVIREPH_STATE_N, n);
    put_word(state, LANDOVIREPH_STATE_E, e);
    put_word(state, LANDOVIREPH_STATE_SEED, seed);
    put_word(state, LANDOVIREPH_STATE_WORD_CAP, word_cap);
    put_layout(state, &layout);
    return 0;
}

uint64_t model_open(uint64_t n, uint32_t e, uint64_t seed, uint64_t word_cap, struct lent lent)
{
    struct layout layout;
    uint64_t refused = layout_of(n, e, &layout);
    if (refused == 0 && (word_cap < 1 || word_cap > 256))
        refused = LANDOVIREPH_REFUSED_LIMITS;
    if (refused == 0 && !right_lengths(&lent, n))
        refused = LANDOVIREPH_REFUSED_STATE;
    if (refused != LANDOVIREPH_REFUSED_STATE || lent.state.length == 2048)
        clear_answer(lent.answer);
    if (refused != 0)
        return refused;
    model_state(n, e, seed, word_cap, lent.state.at);
    memset(lent.words.at, 0, 8 * n);
    memset(lent.flags.at, 0, n);
    return 0;
}

/* ---- probes */

/* "the finaliser of public splitmix64" */
static uint64_t finalised(uint64_t x)
{
    x ^= x >> 30;
    x *= 0xBF58476D1CE4E5B9u;
    x ^= x >> 27;
    x *= 0x94D049BB133111EBu;
    x ^= x >> 31;
    return x;
}

/* "keyed = identity + seed, wrapped; in = keyed + 2D358DCCAA6C78A5; out = mix64(keyed + 8BB84B93962EACC9); word = mix64(counter xor in)
 * xor out; counter = tag<<62, level<<16, probe<<8, retry" */
static uint64_t drawn_word(const struct table *table, uint64_t identity, uint64_t tag, uint64_t level, uint64_t probe, uint64_t retry)
{
    uint64_t keyed = identity + table->seed, counter = (tag << 62) + (level << 16) + (probe << 8) + retry;
    return finalised(counter ^ (keyed + 0x2D358DCCAA6C78A5u)) ^ finalised(keyed + 0x8BB84B93962EACC9u);
}

/* "the product of word and u has two 64-bit halves; reject while the low half is below 2^64 mod u; the index is the high half." False
 * where all allowed words are rejected. */
static bool reduced(const struct table *table, uint64_t identity, uint64_t tag, uint64_t level, uint64_t probe, uint64_t u, uint64_t *index)
{
    uint64_t retry, rejected = (UINT64_MAX % u + 1) % u;
    for (retry = 0; retry < table->cap; retry++) {
        two_words product = (two_words)drawn_word(table, identity, tag, level, probe, retry) * u;
        if ((uint64_t)product >= rejected) {
            *index = (uint64_t)(product >> 64);
            return true;
        }
    }
    return false;
}

/* ---- the path of an identity: the slots that a search reads, one after the other */

struct place {
    uint64_t kind, level, bucket, within, slot;
};

struct path {
    const struct table *table;
    uint64_t identity;
    uint64_t part, k;     /* the level, or alpha for the primary probes, alpha + 1 for the fallback buckets; the step in it */
    uint64_t first, a, b; /* of the level: its first slot and its bucket; of the fallback part: both buckets */
    bool refused;         /* a draw was */
};

static struct path path_of(const struct table *table, uint64_t identity)
{
    struct path path = { table, identity, 0, 0, 0, 0, 0, false };
    return path;
}

/* "per level one bucket, slots in order" */
static bool next_ordinary(struct path *path, struct place *place)
{
    const struct layout *layout = &path->table->layout;
    if (path->k == 0 && !reduced(path->table, path->identity, 0, path->part, 0, layout->counts[path->part], &path->a)) {
        path->refused = true;
        return false;
    }
    place->kind = LANDOVIREPH_ORDINARY;
    place->level = path->part;
    place->bucket = path->a;
    place->within = path->k;
    place->slot = path->first + path->a * layout->beta + path->k;
    if (++path->k == layout->beta) {
        path->first += layout->counts[path->part] * layout->beta;
        path->part++;
        path->k = 0;
    }
    return true;
}

/* "then g primary probes" */
static bool next_primary(struct path *path, struct place *place)
{
    const struct layout *layout = &path->table->layout;
    place->kind = LANDOVIREPH_PRIMARY;
    if (!reduced(path->table, path->identity, 1, 0, path->k, layout->primary, &place->within)) {
        path->refused = true;
        return false;
    }
    place->slot = layout->n - layout->s + place->within;
    if (++path->k == layout->g) {
        path->part++;
        path->k = 0;
    }
    return true;
}

/* "then buckets A and B both sampled, slot by slot, A before B" */
static bool next_fallback(struct path *path, struct place *place)
{
    const struct layout *layout = &path->table->layout;
    if (path->k == 4 * layout->g)
        return false;
    if (path->k == 0 && (!reduced(path->table, path->identity, 2, 0, 0, layout->fallback_buckets, &path->a) ||
                         !reduced(path->table, path->identity, 3, 0, 0, layout->fallback_buckets, &path->b))) {
        path->refused = true;
        return false;
    }
    place->kind = LANDOVIREPH_FALLBACK;
    place->bucket = path->k % 2 == 0 ? path->a : path->b;
    place->within = path->k / 2;
    place->slot = layout->n - layout->fallback + place->bucket * 2 * layout->g + place->within;
    path->k++;
    return true;
}

/* The next slot of the path; false at its end, or where a draw is refused. */
static bool next_place(struct path *path, struct place *place)
{
    if (path->part < path->table->layout.alpha)
        return next_ordinary(path, place);
    place->level = place->bucket = 0;
    return path->part == path->table->layout.alpha ? next_primary(path, place) : next_fallback(path, place);
}

/* ---- search and insertion */

struct found {
    enum { HIT, VACANT, FULL, RANGE } how;
    uint64_t probes;
    struct place place;
};

/* "It stops at the identity or the first vacancy." */
static struct found search(const struct table *table, uint64_t identity)
{
    struct path path = path_of(table, identity);
    struct found found = { FULL, 0, { 0, 0, 0, 0, 0 } };
    while (next_place(&path, &found.place)) {
        found.probes++;
        if (table->flags[found.place.slot] == 0) {
            found.how = VACANT;
            return found;
        }
        if (table_word(table, found.place.slot) == identity) {
            found.how = HIT;
            return found;
        }
    }
    if (path.refused)
        found.how = RANGE;
    return found;
}

static void say(const struct table *table, size_t offset, uint64_t value)
{
    put_word(table->answer, offset, value);
}

static void say_place(const struct table *table, const struct found *found)
{
    say(table, LANDOVIREPH_ANSWER_PROBES, found->probes);
    say(table, LANDOVIREPH_ANSWER_KIND, found->place.kind);
    say(table, LANDOVIREPH_ANSWER_LEVEL, found->place.level);
    say(table, LANDOVIREPH_ANSWER_BUCKET, found->place.bucket);
    say(table, LANDOVIREPH_ANSWER_WITHIN, found->place.within);
    say(table, LANDOVIREPH_ANSWER_SLOT, found->place.slot);
}

uint64_t model_search(struct lent lent, uint64_t identity)
{
    struct table table;
    struct found found;
    uint64_t refused = enter(&table, &lent, true, NULL, NULL);
    if (refused != 0)
        return refused;
    found = search(&table, identity);
    if (found.how == RANGE) {
        say(&table, LANDOVIREPH_ANSWER_WORDS, table.cap);
        return LANDOVIREPH_REFUSED_RANGE;
    }
    if (found.how == FULL) {
        say(&table, LANDOVIREPH_ANSWER_PROBES, found.probes);
        return LANDOVIREPH_REFUSED_FULL;
    }
    say_place(&table, &found);
    say(&table, LANDOVIREPH_ANSWER_FOUND, found.how == HIT);
    return 0;
}

/* "RANGE as the search meets it, else 15, 16, 20". Where it is entered, one slot and the count change. */
static uint64_t insert(struct table *table, uint64_t identity, struct found *found)
{
    *found = search(table, identity);
    if (found->how == RANGE)
        return LANDOVIREPH_REFUSED_RANGE;
    if (found->how == HIT)
        return LANDOVIREPH_REFUSED_DUPLICATE;
    if (table->count >= table->layout.maximum)
        return LANDOVIREPH_REFUSED_EXHAUSTED;
    if (found->how == FULL)
        return LANDOVIREPH_REFUSED_FULL;
    put_word(table->words, 8 * found->place.slot, identity);
    table->flags[found->place.slot] = 1;
    table->count++;
    put_word(table->state, LANDOVIREPH_STATE_COUNT, table->count);
    return 0;
}

/* What a refused insertion carries but for a place. */
static void say_refused(const struct table *table, const struct found *found, uint64_t refused)
{
    if (refused == LANDOVIREPH_REFUSED_RANGE)
        say(table, LANDOVIREPH_ANSWER_WORDS, table->cap);
    else
        say(table, LANDOVIREPH_ANSWER_PROBES, found->probes);
}

uint64_t model_insert(struct lent lent, uint64_t identity)
{
    struct table table;
    struct found found;
    uint64_t refused = enter(&table, &lent, true, NULL, NULL);
    if (refused != 0)
        return refused;
    refused = insert(&table, identity, &found);
    if (refused == 0 || refused == LANDOVIREPH_REFUSED_DUPLICATE)
        say_place(&table, &found);
    else
        say_refused(&table, &found, refused);
    return refused;
}

static bool identities_and_slots(const struct span *more, uint64_t n)
{
    (void)n;
    return more[0].length % 8 == 0 && more[1].length % 8 == 0 && more[1].length >= more[0].length;
}

uint64_t model_place_all(struct lent lent, struct span identities, struct span slots)
{
    struct span more[2];
    struct table table;
    struct found found;
    uint64_t refused, k;
    more[0] = identities;
    more[1] = slots;
    refused = enter(&table, &lent, true, identities_and_slots, more);
    if (refused != 0)
        return refused;
    for (k = 0; k < identities.length / 8; k++) {
        refused = insert(&table, word_at(identities.at, 8 * k), &found);
        if (refused != 0 && refused != LANDOVIREPH_REFUSED_DUPLICATE) {
            say_refused(&table, &found, refused);
            say(&table, LANDOVIREPH_ANSWER_PLACED, k);
            return refused;
        }
        put_word(slots.at, 8 * k, found.place.slot);
    }
    say(&table, LANDOVIREPH_ANSWER_PLACED, k);
    return 0;
}

/* ---- the check */

/* "flag above 1, or vacant slot with nonzero word; smallest such slot"; n where there is none */
static uint64_t first_dirty(const struct table *table)
{
    uint64_t slot;
    for (slot = 0; slot < table->layout.n; slot++)
        if (table->flags[slot] > 1 || (table->flags[slot] == 0 && table_word(table, slot) != 0))
            break;
    return slot;
}

/* A member that waits: its path up to the first slot that is not placed, which stays where it is as long as that slot is not. */
struct waiting {
    struct path path;
    struct place at;
    bool on, never; /* whether `at` is a slot of the path now; whether no insertion of it can be answered as inserted any more */
};

#define MOST_SLOTS 1024
static struct waiting all_waiting[MOST_SLOTS];

/* "whose identity's insertion into the placed part is answered as inserted at that very slot" (the maximum aside) */
static bool is_ready(const struct table *table, const uint8_t *marks, struct waiting *waiting, uint64_t own)
{
    while (!waiting->never) {
        if (!waiting->on && !next_place(&waiting->path, &waiting->at)) {
            waiting->never = true;
            return false;
        }
        waiting->on = true;
        if (marks[waiting->at.slot] == 0)
            return waiting->at.slot == own;
        if (table_word(table, waiting->at.slot) == table_word(table, own))
            waiting->never = true;
        waiting->on = false;
    }
    return false;
}

/* "From empty marks it takes, again and again, the smallest unplaced occupied slot" that is ready; how many it takes */
static uint64_t take_all(const struct table *table, uint8_t *marks, struct span order)
{
    uint64_t n = table->layout.n, placed = 0, slot, first = 0;
    if (n > MOST_SLOTS)
        abort();
    for (slot = 0; slot < n; slot++) {
        marks[slot] = 0;
        all_waiting[slot].path = path_of(table, table_word(table, slot));
        all_waiting[slot].on = all_waiting[slot].never = false;
    }
    for (slot = 0; slot < n && placed < table->layout.maximum;) {
        if (table->flags[slot] != 0 && marks[slot] == 0 && is_ready(table, marks, &all_waiting[slot], slot)) {
            marks[slot] = 1;
            put_word(order.at, 8 * placed, slot);
            placed++;
            while (first < n && (table->flags[first] == 0 || marks[first] != 0))
                first++;
            slot = first;
        } else {
            slot++;
        }
    }
    return placed;
}

static bool marks_and_order(const struct span *more, uint64_t n)
{
    return more[0].length == n && more[1].length == 8 * n;
}

uint64_t model_check(struct lent lent, struct span marks, struct span order)
{
    struct span more[2];
    struct table table;
    uint64_t refused, slot;
    more[0] = marks;
    more[1] = order;
    refused = enter(&table, &lent, true, marks_and_order, more);
    if (refused != 0)
        return refused;
    slot = first_dirty(&table);
    if (slot < table.layout.n) {
        say(&table, LANDOVIREPH_ANSWER_SLOT, slot);
        return LANDOVIREPH_REFUSED_DIRTY;
    }
    say(&table, LANDOVIREPH_ANSWER_PLACED, take_all(&table, marks.at, order));
    for (slot = 0; slot < table.layout.n; slot++)
        if (table.flags[slot] != 0 && marks.at[slot] == 0) {
            say(&table, LANDOVIREPH_ANSWER_SLOT, slot);
            return LANDOVIREPH_REFUSED_DISORDER;
        }
    return 0;
}

/* ---- images */

/* Reads an image field by field. */
struct reading {
    struct span image;
    size_t at;      /* where the field begins */
    uint64_t wrong; /* the byte place of IMAGE, once there is one */
    bool malformed;
};

static bool fail(struct reading *reading, uint64_t place)
{
    reading->malformed = true;
    reading->wrong = place;
    return false;
}

static unsigned tag_at(const struct reading *reading)
{
    return reading->at < reading->image.length ? reading->image.at[reading->at] : 0;
}

/* "Within a field the order is: tag, both length bytes present, length, body present, content." The length of the field's body, which has
 * to be a multiple of `unit` from `least` to `most`; where the image ends too early the place is its length. */
static bool field(struct reading *reading, unsigned tag, size_t least, size_t most, size_t unit, size_t *length)
{
    size_t rest = reading->image.length - reading->at;
    if (rest == 0)
        return fail(reading, reading->image.length);
    if (tag_at(reading) != tag)
        return fail(reading, reading->at);
    if (rest < 3)
        return fail(reading, reading->image.length);
    *length = reading->image.at[reading->at + 1] + 256u * reading->image.at[reading->at + 2];
    if (*length < least || *length > most || *length % unit != 0)
        return fail(reading, reading->at);
    return rest - 3 >= *length || fail(reading, reading->image.length);
}

struct image {
    uint64_t n, e, seed, entries;
    size_t label, label_length, first_entry; /* where the label's body begins; where the first field 5 does */
};

static const uint8_t *body(const struct reading *reading)
{
    return reading->image.at + reading->at + 3;
}

/* "slots rising and below n" */
static bool entries(struct reading *reading, uint64_t n, size_t length, uint64_t *least)
{
    size_t k;
    for (k = 0; k < length; k += 16) {
        uint64_t slot = word_at(body(reading), k);
        if (slot < *least || slot >= n)
            return fail(reading, reading->at);
        *least = slot + 1;
    }
    return true;
}

/* "1 n (8 bytes), 2 e (4), 3 seed (8), 4 label (optional, 1 to 64 bytes)" */
static bool read_head(struct reading *reading, struct image *image)
{
    size_t length;
    if (!field(reading, 1, 8, 8, 8, &length))
        return false;
    image->n = word_at(body(reading), 0);
    reading->at += 11;
    if (!field(reading, 2, 4, 4, 4, &length))
        return false;
    image->e = body(reading)[0] + ((uint64_t)body(reading)[1] << 8) + ((uint64_t)body(reading)[2] << 16) + ((uint64_t)body(reading)[3] << 24);
    reading->at += 7;
    if (!field(reading, 3, 8, 8, 8, &length))
        return false;
    image->seed = word_at(body(reading), 0);
    reading->at += 11;
    if (tag_at(reading) != 4)
        return true;
    if (!field(reading, 4, 1, 64, 1, &length))
        return false;
    image->label = reading->at + 3;
    image->label_length = length;
    reading->at += 3 + length;
    return true;
}

/* "5 entries [..] 4,095 a field, only the last field shorter, none if empty [..] After a short field 5 only tag 6 is right." */
static bool read_entries(struct reading *reading, struct image *image)
{
    uint64_t least = 0;
    size_t length = 65520;
    image->first_entry = reading->at;
    while (length == 65520 && tag_at(reading) == 5) {
        if (!field(reading, 5, 16, 65520, 16, &length) || !entries(reading, image->n, length, &least))
            return false;
        image->entries += length / 16;
        reading->at += 3 + length;
    }
    return true;
}

/* "6 holds the number of entries"; "the first byte after field 6" is wrong */
static bool read_end(struct reading *reading, const struct image *image)
{
    size_t length;
    if (!field(reading, 6, 8, 8, 8, &length))
        return false;
    if (word_at(body(reading), 0) != image->entries)
        return fail(reading, reading->at);
    reading->at += 11;
    return reading->at == reading->image.length || fail(reading, reading->at);
}

/* "The loader zeroes, fills, sets the count from 6" */
static void fill(struct table *table, struct span bytes, const struct image *image)
{
    uint64_t k;
    size_t at = image->first_entry;
    memset(table->words, 0, 8 * table->layout.n);
    memset(table->flags, 0, table->layout.n);
    for (k = 0; k < image->entries; k++) {
        uint64_t slot;
        if (k % 4095 == 0)
            at += 3;
        slot = word_at(bytes.at, at);
        put_word(table->words, 8 * slot, word_at(bytes.at, at + 8));
        table->flags[slot] = 1;
        at += 16;
    }
    put_word(table->state, LANDOVIREPH_STATE_COUNT, image->entries);
}

uint64_t model_load(struct lent lent, struct span bytes)
{
    struct reading reading = { bytes, 0, 0, false };
    struct image image;
    struct table table;
    uint64_t refused = enter(&table, &lent, true, NULL, NULL);
    if (refused != 0)
        return refused;
    memset(&image, 0, sizeof image);
    if (!read_head(&reading, &image) || !read_entries(&reading, &image) || !read_end(&reading, &image)) {
        say(&table, LANDOVIREPH_ANSWER_BYTE, reading.wrong);
        return LANDOVIREPH_REFUSED_IMAGE;
    }
    if (image.n != table.layout.n || image.e != table.layout.e || image.seed != table.seed)
        return LANDOVIREPH_REFUSED_FOREIGN;
    fill(&table, bytes, &image);
    say(&table, LANDOVIREPH_ANSWER_LABEL, image.label);
    say(&table, LANDOVIREPH_ANSWER_LABEL_BYTES, image.label_length);
    return 0;
}

/* Writes bytes one behind the other, or only counts them where there is nothing to write to. */
struct writing {
    uint8_t *to;
    size_t length;
};

static void write_byte(struct writing *writing, uint64_t byte)
{
    if (writing->to != NULL)
        writing->to[writing->length] = (uint8_t)byte;
    writing->length++;
}

static void write_number(struct writing *writing, uint64_t value, size_t bytes)
{
    for (; bytes != 0; bytes--, value /= 256)
        write_byte(writing, value % 256);
}

static void write_field(struct writing *writing, uint64_t tag, uint64_t value, size_t bytes)
{
    write_byte(writing, tag);
    write_number(writing, bytes, 2);
    write_number(writing, value, bytes);
}

static void write_image(struct writing *writing, const struct table *table, struct span label, uint64_t members)
{
    uint64_t slot, left = members;
    size_t k;
    write_field(writing, 1, table->layout.n, 8);
    write_field(writing, 2, table->layout.e, 4);
    write_field(writing, 3, table->seed, 8);
    if (label.length != 0) {
        write_byte(writing, 4);
        write_number(writing, label.length, 2);
        for (k = 0; k < label.length; k++)
            write_byte(writing, label.at[k]);
    }
    for (slot = 0; slot < table->layout.n; slot++)
        if (table->flags[slot] != 0) {
            if ((members - left) % 4095 == 0) {
                write_byte(writing, 5);
                write_number(writing, 16 * (left < 4095 ? left : 4095), 2);
            }
            write_number(writing, slot, 8);
            write_number(writing, table_word(table, slot), 8);
            left--;
        }
    write_field(writing, 6, members, 8);
}

uint64_t model_write(struct lent lent, struct span label, struct span image)
{
    struct writing counted = { NULL, 0 }, written = { image.at, 0 };
    struct table table;
    uint64_t refused = enter(&table, &lent, label.length <= 64, NULL, NULL), slot, members = 0;
    if (refused != 0)
        return refused;
    slot = first_dirty(&table);
    if (slot < table.layout.n) {
        say(&table, LANDOVIREPH_ANSWER_SLOT, slot);
        return LANDOVIREPH_REFUSED_DIRTY;
    }
    for (slot = 0; slot < table.layout.n; slot++)
        members += table.flags[slot];
    write_image(&counted, &table, label, members);
    say(&table, LANDOVIREPH_ANSWER_IMAGE_BYTES, counted.length);
    if (counted.length > image.length)
        return LANDOVIREPH_REFUSED_ROOM;
    write_image(&written, &table, label, members);
    return 0;
}
