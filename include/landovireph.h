/*
 * landovireph.h: proved funnel and elastic hash tables, table images and their check, for C and C++.
 *
 * This file is the manual. A table gives every identity (a 64-bit number) one slot. You lend the memory; the library keeps
 * none of its own, calls nothing but memcpy and memset, and needs at most 16 KiB of stack. It is built for Linux on x86-64.
 * landovireph_table.h has the same calls with fewer arguments.
 *
 * Every call returns for all numbers and bytes that are handed to it: it tests its arguments itself and answers 0, or the
 * number of its refusal (below). That each call answers and leaves in memory exactly what its definition says is proved for
 * the code that the archive is compiled from; see docs/PROMISES.md.
 *
 *     uint8_t state[LANDOVIREPH_STATE_BYTES], answer[LANDOVIREPH_ANSWER_BYTES];
 *     uint64_t n = 4104;
 *     uint8_t *words = malloc(8 * n), *flags = malloc(n);
 *     uint64_t refused = landovireph_funnel_open(n, 3, 2024, 8, state, sizeof state, words, 8 * n, flags, n,
 *                                                answer, sizeof answer);
 *     if (refused == 0)
 *         refused = landovireph_funnel_insert(state, sizeof state, words, 8 * n, flags, n, identity, answer, sizeof answer);
 *     if (refused == 0 || refused == LANDOVIREPH_REFUSED_DUPLICATE)
 *         sums[landovireph_answer_slot(answer)] += value;
 *     else
 *         fprintf(stderr, "%s\n", landovireph_refusal_name(refused));
 *
 * What is lent
 *
 *     state    2,048 bytes: the table's numbers, written by open, held against n and e by every later call. Keep it with the
 *              table; you may copy it and move it, and save it for the same version of the library (below).
 *     words    8 bytes to a slot, little-endian: the identity in an occupied slot, 0 in a vacant one. n slots are 8n bytes. On a
 *              little-endian machine an array of uint64_t is such a buffer.
 *     flags    1 byte to a slot: 0 vacant, any other occupied. An insertion writes 1.
 *     answer   128 bytes: what a call has to say besides its result. Zeros where it has nothing to say.
 *
 * No alignment is asked of any of them. A pointer may be null where its length is 0.
 *
 * Your duties, which no call can test:
 *   - The bytes behind a pointer are there: as many as its length says, to be written where the pointer is not const.
 *   - The blocks and buffers of one call do not overlap.
 *   - No other thread writes to them during the call, or reads those that the call writes. So calls on different tables may run at
 *     the same time, and searches and queries of one table too, each with an answer block of its own.
 *
 * Refusals
 *
 * 1 to 7 are tested first, in the order of their numbers; then a call's own, in the order that is given with it. A refusal leaves
 * the state block and all buffers as they were; DISORDER alone writes marks and order, and a stopped
 * landovireph_funnel_place_all has placed what came before.
 *
 * STATE is also a block of another length, and (open aside) a state block that holds no table of the kind that the call is for, or
 * an e of 2^32 or more: then the answer block stays as it was. So it does at any refusal where it has another length itself. Every
 * other call, refused or not, writes all 128 bytes of the answer block.
 *
 * STATE is the last of the refusals 1 to 7. So an open with empty buffers tells whether n and e have a table, without any memory:
 * it answers STATE where they have one, and a smaller number where they have none.
 *
 * What stays from version to version
 *
 *     calls     A program that was compiled with this header runs with every later library of the same soname: names, arguments and
 *               answers stay. A source that compiles with this header compiles with later ones of the same major version.
 *     blocks    The words that have a name here keep their offsets and meanings. The others are the library's own: save a table as
 *               an image, not as its state block, where another version may read it.
 *     images    Every later version reads the images of this one. What it writes may have further fields, which this one refuses.
 *
 * Building the library from nothing (`make`) proves the crates that it is made of, which takes some minutes.
 */
#ifndef LANDOVIREPH_H
#define LANDOVIREPH_H

#include <stddef.h>
#include <stdint.h>

#define LANDOVIREPH_VERSION_MAJOR 0
#define LANDOVIREPH_VERSION_MINOR 2
#define LANDOVIREPH_VERSION_PATCH 0
#define LANDOVIREPH_VERSION "0.2.0"
#define LANDOVIREPH_VERSION_NUMBER (10000 * LANDOVIREPH_VERSION_MAJOR + 100 * LANDOVIREPH_VERSION_MINOR + LANDOVIREPH_VERSION_PATCH)

/* The lengths of the two blocks. */
#define LANDOVIREPH_STATE_BYTES 2048
#define LANDOVIREPH_ANSWER_BYTES 128

#ifdef __cplusplus
extern "C" {
#endif

/* The version of the library that the program runs with, where the macros have that of the header it was compiled with. */
const char *landovireph_version(void);
uint32_t landovireph_version_number(void);

/* The result of a call: 0, or the number of its refusal. */
enum landovireph_refusal {
    LANDOVIREPH_OK = 0,
    LANDOVIREPH_REFUSED_N = 1,          /* n is below 2 */
    LANDOVIREPH_REFUSED_ZEROEXP = 2,    /* e is 0 */
    LANDOVIREPH_REFUSED_SIZE = 3,       /* n is above 2^32 */
    LANDOVIREPH_REFUSED_EXPONENT = 4,   /* funnel: e is below 3 */
    LANDOVIREPH_REFUSED_LAYOUT = 5,     /* no funnel table has this n and e; landovireph_funnel_smallest gives the next n that has one */
    LANDOVIREPH_REFUSED_LIMITS = 6,     /* a cap or c is outside its range, or a label is longer than 64 bytes */
    LANDOVIREPH_REFUSED_STATE = 7,      /* a buffer is not as long as n asks; the state block holds no table, or not that of n and e;
                                   its count is above n; elastic: the counts of the levels do not fit */
    LANDOVIREPH_REFUSED_UPPER = 8,      /* 8, 9 and 11 to 14 belong to calls that are not exported to C */
    LANDOVIREPH_REFUSED_COUNTER = 9,
    LANDOVIREPH_REFUSED_RANGE = 10,     /* all words of a draw were rejected: how many is in the answer's words */
    LANDOVIREPH_REFUSED_COORD = 11,
    LANDOVIREPH_REFUSED_OVERFLOW = 12,
    LANDOVIREPH_REFUSED_GAP = 13,
    LANDOVIREPH_REFUSED_BUDGET = 14,
    LANDOVIREPH_REFUSED_DUPLICATE = 15, /* the identity is in the table: its place is in the answer */
    LANDOVIREPH_REFUSED_EXHAUSTED = 16, /* the table holds its maximum, n - floor(n / 2^e), or more */
    LANDOVIREPH_REFUSED_SCHEDULE = 17,  /* elastic: both active levels are low, as only a made-up state has them (below) */
    LANDOVIREPH_REFUSED_SEARCH = 18,    /* elastic: the search cap is used up */
    LANDOVIREPH_REFUSED_POSITION = 19,  /* elastic: the position is above the position cap */
    LANDOVIREPH_REFUSED_FULL = 20,      /* funnel: no slot on the identity's path is vacant, and none holds it */
    LANDOVIREPH_REFUSED_ABSENT = 21,    /* elastic: the query reached the position cap */
    LANDOVIREPH_REFUSED_DIRTY = 22,     /* a flag is above 1, or a vacant slot's word is not 0: the smallest such slot is in the answer */
    LANDOVIREPH_REFUSED_DISORDER = 23,  /* no order of insertions makes this table */
    LANDOVIREPH_REFUSED_IMAGE = 24,     /* the image is malformed: the byte place is in the answer */
    LANDOVIREPH_REFUSED_FOREIGN = 25,   /* the image's n, e or seed is not the table's */
    LANDOVIREPH_REFUSED_ROOM = 26,      /* the buffer is shorter than the image */
    LANDOVIREPH_REFUSED_NONE = 27       /* no n of the range has a layout and takes so many members */
};

/* The names of version 0.1.0 before refusals had a prefix of their own; they go with version 1. */
#ifndef LANDOVIREPH_WITHOUT_OLD_NAMES
enum landovireph_old_refusal {
    LANDOVIREPH_N = LANDOVIREPH_REFUSED_N,
    LANDOVIREPH_ZEROEXP = LANDOVIREPH_REFUSED_ZEROEXP,
    LANDOVIREPH_SIZE = LANDOVIREPH_REFUSED_SIZE,
    LANDOVIREPH_EXPONENT = LANDOVIREPH_REFUSED_EXPONENT,
    LANDOVIREPH_LAYOUT = LANDOVIREPH_REFUSED_LAYOUT,
    LANDOVIREPH_LIMITS = LANDOVIREPH_REFUSED_LIMITS,
    LANDOVIREPH_STATE = LANDOVIREPH_REFUSED_STATE,
    LANDOVIREPH_UPPER = LANDOVIREPH_REFUSED_UPPER,
    LANDOVIREPH_COUNTER = LANDOVIREPH_REFUSED_COUNTER,
    LANDOVIREPH_RANGE = LANDOVIREPH_REFUSED_RANGE,
    LANDOVIREPH_COORD = LANDOVIREPH_REFUSED_COORD,
    LANDOVIREPH_OVERFLOW = LANDOVIREPH_REFUSED_OVERFLOW,
    LANDOVIREPH_GAP = LANDOVIREPH_REFUSED_GAP,
    LANDOVIREPH_BUDGET = LANDOVIREPH_REFUSED_BUDGET,
    LANDOVIREPH_DUPLICATE = LANDOVIREPH_REFUSED_DUPLICATE,
    LANDOVIREPH_EXHAUSTED = LANDOVIREPH_REFUSED_EXHAUSTED,
    LANDOVIREPH_SCHEDULE = LANDOVIREPH_REFUSED_SCHEDULE,
    LANDOVIREPH_SEARCH = LANDOVIREPH_REFUSED_SEARCH,
    LANDOVIREPH_POSITION = LANDOVIREPH_REFUSED_POSITION,
    LANDOVIREPH_FULL = LANDOVIREPH_REFUSED_FULL,
    LANDOVIREPH_ABSENT = LANDOVIREPH_REFUSED_ABSENT,
    LANDOVIREPH_DIRTY = LANDOVIREPH_REFUSED_DIRTY,
    LANDOVIREPH_DISORDER = LANDOVIREPH_REFUSED_DISORDER,
    LANDOVIREPH_IMAGE = LANDOVIREPH_REFUSED_IMAGE,
    LANDOVIREPH_FOREIGN = LANDOVIREPH_REFUSED_FOREIGN,
    LANDOVIREPH_ROOM = LANDOVIREPH_REFUSED_ROOM
};
#endif

/* The name of a result, for messages. */
static inline const char *landovireph_refusal_name(uint64_t result)
{
    static const char *const names[] = {
        "OK", "N", "ZEROEXP", "SIZE", "EXPONENT", "LAYOUT", "LIMITS", "STATE", "UPPER", "COUNTER", "RANGE", "COORD", "OVERFLOW",
        "GAP", "BUDGET", "DUPLICATE", "EXHAUSTED", "SCHEDULE", "SEARCH", "POSITION", "FULL", "ABSENT", "DIRTY", "DISORDER",
        "IMAGE", "FOREIGN", "ROOM", "NONE"
    };
    return result < sizeof names / sizeof names[0] ? names[result] : "no refusal has this number";
}

/* Eight little-endian bytes as a number: a word of a block, or entry k of lent words at offset 8k. */
static inline uint64_t landovireph_get(const uint8_t *bytes, size_t offset)
{
    const uint8_t *b = bytes + offset;
    const uint64_t b0 = b[0], b1 = b[1], b2 = b[2], b3 = b[3], b4 = b[4], b5 = b[5], b6 = b[6], b7 = b[7];
    return b0 | b1 << 8 | b2 << 16 | b3 << 24 | b4 << 32 | b5 << 40 | b6 << 48 | b7 << 56;
}

/* A number as eight little-endian bytes. */
static inline void landovireph_put(uint8_t *bytes, size_t offset, uint64_t value)
{
    size_t i;
    for (i = 0; i < 8; i++)
        bytes[offset + i] = value >> (8 * i) & 0xff;
}

/* A reader of one word of a block. */
#define LANDOVIREPH_READER(name, offset)                         \
    static inline uint64_t landovireph_##name(const uint8_t *block) \
    {                                                            \
        return landovireph_get(block, offset);                   \
    }

/*
 * The state block of a funnel table: offsets of words of eight bytes. An insertion and a loading write the count; all else stays as
 * open wrote it. Bytes from 1,080 on are zeros, which no call reads.
 */
enum landovireph_state_offset {
    LANDOVIREPH_STATE_KIND = 0,             /* 1 a funnel table, 2 an elastic one; any other: no table */
    LANDOVIREPH_STATE_N = 8,                /* slots */
    LANDOVIREPH_STATE_E = 16,               /* the reserve is n / 2^e slots, rounded down */
    LANDOVIREPH_STATE_SEED = 24,
    LANDOVIREPH_STATE_WORD_CAP = 32,
    LANDOVIREPH_STATE_COUNT = 40,           /* members */
    LANDOVIREPH_STATE_MAXIMUM = 48,         /* the most members */
    LANDOVIREPH_STATE_LEVELS = 56,          /* alpha: the ordinary levels */
    LANDOVIREPH_STATE_BUCKET = 64,          /* beta: slots of an ordinary bucket */
    LANDOVIREPH_STATE_PRIMARY_PROBES = 72,  /* g */
    LANDOVIREPH_STATE_FALLBACK_BUCKET = 80, /* slots of a fallback bucket, 2g */
    LANDOVIREPH_STATE_SPECIAL = 88,         /* slots of the special part, the last ones of the table */
    LANDOVIREPH_STATE_PRIMARY = 96,         /* of these the first, primary ones */
    LANDOVIREPH_STATE_FALLBACK = 104,       /* and the fallback ones behind them */
    LANDOVIREPH_STATE_FALLBACK_BUCKETS = 112,
    LANDOVIREPH_STATE_BUCKETS = 120,        /* ordinary buckets of all levels */
    LANDOVIREPH_STATE_FIRST = 128,          /* buckets of the first level */
    LANDOVIREPH_STATE_COUNTS = 136          /* buckets of each of 118 levels, 0 past the last */
};

/*
 * The state block of an elastic table. The words up to the maximum are those of a funnel table; then come these. An insertion
 * writes the count and the count of one level. Bytes from 344 on are zeros, which no call reads.
 */
enum landovireph_elastic_state_offset {
    LANDOVIREPH_ELASTIC_LEVELS = 56,
    LANDOVIREPH_ELASTIC_C = 64,
    LANDOVIREPH_ELASTIC_SEARCH_CAP = 72,
    LANDOVIREPH_ELASTIC_POSITION_CAP = 80,
    LANDOVIREPH_ELASTIC_COUNTS = 88 /* members of each of 32 levels, 0 past the last */
};

enum landovireph_state_kind { LANDOVIREPH_KIND_FUNNEL = 1, LANDOVIREPH_KIND_ELASTIC = 2 };

/* landovireph_state_n(state) and so on: the numbers that both kinds of table have. */
LANDOVIREPH_READER(state_kind, LANDOVIREPH_STATE_KIND)
LANDOVIREPH_READER(state_n, LANDOVIREPH_STATE_N)
LANDOVIREPH_READER(state_e, LANDOVIREPH_STATE_E)
LANDOVIREPH_READER(state_seed, LANDOVIREPH_STATE_SEED)
LANDOVIREPH_READER(state_word_cap, LANDOVIREPH_STATE_WORD_CAP)
LANDOVIREPH_READER(state_count, LANDOVIREPH_STATE_COUNT)
LANDOVIREPH_READER(state_maximum, LANDOVIREPH_STATE_MAXIMUM)
LANDOVIREPH_READER(state_levels, LANDOVIREPH_STATE_LEVELS)

/* The answer block: offsets of words of eight bytes. Each call says which it writes; all others are 0. */
enum landovireph_answer_offset {
    LANDOVIREPH_ANSWER_PROBES = 0,       /* the slots that were read */
    LANDOVIREPH_ANSWER_KIND = 8,         /* the part that the place is in, below */
    LANDOVIREPH_ANSWER_LEVEL = 16,
    LANDOVIREPH_ANSWER_BUCKET = 24,
    LANDOVIREPH_ANSWER_WITHIN = 32,      /* the slot in its bucket, or among the primary ones */
    LANDOVIREPH_ANSWER_SLOT = 40,        /* the slot in the table: the index into words and flags */
    LANDOVIREPH_ANSWER_WORDS = 48,
    LANDOVIREPH_ANSWER_FOUND = 56,       /* 1 where a search met the identity, 0 where it met a vacancy */
    LANDOVIREPH_ANSWER_PLACED = 64,
    LANDOVIREPH_ANSWER_POSITION = 72,
    LANDOVIREPH_ANSWER_MAPPED = 80,
    LANDOVIREPH_ANSWER_GAP = 88,
    LANDOVIREPH_ANSWER_BYTE = 96,        /* where an image is malformed */
    LANDOVIREPH_ANSWER_LABEL = 104,      /* where a label's body begins in the image */
    LANDOVIREPH_ANSWER_LABEL_BYTES = 112,
    LANDOVIREPH_ANSWER_IMAGE_BYTES = 120
};

/* What the calls on elastic tables write at other places than those above. */
enum landovireph_elastic_answer_offset {
    LANDOVIREPH_ELASTIC_PAPER_PROBE = 0,
    LANDOVIREPH_ELASTIC_CASE = 8,          /* 0 in the first batch, else 1 to 3 */
    LANDOVIREPH_ELASTIC_BATCH = 24,
    LANDOVIREPH_ELASTIC_FREE = 96,         /* free slots of the current level before the insertion */
    LANDOVIREPH_ELASTIC_FREE_NEXT = 104,   /* and of the next */
    LANDOVIREPH_ELASTIC_BUDGET = 112
};

/* What landovireph_funnel_smallest writes, each also in the state block of the table that is opened with that n. */
enum landovireph_smallest_answer_offset {
    LANDOVIREPH_SMALLEST_N = 0,                /* slots: words take 8n bytes, flags n */
    LANDOVIREPH_SMALLEST_MAXIMUM = 8,          /* the most members, at least the count that was asked for */
    LANDOVIREPH_SMALLEST_LEVELS = 16,
    LANDOVIREPH_SMALLEST_BUCKET = 24,
    LANDOVIREPH_SMALLEST_PRIMARY_PROBES = 32,
    LANDOVIREPH_SMALLEST_FALLBACK_BUCKET = 40,
    LANDOVIREPH_SMALLEST_SPECIAL = 48,
    LANDOVIREPH_SMALLEST_PRIMARY = 56,
    LANDOVIREPH_SMALLEST_FALLBACK = 64,
    LANDOVIREPH_SMALLEST_FALLBACK_BUCKETS = 72,
    LANDOVIREPH_SMALLEST_BUCKETS = 80,
    LANDOVIREPH_SMALLEST_FIRST = 88
};

enum landovireph_place_kind { LANDOVIREPH_ORDINARY = 1, LANDOVIREPH_PRIMARY = 2, LANDOVIREPH_FALLBACK = 3 };

/* landovireph_answer_slot(answer) and so on: what a call has to say. */
LANDOVIREPH_READER(answer_probes, LANDOVIREPH_ANSWER_PROBES)
LANDOVIREPH_READER(answer_kind, LANDOVIREPH_ANSWER_KIND)
LANDOVIREPH_READER(answer_level, LANDOVIREPH_ANSWER_LEVEL)
LANDOVIREPH_READER(answer_bucket, LANDOVIREPH_ANSWER_BUCKET)
LANDOVIREPH_READER(answer_within, LANDOVIREPH_ANSWER_WITHIN)
LANDOVIREPH_READER(answer_slot, LANDOVIREPH_ANSWER_SLOT)
LANDOVIREPH_READER(answer_words, LANDOVIREPH_ANSWER_WORDS)
LANDOVIREPH_READER(answer_placed, LANDOVIREPH_ANSWER_PLACED)
LANDOVIREPH_READER(answer_position, LANDOVIREPH_ANSWER_POSITION)
LANDOVIREPH_READER(answer_mapped, LANDOVIREPH_ANSWER_MAPPED)
LANDOVIREPH_READER(answer_gap, LANDOVIREPH_ANSWER_GAP)
LANDOVIREPH_READER(answer_byte, LANDOVIREPH_ANSWER_BYTE)
LANDOVIREPH_READER(answer_label, LANDOVIREPH_ANSWER_LABEL)
LANDOVIREPH_READER(answer_label_bytes, LANDOVIREPH_ANSWER_LABEL_BYTES)
LANDOVIREPH_READER(answer_image_bytes, LANDOVIREPH_ANSWER_IMAGE_BYTES)
LANDOVIREPH_READER(answer_smallest_n, LANDOVIREPH_SMALLEST_N)
LANDOVIREPH_READER(elastic_answer_paper_probe, LANDOVIREPH_ELASTIC_PAPER_PROBE)
LANDOVIREPH_READER(elastic_answer_case, LANDOVIREPH_ELASTIC_CASE)
LANDOVIREPH_READER(elastic_answer_batch, LANDOVIREPH_ELASTIC_BATCH)
LANDOVIREPH_READER(elastic_answer_free, LANDOVIREPH_ELASTIC_FREE)
LANDOVIREPH_READER(elastic_answer_free_next, LANDOVIREPH_ELASTIC_FREE_NEXT)
LANDOVIREPH_READER(elastic_answer_budget, LANDOVIREPH_ELASTIC_BUDGET)

#undef LANDOVIREPH_READER

/* Whether a funnel search that answered 0 met the identity; else it met a vacancy. */
static inline int landovireph_answer_found(const uint8_t *answer)
{
    return landovireph_get(answer, LANDOVIREPH_ANSWER_FOUND) != 0;
}

/*
 * Funnel tables
 *
 * n from 2 to 2^32, e from 3, word cap 1 to 256 (8 is usual). Not every n has a layout, and there are stretches of hundreds of millions
 * without one: where open answers LAYOUT, ask landovireph_funnel_smallest for the next n that has one.
 *
 *     slot 0                                              n - special           n - fallback            n
 *     | level 0: its buckets | level 1 | .. | last level  | primary slots       | fallback buckets      |
 *
 * A search reads one bucket of each level, slot by slot, then g primary slots, then two fallback buckets in turn. It stops
 * at the identity or at the first vacancy.
 */

/*
 * A fresh table: writes the state block, zeroes words and flags.
 * Refusals: N, ZEROEXP, SIZE, EXPONENT, LAYOUT, LIMITS, STATE.
 */
uint64_t landovireph_funnel_open(uint64_t n, uint32_t e, uint64_t seed, uint64_t word_cap,
                                 uint8_t *state, size_t state_bytes,
                                 uint8_t *words, size_t words_bytes,
                                 uint8_t *flags, size_t flags_bytes,
                                 uint8_t *answer, size_t answer_bytes);

/*
 * How small a table can be: the smallest n from first to last that has a layout and takes count members (its maximum is at least the
 * count); a count of 0 asks for the smallest n with a layout. Answers n and the numbers of its plan; the buckets of each level come with
 * open. It answers at once for every range, and takes no table.
 * Refusals: N (first is below 2), ZEROEXP, SIZE (last is above 2^32), EXPONENT, STATE (the answer block has another length); NONE where
 * the range holds no such n, as where first is above last.
 */
uint64_t landovireph_funnel_smallest(uint64_t count, uint32_t e, uint64_t first, uint64_t last,
                                     uint8_t *answer, size_t answer_bytes);

/*
 * Where an identity is (found 1), or the vacancy where it would be put (found 0). Answers probes, the place (kind, level, bucket,
 * within, slot) and found. Writes the answer block alone. The result is 0 also where the identity is not in the table and a vacancy
 * was met: ask landovireph_answer_found. (An elastic query of such an identity answers ABSENT.)
 * Refusals: 1 to 7; RANGE with words; FULL with probes.
 */
uint64_t landovireph_funnel_search(const uint8_t *state, size_t state_bytes,
                                   const uint8_t *words, size_t words_bytes,
                                   const uint8_t *flags, size_t flags_bytes,
                                   uint64_t identity,
                                   uint8_t *answer, size_t answer_bytes);

/*
 * Enters an identity: writes one word, its flag, and the count in the state block. Answers probes and the place.
 * Refusals: 1 to 7; RANGE with words; DUPLICATE with probes and the place; EXHAUSTED and FULL with probes.
 */
uint64_t landovireph_funnel_insert(uint8_t *state, size_t state_bytes,
                                   uint8_t *words, size_t words_bytes,
                                   uint8_t *flags, size_t flags_bytes,
                                   uint64_t identity,
                                   uint8_t *answer, size_t answer_bytes);

/*
 * A gridder's inner loop: finds or enters many identities, in turn. Identities and slots are words lent as bytes, as `words` is;
 * entry k of slots becomes the slot of entry k of identities, whether it was there or was entered now. The state block is tested
 * once and not for each identity. Entries of slots behind the last identity stay as they were. Answers placed: how many
 * identities have their slot.
 * Refusals: 1 to 7, STATE also where identities or slots is no whole number of words, or slots has fewer entries than
 * identities; then the first refusal that an identity meets: RANGE with words, EXHAUSTED and FULL with probes, each with placed,
 * which is the index of that identity. Those before it are placed, their slots written and counted.
 */
uint64_t landovireph_funnel_place_all(uint8_t *state, size_t state_bytes,
                                      uint8_t *words, size_t words_bytes,
                                      uint8_t *flags, size_t flags_bytes,
                                      const uint8_t *identities, size_t identities_bytes,
                                      uint8_t *slots, size_t slots_bytes,
                                      uint8_t *answer, size_t answer_bytes);

/*
 * Whether some order of insertions into a fresh table leaves exactly these words and flags: 0 where one does, DISORDER where none
 * does. marks is n bytes, order n words lent as bytes. Both answers give placed, write 1 in the marks of the members that can be placed
 * and 0 in all others, and put the slots of the placed first in order, in an order that places them; the rest of order stays.
 * DISORDER also gives slot, the smallest occupied one that cannot be placed. A count of at most n in the state block plays no part.
 * Refusals: 1 to 7, STATE also where marks or order is not n long; DIRTY with slot; DISORDER.
 */
uint64_t landovireph_funnel_check(const uint8_t *state, size_t state_bytes,
                                  const uint8_t *words, size_t words_bytes,
                                  const uint8_t *flags, size_t flags_bytes,
                                  uint8_t *marks, size_t marks_bytes,
                                  uint8_t *order, size_t order_bytes,
                                  uint8_t *answer, size_t answer_bytes);

/*
 * The table from its image: fills words and flags, and sets the count. The table has been opened with the image's n, e and seed.
 * The whole image is read before anything is written. Answers where the label's body begins in the image, and its
 * length; two zeros where there is none. It does not say that the table is one that insertions make: ask the check.
 * Refusals: 1 to 7; IMAGE with the byte place; FOREIGN.
 */
uint64_t landovireph_funnel_load(uint8_t *state, size_t state_bytes,
                                 uint8_t *words, size_t words_bytes,
                                 uint8_t *flags, size_t flags_bytes,
                                 const uint8_t *image, size_t image_bytes,
                                 uint8_t *answer, size_t answer_bytes);

/*
 * The table's image, with a label of up to 64 bytes (length 0: none). Answers the image's length; bytes behind it stay.
 * landovireph_image_bytes says how long a buffer it needs.
 * Refusals: 1 to 7, LIMITS also for a longer label; DIRTY with slot; ROOM with the length that the image needs.
 */
uint64_t landovireph_funnel_write(const uint8_t *state, size_t state_bytes,
                                  const uint8_t *words, size_t words_bytes,
                                  const uint8_t *flags, size_t flags_bytes,
                                  const uint8_t *label, size_t label_bytes,
                                  uint8_t *image, size_t image_bytes,
                                  uint8_t *answer, size_t answer_bytes);

/* The length of the image of a table with so many members and a label of so many bytes. */
static inline uint64_t landovireph_image_bytes(uint64_t members, uint64_t label_bytes)
{
    uint64_t fields = members / 4095 + (members % 4095 != 0 ? 1 : 0);
    return 29 + (label_bytes != 0 ? 3 + label_bytes : 0) + 3 * fields + 16 * members + 11;
}

/*
 * Elastic tables
 *
 * n from 2 to 2^32, e from 1; c at least 1 with c times min(e, 1024) at most 8,192; word cap 1 to 8; search cap 1 to 8,192;
 * position cap 1 to 984,263,340. An insertion reads the whole table for the identity: it is for tables of some thousands of slots.
 */

/*
 * A fresh table: writes the state block, zeroes words and flags.
 * Refusals: N, ZEROEXP, SIZE, LIMITS, STATE.
 */
uint64_t landovireph_elastic_open(uint64_t n, uint32_t e, uint64_t seed, uint64_t c, uint64_t word_cap, uint64_t search_cap,
                                  uint64_t position_cap,
                                  uint8_t *state, size_t state_bytes,
                                  uint8_t *words, size_t words_bytes,
                                  uint8_t *flags, size_t flags_bytes,
                                  uint8_t *answer, size_t answer_bytes);

/*
 * Enters an identity: writes one word, its flag, the count and the count of its level. Answers the case, batch, free slots and
 * budget, the place (level, within, slot), the paper probe and, as position, phi.
 * Refusals: 1 to 3, 6, 7; DUPLICATE with slot, the smallest that holds it; EXHAUSTED; SCHEDULE; RANGE with words or SEARCH, as
 * the steps meet them; POSITION. A table that was opened and changed by insertions alone never answers SCHEDULE: that is proved,
 * in crates/elastic_laws/specs/Never.antt.
 */
uint64_t landovireph_elastic_insert(uint8_t *state, size_t state_bytes,
                                    uint8_t *words, size_t words_bytes,
                                    uint8_t *flags, size_t flags_bytes,
                                    uint64_t identity,
                                    uint8_t *answer, size_t answer_bytes);

/*
 * Where an identity is. Answers position, slot, how many positions up to it were mapped and how many gaps, and the words drawn.
 * Writes the answer block alone.
 * Refusals: 1 to 3, 6, 7; RANGE with words; ABSENT.
 */
uint64_t landovireph_elastic_query(const uint8_t *state, size_t state_bytes,
                                   const uint8_t *words, size_t words_bytes,
                                   const uint8_t *flags, size_t flags_bytes,
                                   uint64_t identity,
                                   uint8_t *answer, size_t answer_bytes);

#ifdef __cplusplus
}
#endif

#endif
