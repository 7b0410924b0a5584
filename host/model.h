/*
 * The calls on funnel tables once more, written from the rules alone (their words stand quoted at each step): no line of it comes from the
 * crates. It is plain and slow, and meant to be read beside the rules. guard holds every answer and byte of
 * the library's calls against it.
 *
 * Each function does to what it is lent what the call of its name has to do, and answers what it has to answer.
 */
#ifndef HOST_MODEL_H
#define HOST_MODEL_H

#include <stddef.h>
#include <stdint.h>

struct span {
    uint8_t *at;
    size_t length;
};

struct lent {
    struct span state, words, flags, answer;
};

/* The state block of a fresh table, by itself. */
uint64_t model_state(uint64_t n, uint32_t e, uint64_t seed, uint64_t word_cap, uint8_t *state);

uint64_t model_open(uint64_t n, uint32_t e, uint64_t seed, uint64_t word_cap, struct lent lent);
uint64_t model_search(struct lent lent, uint64_t identity);
uint64_t model_insert(struct lent lent, uint64_t identity);
uint64_t model_place_all(struct lent lent, struct span identities, struct span slots);
uint64_t model_check(struct lent lent, struct span marks, struct span order);
uint64_t model_load(struct lent lent, struct span image);
uint64_t model_write(struct lent lent, struct span label, struct span image);

#endif
