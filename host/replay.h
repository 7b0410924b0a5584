/* What the commands of replay share. */
#ifndef HOST_REPLAY_H
#define HOST_REPLAY_H

#include "line.h"
#include "table.h"

/* What is answered L: a longer line, a table of more slots, more room for an image. */
struct bounds {
    size_t line;
    uint64_t slots, room;
};

extern struct bounds bounds;

/* The fields of a command that are still to be read. */
struct given {
    const struct field *fields;
    size_t count;
};

/* Each reads the next field, and answers whether there is one of that form. */
bool take_word(struct given *given, uint64_t *value);
bool take_half_word(struct given *given, uint32_t *value);
/* The same for the numbers that a table is opened with. */
bool take_funnel(struct given *given, struct numbers *numbers);
bool take_elastic(struct given *given, struct numbers *numbers);

/* Opens the table, or prints why there is none. */
bool open_or_say(struct landovireph_table *table, const struct numbers *numbers);

/* Numbers of the answer block, each with a space before it. */
void print_said(const struct landovireph_table *table, const size_t *offsets, size_t count);

/* The answer of a call that is a word alone. */
uint64_t said(const struct landovireph_table *table, size_t offset);

/* Whether two tables of one size have the same bytes. */
bool same_table(const struct landovireph_table *a, const struct landovireph_table *b);

/* Each prints the answer to a command, or answers false where its fields are of another form. */
bool answer_funnel_layout(struct given given);
bool answer_smallest(struct given given);
bool answer_funnel_run(struct given given);
bool answer_funnel_bulk(struct given given);
bool answer_elastic_run(struct given given);
bool answer_elastic_bulk(struct given given);
bool answer_load(struct given given);
bool answer_write(struct given given);
bool answer_check(struct given given);

#endif
