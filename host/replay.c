/*
 * replay: answers the lines of the protocol over the exported calls, with tables of any size.
 *
 *     replay [--bounded] < commands > answers
 *
 * One command a line, one answer a line, as the program `replay` of this repository and the oracle answer them; oracle/README.md
 * has the forms. --bounded answers L where those do: a line of more than 524,288 bytes, a table of more than 65,536 slots, a room
 * above 1,048,576. Without it L means that this machine's memory does not hold the table. The counts of buckets in the answer to SN are
 * those of a table that is opened: where it is too large, L stands in their place.
 *
 * Commands on parts that no exported call gives (layouts of elastic tables, the lower bound on layouts, probes, phi, budget) are answered
 * `no call`.
 * What the calls must leave as it was is tested on the way: CHANGED stands behind an answer where they did not. A bulk run is made a
 * second time by placing many identities at a time: DIFFERS stands behind its answer where that leaves another table.
 * Exit status: 0; 2 for a wrong argument, or where reading or writing fails; 3 where there is no memory.
 */
#include "replay.h"

#include <errno.h>
#include <inttypes.h>
#include <stdio.h>
#include <stdlib.h>
#include <string.h>

struct bounds bounds;

bool take_word(struct given *given, uint64_t *value)
{
    if (given->count == 0 || !field_word(given->fields[0], value))
        return false;
    given->fields++;
    given->count--;
    return true;
}

bool take_half_word(struct given *given, uint32_t *value)
{
    uint64_t wide;
    if (!take_word(given, &wide) || wide > UINT32_MAX)
        return false;
    *value = (uint32_t)wide;
    return true;
}

bool take_funnel(struct given *given, struct numbers *numbers)
{
    memset(numbers, 0, sizeof *numbers);
    numbers->kind = LANDOVIREPH_KIND_FUNNEL;
    return take_word(given, &numbers->n) && take_half_word(given, &numbers->e) && take_word(given, &numbers->seed) &&
           take_word(given, &numbers->word_cap);
}

bool take_elastic(struct given *given, struct numbers *numbers)
{
    numbers->kind = LANDOVIREPH_KIND_ELASTIC;
    return take_word(given, &numbers->n) && take_half_word(given, &numbers->e) && take_word(given, &numbers->seed) &&
           take_word(given, &numbers->c) && take_word(given, &numbers->word_cap) && take_word(given, &numbers->search_cap) &&
           take_word(given, &numbers->position_cap);
}

bool open_or_say(struct landovireph_table *table, const struct numbers *numbers)
{
    uint64_t refused = table_open(table, numbers, bounds.slots);
    if (refused == TABLE_TOO_LARGE)
        printf("L");
    else if (refused != 0)
        printf("R %" PRIu64, refused);
    return refused == 0;
}

uint64_t said(const struct landovireph_table *table, size_t offset)
{
    return landovireph_get(table->answer, offset);
}

void print_said(const struct landovireph_table *table, const size_t *offsets, size_t count)
{
    size_t i;
    for (i = 0; i < count; i++)
        printf(" %" PRIu64, said(table, offsets[i]));
}

bool same_table(const struct landovireph_table *a, const struct landovireph_table *b)
{
    return memcmp(a->state, b->state, sizeof a->state) == 0 && memcmp(a->words, b->words, 8 * a->n) == 0 &&
           memcmp(a->flags, b->flags, a->n) == 0;
}

struct command {
    const char *word;
    bool (*answer)(struct given given);
};

static const struct command commands[] = {
    { "FL", answer_funnel_layout }, { "FRUN", answer_funnel_run },   { "FBULK", answer_funnel_bulk },
    { "LOAD", answer_load },        { "WRITE", answer_write },       { "CHECK", answer_check },
    { "ERUN", answer_elastic_run }, { "EBULK", answer_elastic_bulk }, { "SN", answer_smallest },
};

/* Commands of the protocol that no exported call answers, with the number of their fields. */
struct uncalled {
    const char *word;
    size_t count;
};

static const struct uncalled uncalled[] = {
    { "EL", 2 }, { "MIX", 1 }, { "EP", 3 },  { "FP", 4 },  { "EW", 5 },    { "FW", 6 },
    { "ER", 6 }, { "FR", 7 },  { "PHI", 2 }, { "PHB", 2 }, { "PHINV", 1 }, { "BUD", 4 },
    { "MS", 2 },
};

static bool answer_uncalled(struct field word, struct given given)
{
    size_t i;
    for (i = 0; i < given.count; i++)
        if (!field_is_number(given.fields[i]))
            return false;
    for (i = 0; i < sizeof uncalled / sizeof uncalled[0]; i++)
        if (field_is(word, uncalled[i].word) && given.count == uncalled[i].count) {
            printf("no call");
            return true;
        }
    return false;
}

static bool answer_command(const struct fields *fields)
{
    struct given given = { fields->list + 1, fields->count - 1 };
    size_t i;
    for (i = 0; i < sizeof commands / sizeof commands[0]; i++)
        if (field_is(fields->list[0], commands[i].word))
            return commands[i].answer(given);
    return answer_uncalled(fields->list[0], given);
}

static void answer_line(struct fields *fields, const char *line, size_t length)
{
    if (length > bounds.line)
        printf("L");
    else if (!line_fields(fields, line, length) || !answer_command(fields))
        printf("?");
    putchar('\n');
}

/* Answers lines up to the end of the input, or to the first answer that cannot be written. */
static void answer_lines(void)
{
    struct fields fields = { NULL, 0, 0 };
    char *line = NULL;
    size_t room = 0;
    ssize_t length;
    errno = 0;
    while (!ferror(stdout) && (length = getline(&line, &room, stdin)) != -1) {
        if (line[length - 1] == '\n')
            length--;
        answer_line(&fields, line, (size_t)length);
    }
    free(line);
    free(fields.list);
}

static int complain(const char *what)
{
    fprintf(stderr, "replay: %s: %s\n", what, strerror(errno));
    return 2;
}

int main(int count, char **words)
{
    bool bounded = count == 2 && strcmp(words[1], "--bounded") == 0;
    if (count > 1 && !bounded) {
        fprintf(stderr, "usage: replay [--bounded] < commands > answers\n");
        return 2;
    }
    bounds.line = bounded ? 524288 : SIZE_MAX;
    bounds.slots = bounded ? 65536 : table_most_slots();
    bounds.room = bounded ? 1048576 : table_most_slots();
    answer_lines();
    if (ferror(stdout) || fflush(stdout) != 0)
        return complain("the answers cannot be written");
    if (!feof(stdin))
        return complain("the commands cannot be read");
    return 0;
}
