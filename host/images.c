/* The commands of replay on images and their check: LOAD, WRITE and CHECK. What the calls must leave as it was is tested here:
 * CHANGED stands behind an answer where they did not. */
#include "replay.h"

#include <inttypes.h>
#include <stdio.h>
#include <stdlib.h>
#include <string.h>

/* A copy of all that a call is lent of a table, to see what it left. */
static void copy_table(struct landovireph_table *copy, const struct landovireph_table *table)
{
    *copy = *table;
    copy->words = must_have(8 * table->n);
    copy->flags = must_have(table->n);
    memcpy(copy->words, table->words, 8 * table->n);
    memcpy(copy->flags, table->flags, table->n);
}

static void say_unless(bool unchanged)
{
    if (!unchanged)
        printf(" CHANGED");
}

static bool is_filled(const uint8_t *bytes, size_t from, size_t to, uint8_t with)
{
    for (; from < to; from++)
        if (bytes[from] != with)
            return false;
    return true;
}

/* A refusal, with the slot of DIRTY or the byte place of IMAGE. */
static void print_refused(const struct landovireph_table *table, uint64_t refused)
{
    printf("R %" PRIu64, refused);
    if (refused == LANDOVIREPH_REFUSED_DIRTY)
        printf(" %" PRIu64, said(table, LANDOVIREPH_ANSWER_SLOT));
    if (refused == LANDOVIREPH_REFUSED_IMAGE)
        printf(" %" PRIu64, said(table, LANDOVIREPH_ANSWER_BYTE));
}

static void fill_for_loading(struct landovireph_table *table)
{
    uint64_t slot;
    for (slot = 0; slot < table->n; slot++)
        table_set(table, slot, slot + 1, 1);
}

static void print_loaded(struct landovireph_table *table, const uint8_t *image, size_t length)
{
    struct landovireph_table before;
    uint64_t refused;
    copy_table(&before, table);
    refused = landovireph_table_load(table, image, length);
    if (refused == 0) {
        printf("OK %" PRIu64 " %" PRIu64 " %" PRIu64 " %016" PRIx64, said(table, LANDOVIREPH_ANSWER_LABEL),
               said(table, LANDOVIREPH_ANSWER_LABEL_BYTES), landovireph_state_count(table->state), table_digest(table));
    } else {
        print_refused(table, refused);
        say_unless(same_table(table, &before));
    }
    table_close(&before);
}

bool answer_load(struct given given)
{
    struct numbers numbers;
    struct landovireph_table table;
    uint8_t *image;
    size_t length;
    if (!take_funnel(&given, &numbers) || given.count != 1)
        return false;
    image = must_have(given.fields[0].length / 2);
    if (!field_bytes(given.fields[0], image, &length)) {
        free(image);
        return false;
    }
    if (open_or_say(&table, &numbers)) {
        fill_for_loading(&table);
        print_loaded(&table, image, length);
        table_close(&table);
    }
    free(image);
    return true;
}

static bool are_entries(struct given entries, uint64_t n)
{
    struct entry entry;
    size_t i;
    for (i = 0; i < entries.count; i++)
        if (!field_entry(entries.fields[i], n, &entry))
            return false;
    return true;
}

static void set_entries(struct landovireph_table *table, struct given entries)
{
    struct entry entry;
    size_t i;
    for (i = 0; i < entries.count; i++)
        if (field_entry(entries.fields[i], table->n, &entry))
            table_set(table, entry.slot, entry.identity, entry.flag);
}

/* What a table is to be written with. */
struct writing {
    uint8_t *label;
    size_t label_length;
    uint64_t room;
};

/* What is in a buffer that a call is to write, before it does. */
#define UNWRITTEN 0xA5

static void print_written(struct landovireph_table *table, struct writing writing)
{
    struct landovireph_table before;
    uint8_t *image = must_have(writing.room);
    uint64_t refused, length = 0, i;
    copy_table(&before, table);
    memset(image, UNWRITTEN, writing.room);
    refused = landovireph_table_write(table, writing.label, writing.label_length, image, writing.room);
    if (refused == 0) {
        length = said(table, LANDOVIREPH_ANSWER_IMAGE_BYTES);
        printf("OK %" PRIu64 " ", length);
        for (i = 0; i < length; i++)
            printf("%02x", image[i]);
    } else {
        print_refused(table, refused);
    }
    say_unless(same_table(table, &before) && is_filled(image, length, writing.room, UNWRITTEN));
    table_close(&before);
    free(image);
}

/* A label that is too long is LIMITS, which comes before what bounds this program. */
static void write_opened(const struct numbers *numbers, struct writing writing, struct given entries)
{
    struct landovireph_table table;
    uint64_t refused = table_open(&table, numbers, bounds.slots);
    bool too_large = refused == TABLE_TOO_LARGE || writing.room > bounds.room;
    if (refused != 0 && refused != TABLE_TOO_LARGE) {
        printf("R %" PRIu64, refused);
    } else if (too_large && writing.label_length > 64) {
        printf("R %d", LANDOVIREPH_REFUSED_LIMITS);
    } else if (too_large) {
        printf("L");
    } else {
        set_entries(&table, entries);
        print_written(&table, writing);
    }
    if (refused == 0)
        table_close(&table);
}

bool answer_write(struct given given)
{
    struct numbers numbers;
    struct writing writing;
    struct field label;
    bool right;
    if (!take_funnel(&given, &numbers) || given.count == 0)
        return false;
    label = *given.fields++;
    given.count--;
    if (!take_word(&given, &writing.room) || !are_entries(given, numbers.n))
        return false;
    writing.label = must_have(label.length / 2);
    right = field_bytes(label, writing.label, &writing.label_length);
    if (right)
        write_opened(&numbers, writing, given);
    free(writing.label);
    return right;
}

static void print_order(const uint8_t *order, uint64_t placed)
{
    uint64_t k;
    for (k = 0; k < placed; k++)
        printf("%s%" PRIu64, k == 0 ? " " : ",", landovireph_get(order, 8 * k));
    if (placed == 0)
        printf(" -");
}

/* Marks are 1 at the slots of the order and 0 elsewhere; the tail of the order is as it was. */
static bool marks_agree(const uint8_t *marks, const uint8_t *order, uint64_t placed, uint64_t n)
{
    uint64_t k, ones = 0;
    for (k = 0; k < n; k++) {
        if (marks[k] > 1)
            return false;
        ones += marks[k];
    }
    for (k = 0; k < placed; k++)
        if (landovireph_get(order, 8 * k) >= n || marks[landovireph_get(order, 8 * k)] != 1)
            return false;
    return ones == placed && is_filled(order, 8 * placed, 8 * n, 255);
}

/* Both endings of a check: how many were placed, of DISORDER the slot, and the order. */
static void print_ending(const struct landovireph_table *table, uint64_t refused, const uint8_t *order)
{
    uint64_t placed = landovireph_answer_placed(table->answer);
    printf(refused == 0 ? "OK %" PRIu64 : "R 23 %" PRIu64, placed);
    if (refused != 0)
        printf(" %" PRIu64, said(table, LANDOVIREPH_ANSWER_SLOT));
    print_order(order, placed);
}

static void print_checked(struct landovireph_table *table)
{
    struct landovireph_table before;
    uint8_t *marks = must_have(table->n), *order = must_have(8 * table->n);
    uint64_t refused;
    bool right;
    copy_table(&before, table);
    memset(marks, 9, table->n);
    memset(order, 255, 8 * table->n);
    refused = landovireph_table_check(table, marks, order);
    if (refused == 0 || refused == LANDOVIREPH_REFUSED_DISORDER) {
        print_ending(table, refused, order);
        right = marks_agree(marks, order, landovireph_answer_placed(table->answer), table->n);
    } else {
        print_refused(table, refused);
        right = is_filled(marks, 0, table->n, 9) && is_filled(order, 0, 8 * table->n, 255);
    }
    say_unless(right && same_table(table, &before));
    table_close(&before);
    free(marks);
    free(order);
}

bool answer_check(struct given given)
{
    struct numbers numbers;
    struct landovireph_table table;
    uint64_t count;
    if (!take_funnel(&given, &numbers) || !take_word(&given, &count) || !are_entries(given, numbers.n))
        return false;
    if (!open_or_say(&table, &numbers))
        return true;
    set_entries(&table, given);
    landovireph_put(table.state, LANDOVIREPH_STATE_COUNT, count);
    print_checked(&table);
    table_close(&table);
    return true;
}
