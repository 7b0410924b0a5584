#include "look.h"

#include "landovireph_table.h"
#include "limits.h"
#include "picture.h"
#include "progress.h"

#include <errno.h>
#include <inttypes.h>
#include <stdlib.h>
#include <string.h>
#include <sys/stat.h>

/* What is needed beside tables and images: a small part of this. */
#define SLACK ((uint64_t)1 << 20)

/* n, e and seed, which every well-formed image starts with:
 *     | 01 08 00 | n, 8 bytes | 02 04 00 | e, 4 bytes | 03 08 00 | seed, 8 bytes |
 *     0          3            11         14           18         21              29 */
#define HEADER 29

/* A field's tag and length, and the longest body that they can tell of. */
#define MOST_FIELD 65538

/* The bytes that were read of a file. */
struct bytes {
    uint8_t *at;
    size_t length, room;
};

/* ---- what there is no verdict for */

static void unreadable(struct report *report)
{
    report->verdict = UNREAD;
    snprintf(report->reason, sizeof report->reason, "the file cannot be read: %s", strerror(errno));
}

/* So many bytes are needed for something, and a limit is met. */
static void too_large(struct report *report, const char *what, uint64_t bytes, const struct limit *limit)
{
    report->verdict = UNREAD;
    snprintf(report->reason, sizeof report->reason, "%s needs %" PRIu64 " bytes of memory, and %" PRIu64 " are left of what %s", what, bytes,
             limit->left, limit->whose);
}

static void table_too_large(struct report *report, const struct limit *limit)
{
    char what[64];
    snprintf(what, sizeof what, "a table of %" PRIu64 " slots", report->n);
    too_large(report, what, 18 * report->n + SLACK, limit);
}

/* ---- the form of an image */

/* The loader tests the form of any image, whatever table it is to be loaded into, before it compares the two. So it is asked with
 * the smallest funnel table. Answers whether the form is right, or where not. */
static bool is_well_formed(const uint8_t *image, size_t length, uint64_t *place)
{
    static uint8_t words[8 * 144], flags[144];
    struct landovireph_table smallest;
    if (landovireph_table_open(&smallest, 144, 3, 0, 1, words, flags) != 0)
        return true;
    if (landovireph_table_load(&smallest, image, length) != LANDOVIREPH_REFUSED_IMAGE)
        return true;
    *place = landovireph_answer_byte(smallest.answer);
    return false;
}

static void malformed(struct report *report, const uint8_t *bytes, size_t length, uint64_t place)
{
    report->verdict = REFUSED;
    report->has_numbers = false;
    report->refusal = LANDOVIREPH_REFUSED_IMAGE;
    report->place = place;
    report->byte = place < length ? bytes[place] : -1;
}

/* ---- reading */

/* The first bytes, and whether they are right as far as they go: n, e and seed, of a table that exists. */
static bool read_header(FILE *stream, const struct look *look, uint8_t *header, struct report *report)
{
    size_t got = fread(header, 1, HEADER, stream);
    uint64_t place;
    if (ferror(stream)) {
        unreadable(report);
        return false;
    }
    if (!is_well_formed(header, got, &place) && (got < HEADER || place < HEADER)) {
        malformed(report, header, got, place);
        return false;
    }
    report->has_numbers = true;
    report->n = landovireph_get(header, 3);
    report->e = (uint32_t)landovireph_get(header, 14);
    report->seed = landovireph_get(header, 21);
    report->refusal = landovireph_table_exists(report->n, report->e, look->word_cap);
    if (report->refusal != 0)
        report->verdict = REFUSED;
    return report->refusal == 0;
}

/* Room for all of a file whose length is known, else for twice as much as before. */
static bool has_room(FILE *stream, struct bytes *bytes, size_t most)
{
    struct stat about;
    size_t room = bytes->room == 0 ? (size_t)1 << 16 : 2 * bytes->room;
    uint8_t *more;
    if (bytes->length < bytes->room)
        return true;
    if (bytes->room <= HEADER && fstat(fileno(stream), &about) == 0 && S_ISREG(about.st_mode))
        room = (size_t)about.st_size + 1 > HEADER ? (size_t)about.st_size + 1 : HEADER + 1;
    if (room > most)
        room = most;
    more = realloc(bytes->at, room);
    if (more == NULL)
        return false;
    bytes->at = more;
    bytes->room = room;
    return true;
}

/* The rest of the file, but no more than `most` bytes in all. */
static bool read_rest(FILE *stream, struct bytes *bytes, size_t most, struct report *report, const struct limit *limit)
{
    size_t got = 1;
    while (got != 0 && bytes->length < most) {
        if (!has_room(stream, bytes, most)) {
            too_large(report, "the file", bytes->length, limit);
            return false;
        }
        got = fread(bytes->at + bytes->length, 1, bytes->room - bytes->length, stream);
        bytes->length += got;
    }
    if (ferror(stream))
        unreadable(report);
    return !ferror(stream);
}

/* An image of n slots has no more bytes than these, and in a longer file a field is wrong that begins among them: so the bytes that
 * decide about its form are among these and one field's. */
static uint64_t most_bytes(uint64_t n)
{
    return landovireph_image_bytes(n, 64) + MOST_FIELD;
}

/* All of the file that counts, or the reason why there is no verdict, or what is wrong with its form. */
static bool read_image(FILE *stream, struct bytes *bytes, struct report *report, const struct limit *limit)
{
    uint64_t most = most_bytes(report->n), left = limit->left - 9 * report->n - SLACK, place;
    bool right;
    start_progress("reading");
    right = read_rest(stream, bytes, (size_t)(most < left ? most : left), report, limit);
    if (right && bytes->length == left && left < most) {
        too_large(report, "an image that is as long as this file", 9 * report->n + SLACK + left + 1, limit);
        right = false;
    }
    if (right && !is_well_formed(bytes->at, bytes->length, &place)) {
        malformed(report, bytes->at, bytes->length, place);
        right = false;
    }
    stop_progress();
    return right;
}

/* ---- the table */

static uint64_t occupied(const struct landovireph_table *table, uint64_t from, uint64_t before)
{
    uint64_t count = 0;
    for (; from < before; from++)
        count += table->flags[from] != 0;
    return count;
}

static void tell_table(struct report *report, const struct landovireph_table *table, const struct bytes *image)
{
    uint64_t primary = table->n - landovireph_get(table->state, LANDOVIREPH_STATE_SPECIAL);
    uint64_t fallback = primary + landovireph_get(table->state, LANDOVIREPH_STATE_PRIMARY);
    report->has_table = true;
    report->label_bytes = (size_t)landovireph_answer_label_bytes(table->answer);
    memcpy(report->label, image->at + landovireph_answer_label(table->answer), report->label_bytes);
    report->members = landovireph_state_count(table->state);
    report->maximum = landovireph_state_maximum(table->state);
    report->ordinary = occupied(table, 0, primary);
    report->primary = occupied(table, primary, fallback);
    report->fallback = occupied(table, fallback, table->n);
}

/* A search finds the member in its slot. Then the maximum was placed before it, or a slot that its search passes holds a member
 * that could not be placed either: over the placed part, whose flags are the marks, the search stops there. */
static enum ending reached(struct report *report, struct landovireph_table *table, const uint8_t *marks)
{
    uint64_t refused;
    if (report->maximum <= report->placed)
        return BEYOND;
    refused = landovireph_funnel_search(table->state, sizeof table->state, table->words, 8 * table->n, marks, table->n, report->identity,
                                        table->answer, sizeof table->answer);
    if (refused != 0 || landovireph_answer_found(table->answer))
        return UNPLACED;
    report->stop = landovireph_answer_slot(table->answer);
    return REACHED;
}

/* What a search of the whole table for the first unplaced member meets. */
static enum ending searched(struct report *report, struct landovireph_table *table, const uint8_t *marks)
{
    uint64_t refused = landovireph_table_search(table, report->identity);
    report->stop = landovireph_answer_slot(table->answer);
    report->words = landovireph_answer_words(table->answer);
    if (refused == LANDOVIREPH_REFUSED_FULL)
        return MISSED;
    if (refused == LANDOVIREPH_REFUSED_RANGE)
        return NOT_DRAWN;
    if (refused != 0)
        return OTHER;
    if (!landovireph_answer_found(table->answer))
        return STOPPED;
    return report->stop != report->slot ? TWICE : reached(report, table, marks);
}

static void tell_verdict(struct report *report, struct landovireph_table *table, const uint8_t *marks, uint64_t refused)
{
    report->slot = landovireph_answer_slot(table->answer);
    if (refused == 0) {
        report->verdict = ACCEPTED;
    } else if (refused == LANDOVIREPH_REFUSED_DIRTY) {
        report->verdict = DIRTY;
    } else if (refused == LANDOVIREPH_REFUSED_DISORDER) {
        report->verdict = DISORDERED;
        report->placed = landovireph_answer_placed(table->answer);
        report->identity = landovireph_get(table->words, 8 * report->slot);
        report->ending = searched(report, table, marks);
    } else {
        report->verdict = REFUSED;
        report->refusal = refused;
    }
}

/* The check of a loaded table, and its picture. */
static bool check(struct report *report, const struct look *look, struct landovireph_table *table, const struct limit *limit)
{
    uint8_t *marks = malloc(table->n), *order = malloc(8 * table->n);
    bool drawn = true;
    if (marks == NULL || order == NULL) {
        table_too_large(report, limit);
    } else {
        uint64_t refused;
        start_progress("checking");
        refused = landovireph_table_check(table, marks, order);
        stop_progress();
        tell_verdict(report, table, marks, refused);
    }
    free(order);
    if (look->picture != NULL && report->verdict <= DISORDERED)
        drawn = draw(look->picture, report, table, marks);
    free(marks);
    return drawn;
}

/* Loads the image into a table of its own numbers, gives its bytes back, and goes on. */
static bool look_at_table(struct report *report, const struct look *look, struct bytes *image, const struct limit *limit)
{
    struct landovireph_table table;
    uint8_t *words = malloc(8 * report->n), *flags = malloc(report->n);
    bool drawn = true;
    if (words == NULL || flags == NULL) {
        table_too_large(report, limit);
    } else {
        start_progress("loading");
        report->refusal = landovireph_table_open(&table, report->n, report->e, report->seed, look->word_cap, words, flags);
        if (report->refusal == 0)
            report->refusal = landovireph_table_load(&table, image->at, image->length);
        stop_progress();
        report->verdict = REFUSED;
        if (report->refusal == 0) {
            tell_table(report, &table, image);
            free(image->at);
            image->at = NULL;
            drawn = check(report, look, &table, limit);
        }
    }
    free(words);
    free(flags);
    return drawn;
}

static bool look_at_stream(FILE *stream, const struct look *look, struct report *report)
{
    uint8_t header[HEADER];
    struct bytes image = { NULL, 0, 0 };
    struct limit limit;
    bool drawn = true;
    if (!read_header(stream, look, header, report))
        return true;
    limit = limit_of_memory(&limit_files_of_linux);
    if (18 * report->n + SLACK > limit.left) {
        table_too_large(report, &limit);
        return true;
    }
    image.at = malloc(HEADER);
    if (image.at == NULL) {
        table_too_large(report, &limit);
        return true;
    }
    memcpy(image.at, header, HEADER);
    image.length = image.room = HEADER;
    if (read_image(stream, &image, report, &limit))
        drawn = look_at_table(report, look, &image, &limit);
    free(image.at);
    return drawn;
}

bool look_at(const char *file, const struct look *look, struct report *report)
{
    bool standard = strcmp(file, "-") == 0, drawn = true;
    FILE *stream = standard ? stdin : fopen(file, "rb");
    memset(report, 0, sizeof *report);
    report->file = file;
    if (stream == NULL) {
        unreadable(report);
    } else {
        drawn = look_at_stream(stream, look, report);
        if (!standard)
            fclose(stream);
    }
    if (look->picture != NULL && report->verdict > DISORDERED)
        fprintf(stderr, "examine: no picture is drawn: there is no table to draw\n");
    return drawn;
}
