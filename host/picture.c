#include "picture.h"

#include <errno.h>
#include <inttypes.h>
#include <math.h>
#include <stdlib.h>
#include <string.h>
#include <sys/stat.h>
#include <unistd.h>

/* The page, in pixels: names at the left, bands in the middle, numbers at the right. */
#define WIDTH 960
#define LEFT 104
#define ACROSS 660
#define RIGHT (LEFT + ACROSS + 16)
#define TOP 104
#define GAP 8.0

/* A slot of its own is at least so wide; where there is less room, a cell stands for several. */
#define NARROWEST 4.0

#define VACANT "#e3e8ef"
#define PLACED "#2b6cb0"
#define UNPLACED "#dd6b20"
#define INK "#1a202c"
#define PALE "#4a5568"

struct page {
    FILE *to;
    const struct report *report;
    const struct landovireph_table *table;
    const uint8_t *marks;
    uint64_t longest; /* slots of the longest band */
    double y, height; /* where the next band begins, and how high it is */
};

/* A level, the primary part or the fallback part. */
struct band {
    uint64_t from, slots, bucket;
    double x, width;
};

/* Members of a cell. */
struct count {
    uint64_t slots, placed, unplaced;
};

/* ---- text */

/* Escaped as in the lines, and then for XML. */
static void xml_text(FILE *to, const uint8_t *bytes, size_t length)
{
    size_t i;
    for (i = 0; i < length; i++) {
        if (bytes[i] < 32 || bytes[i] > 126)
            fprintf(to, "\\x%02x", bytes[i]);
        else if (bytes[i] == '&' || bytes[i] == '<' || bytes[i] == '>')
            fprintf(to, "&#%d;", bytes[i]);
        else if (bytes[i] == '"' || bytes[i] == '\\')
            fprintf(to, "\\&#%d;", bytes[i]);
        else
            putc(bytes[i], to);
    }
}

static void begin_text(struct page *page, double x, double y, const char *more)
{
    fprintf(page->to, "<text x=\"%.1f\" y=\"%.1f\"%s>", x, y, more);
}

static void end_text(struct page *page)
{
    fprintf(page->to, "</text>\n");
}

static void draw_head(struct page *page)
{
    const struct report *report = page->report;
    begin_text(page, 24, 34, " class=\"head\"");
    xml_text(page->to, (const uint8_t *)report->file, strlen(report->file));
    end_text(page);
    begin_text(page, 24, 56, "");
    report_verdict(page->to, report);
    end_text(page);
    begin_text(page, 24, 76, " class=\"pale\"");
    fprintf(page->to, "%" PRIu64 " slots, e %" PRIu32 ", seed %" PRIu64 ", ", report->n, report->e, report->seed);
    if (report->label_bytes != 0) {
        fprintf(page->to, "label &#34;");
        xml_text(page->to, report->label, report->label_bytes);
        fprintf(page->to, "&#34;, ");
    }
    fprintf(page->to, "%" PRIu64 " members of at most %" PRIu64, report->members, report->maximum);
    end_text(page);
}

/* ---- bands */

static void draw_box(struct page *page, double x, double y, double width, double height, const char *colour)
{
    fprintf(page->to, "<rect x=\"%.1f\" y=\"%.1f\" width=\"%.1f\" height=\"%.1f\" fill=\"%s\"/>\n", x, y, width, height, colour);
}

static struct count count_slots(const struct page *page, uint64_t from, uint64_t before)
{
    struct count count = { before - from, 0, 0 };
    for (; from < before; from++)
        if (page->table->flags[from] != 0) {
            count.placed += page->marks[from] != 0;
            count.unplaced += page->marks[from] == 0;
        }
    return count;
}

/* The members of a cell from below, the unplaced above the placed; these are never too few to be seen. */
static void draw_count(struct page *page, struct count count, double x, double width)
{
    double placed = page->height * (double)count.placed / (double)count.slots;
    double unplaced = page->height * (double)count.unplaced / (double)count.slots, bottom = page->y + page->height;
    if (count.unplaced != 0 && unplaced < 3.0)
        unplaced = 3.0;
    if (placed + unplaced > page->height)
        placed = page->height - unplaced;
    if (placed > 0.0)
        draw_box(page, x, bottom - placed, width, placed, PLACED);
    if (unplaced > 0.0)
        draw_box(page, x, bottom - placed - unplaced, width, unplaced, UNPLACED);
}

/* The cells of a band: a slot each, or as many as there is room for. */
static uint64_t cells_of(const struct band *band)
{
    uint64_t room = (uint64_t)(band->width / NARROWEST);
    return band->slots <= room ? band->slots : room;
}

/* Slots of their own stand apart, buckets somewhat more. */
static void draw_slots(struct page *page, const struct band *band)
{
    double width = band->width / (double)band->slots;
    uint64_t k;
    for (k = 0; k < band->slots; k++) {
        double apart = (k + 1) % band->bucket == 0 ? 2.0 : 0.7, x = band->x + width * (double)k;
        struct count count = count_slots(page, band->from + k, band->from + k + 1);
        draw_box(page, x, page->y, width - apart, page->height, VACANT);
        draw_count(page, count, x, width - apart);
    }
}

static bool alike(struct count a, struct count b)
{
    return a.placed * b.slots == b.placed * a.slots && a.unplaced * b.slots == b.unplaced * a.slots;
}

/* Neighbours that are alike are drawn as one. */
static void draw_cells(struct page *page, const struct band *band)
{
    uint64_t cells = cells_of(band), k, first = 0;
    double width = band->width / (double)cells;
    struct count run = { 1, 0, 0 };
    draw_box(page, band->x, page->y, band->width, page->height, VACANT);
    for (k = 0; k <= cells; k++) {
        struct count count = { 1, 0, 0 };
        if (k < cells)
            count = count_slots(page, band->from + k * band->slots / cells, band->from + (k + 1) * band->slots / cells);
        if (k == 0)
            run = count;
        if (k == cells || !alike(run, count)) {
            draw_count(page, run, band->x + width * (double)first, width * (double)(k - first));
            first = k;
            run = count;
        }
    }
}

/* A triangle at a slot of the band, above it and pointing down, or below it and pointing up. */
static void draw_mark(struct page *page, const struct band *band, uint64_t slot, bool above, const char *colour)
{
    uint64_t cells = cells_of(band);
    double x = band->x + band->width * ((double)((slot - band->from) * cells / band->slots) + 0.5) / (double)cells;
    double tip = above ? page->y : page->y + page->height, base = above ? tip - 7.0 : tip + 7.0;
    fprintf(page->to, "<path d=\"M%.1f %.1f L%.1f %.1f L%.1f %.1f Z\" fill=\"%s\"/>\n", x, tip, x - 5.0, base, x + 5.0, base, colour);
}

static bool holds(const struct band *band, uint64_t slot)
{
    return slot >= band->from && slot - band->from < band->slots;
}

static void draw_band(struct page *page, const char *name, uint64_t from, uint64_t slots, uint64_t bucket)
{
    struct band band = { from, slots, bucket, 0.0, ACROSS * sqrt((double)slots / (double)page->longest) };
    struct count all = count_slots(page, from, from + slots);
    double middle = page->y + page->height / 2.0 + 4.0;
    if (band.width < 24.0)
        band.width = 24.0;
    band.x = LEFT + (ACROSS - band.width) / 2.0;
    begin_text(page, LEFT - 14, middle, " text-anchor=\"end\"");
    fprintf(page->to, "%s", name);
    end_text(page);
    if (cells_of(&band) == slots)
        draw_slots(page, &band);
    else
        draw_cells(page, &band);
    if (*report_stop(page->report) != 0 && holds(&band, page->report->stop))
        draw_mark(page, &band, page->report->stop, true, INK);
    if (page->report->verdict == DISORDERED && holds(&band, page->report->slot))
        draw_mark(page, &band, page->report->slot, false, UNPLACED);
    begin_text(page, RIGHT, middle, " class=\"pale\"");
    fprintf(page->to, "%" PRIu64 " of %" PRIu64 ", %.1f %%", all.placed + all.unplaced, slots,
            100.0 * (double)(all.placed + all.unplaced) / (double)slots);
    end_text(page);
    page->y += page->height + GAP;
}

static uint64_t numbers_of(const struct page *page, size_t offset)
{
    return landovireph_get(page->table->state, offset);
}

static uint64_t slots_of_level(const struct page *page, uint64_t level)
{
    return numbers_of(page, LANDOVIREPH_STATE_COUNTS + 8 * level) * numbers_of(page, LANDOVIREPH_STATE_BUCKET);
}

static void draw_bands(struct page *page)
{
    uint64_t levels = numbers_of(page, LANDOVIREPH_STATE_LEVELS), primary = numbers_of(page, LANDOVIREPH_STATE_PRIMARY);
    uint64_t fallback = numbers_of(page, LANDOVIREPH_STATE_FALLBACK), from = 0, level;
    char name[32];
    page->longest = primary > fallback ? primary : fallback;
    for (level = 0; level < levels; level++)
        if (slots_of_level(page, level) > page->longest)
            page->longest = slots_of_level(page, level);
    for (level = 0; level < levels; level++) {
        snprintf(name, sizeof name, "level %" PRIu64, level);
        draw_band(page, name, from, slots_of_level(page, level), numbers_of(page, LANDOVIREPH_STATE_BUCKET));
        from += slots_of_level(page, level);
    }
    page->y += 24.0;
    begin_text(page, LEFT + ACROSS / 2.0, page->y - 10.0, " class=\"pale\" text-anchor=\"middle\"");
    fprintf(page->to, "special part");
    end_text(page);
    draw_band(page, "primary", from, primary, 1);
    draw_band(page, "fallback", from + primary, fallback, numbers_of(page, LANDOVIREPH_STATE_FALLBACK_BUCKET));
}

/* ---- what the colours and marks are */

static void draw_key(struct page *page, double x, const char *colour, const char *name)
{
    draw_box(page, x, page->y - 10.0, 12.0, 12.0, colour);
    begin_text(page, x + 18.0, page->y, "");
    fprintf(page->to, "%s", name);
    end_text(page);
}

static void draw_named(struct page *page, bool down, const char *colour, uint64_t slot, const char *what)
{
    double base = down ? page->y - 9.0 : page->y, tip = down ? page->y : page->y - 9.0;
    page->y += 22.0;
    base += 22.0;
    tip += 22.0;
    fprintf(page->to, "<path d=\"M30 %.1f L24.5 %.1f L35.5 %.1f Z\" fill=\"%s\"/>\n", tip, base, base, colour);
    begin_text(page, 42, page->y, "");
    fprintf(page->to, "slot %" PRIu64 ": %s", slot, what);
    end_text(page);
}

static void draw_legend(struct page *page)
{
    const struct report *report = page->report;
    char what[96];
    page->y += 26.0;
    draw_key(page, 24.0, PLACED, "a member that an order of insertions places");
    if (report->verdict == DISORDERED)
        draw_key(page, 336.0, UNPLACED, "a member that none places");
    draw_key(page, 552.0, VACANT, "vacant");
    begin_text(page, 648, page->y, " class=\"pale\"");
    fprintf(page->to, "width: the square root of the slots");
    end_text(page);
    if (report->verdict != DISORDERED)
        return;
    snprintf(what, sizeof what, "the first member that could not be placed, identity %" PRIu64, report->identity);
    draw_named(page, false, UNPLACED, report->slot, what);
    if (*report_stop(report) != 0)
        draw_named(page, true, INK, report->stop, report_stop(report));
}

/* ---- the file */

/* The height of the page is known when all is drawn, so that what is drawn is put behind the head then. */
static void draw_all(struct page *page, FILE *out)
{
    char *drawn = NULL;
    size_t length = 0;
    page->to = open_memstream(&drawn, &length);
    if (page->to == NULL)
        return;
    draw_head(page);
    draw_bands(page);
    draw_legend(page);
    fclose(page->to);
    fprintf(out, "<svg xmlns=\"http://www.w3.org/2000/svg\" width=\"%d\" height=\"%.0f\" role=\"img\">\n", WIDTH, page->y + 24.0);
    fprintf(out, "<style>text{font-family:sans-serif;font-size:13px;fill:%s}.head{font-size:17px;font-weight:bold}.pale{fill:%s}</style>\n", INK,
            PALE);
    fprintf(out, "<rect width=\"100%%\" height=\"100%%\" fill=\"#ffffff\"/>\n");
    fwrite(drawn, 1, length, out);
    fprintf(out, "</svg>\n");
    free(drawn);
}

/* Whether the picture can be put there: no file, or a file that is not the image. */
static const char *wrong_place(const char *path, const char *image)
{
    struct stat there, looked_at;
    if (lstat(path, &there) != 0)
        return errno == ENOENT ? NULL : strerror(errno);
    if (!S_ISREG(there.st_mode) && !S_ISLNK(there.st_mode))
        return "what stands there is no file";
    if (stat(path, &there) == 0 && stat(image, &looked_at) == 0 && there.st_dev == looked_at.st_dev && there.st_ino == looked_at.st_ino)
        return "it would take the image's place";
    return NULL;
}

static bool unwritten(const char *path, const char *why)
{
    fprintf(stderr, "examine: the picture ");
    print_name(stderr, path);
    fprintf(stderr, " cannot be written: %s\n", why);
    return false;
}

/* A new file beside the picture's place, with the rights that a file of this user has. */
static FILE *open_beside(const char *path, char **name)
{
    static const char end[] = ".XXXXXX";
    mode_t mask = umask(0);
    int made = -1;
    umask(mask);
    *name = malloc(strlen(path) + sizeof end);
    if (*name != NULL)
        made = mkstemp(strcat(strcpy(*name, path), end));
    if (made < 0)
        return NULL;
    fchmod(made, 0666 & ~mask);
    return fdopen(made, "w");
}

bool draw(const char *path, const struct report *report, const struct landovireph_table *table, const uint8_t *marks)
{
    struct page page = { NULL, report, table, marks, 1, TOP, landovireph_state_levels(table->state) <= 30 ? 18.0 : 10.0 };
    const char *wrong = wrong_place(path, report->file);
    char *beside = NULL;
    bool written = false;
    FILE *out = wrong == NULL ? open_beside(path, &beside) : NULL;
    if (out != NULL) {
        bool bad;
        draw_all(&page, out);
        bad = page.to == NULL || ferror(out);
        written = fclose(out) == 0 && !bad && rename(beside, path) == 0;
        wrong = written ? NULL : strerror(errno);
        if (!written)
            remove(beside);
    } else if (wrong == NULL) {
        wrong = strerror(errno);
    }
    free(beside);
    return written || unwritten(path, wrong);
}
