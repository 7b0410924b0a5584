#include "report.h"

#include "landovireph.h"

#include <inttypes.h>
#include <string.h>

static const char *const verdicts[] = { "accepted", "disordered", "dirty", "refused", "unread" };

int report_status(const struct report *report)
{
    static const int statuses[] = { 0, 1, 1, 2, 3 };
    return statuses[report->verdict];
}

void print_text(FILE *to, const uint8_t *bytes, size_t length)
{
    size_t i;
    for (i = 0; i < length; i++) {
        if (bytes[i] == '"' || bytes[i] == '\\')
            fprintf(to, "\\%c", bytes[i]);
        else if (bytes[i] < 32 || bytes[i] > 126)
            fprintf(to, "\\x%02x", bytes[i]);
        else
            putc(bytes[i], to);
    }
}

void print_name(FILE *to, const char *name)
{
    putc('"', to);
    print_text(to, (const uint8_t *)name, strlen(name));
    putc('"', to);
}

/* ---- lines */

/* A part of a whole as a percentage, rounded down. */
static void print_percent(uint64_t part, uint64_t whole)
{
    uint64_t share = whole == 0 ? 0 : part * 10000 / whole;
    printf("%" PRIu64 ".%" PRIu64 "%" PRIu64 " %%", share / 100, share / 10 % 10, share % 10);
}

static const char *meaning(uint64_t refusal)
{
    switch (refusal) {
    case LANDOVIREPH_REFUSED_N:
        return "n is below 2";
    case LANDOVIREPH_REFUSED_ZEROEXP:
        return "e is 0";
    case LANDOVIREPH_REFUSED_SIZE:
        return "n is above 4294967296";
    case LANDOVIREPH_REFUSED_EXPONENT:
        return "e is below 3, so it is no funnel table's";
    case LANDOVIREPH_REFUSED_LAYOUT:
        return "no funnel table has this n and e";
    case LANDOVIREPH_REFUSED_STATE:
        return "the count is above n";
    case LANDOVIREPH_REFUSED_FOREIGN:
        return "the image is another table's than its own n, e and seed say";
    default:
        return "no table can be read";
    }
}

static void print_numbers(const struct report *report)
{
    printf("n           %" PRIu64 " slots\ne           %" PRIu32 "\nseed        %" PRIu64 "\n", report->n, report->e, report->seed);
}

static void print_table(const struct report *report)
{
    printf("label       ");
    if (report->label_bytes != 0) {
        putchar('"');
        print_text(stdout, report->label, report->label_bytes);
        printf("\"\n");
    } else {
        printf("none\n");
    }
    printf("members     %" PRIu64 ", the maximum is %" PRIu64 "\nfill        ", report->members, report->maximum);
    print_percent(report->members, report->n);
    printf(" of n, ");
    print_percent(report->members, report->maximum);
    printf(" of the maximum\n");
    printf("where       %" PRIu64 " in ordinary levels, %" PRIu64 " primary, %" PRIu64 " fallback\n", report->ordinary, report->primary,
           report->fallback);
}

static void print_search(const struct report *report)
{
    printf("search      a search for it ");
    switch (report->ending) {
    case STOPPED:
        printf("stops at slot %" PRIu64 ", which is vacant, so it is not found in slot %" PRIu64 "\n", report->stop, report->slot);
        return;
    case TWICE:
        printf("finds it at slot %" PRIu64 ": the identity stands in the table twice\n", report->stop);
        return;
    case REACHED:
        printf("finds it in its slot, but no order of insertions puts it there: on its way it passes slot %" PRIu64
               ", whose member could not be placed either\n", report->stop);
        return;
    case BEYOND:
        printf("finds it in its slot, but the maximum is placed without it\n");
        return;
    case UNPLACED:
        printf("finds it in its slot, but no order of insertions puts it there\n");
        return;
    case MISSED:
        printf("meets no vacancy and does not find it: slot %" PRIu64 " is not on its path\n", report->slot);
        return;
    case NOT_DRAWN:
        printf("is refused: RANGE (10), all of %" PRIu64 " words rejected; a larger word cap may do\n", report->words);
        return;
    default:
        printf("is refused\n");
    }
}

static void print_disorder(const struct report *report)
{
    printf("disordered  DISORDER (23): no order of insertions makes this table\n");
    printf("placed      %" PRIu64 " of %" PRIu64 " members\n", report->placed, report->members);
    if (report->members > report->maximum)
        printf("too many    %" PRIu64 " members are more than the maximum of %" PRIu64 "\n", report->members, report->maximum);
    printf("unplaced    slot %" PRIu64 " is the first that could not be placed; it holds identity %" PRIu64 " (0x%016" PRIx64 ")\n",
           report->slot, report->identity, report->identity);
    print_search(report);
}

static void print_refused(const struct report *report)
{
    if (report->refusal != LANDOVIREPH_REFUSED_IMAGE) {
        printf("refused     %s (%" PRIu64 "): %s\n", landovireph_refusal_name(report->refusal), report->refusal, meaning(report->refusal));
        return;
    }
    printf("refused     IMAGE (24): malformed at byte %" PRIu64, report->place);
    if (report->byte < 0)
        printf(", the end of the file\n");
    else
        printf(", where the byte is 0x%02x\n", (unsigned)report->byte);
}

static void print_unread(const struct report *report)
{
    fflush(stdout);
    fprintf(stderr, "unread      ");
    print_name(stderr, report->file);
    fprintf(stderr, ": %s\n", report->reason);
}

void report_lines(const struct report *report)
{
    if (report->has_numbers)
        print_numbers(report);
    if (report->has_table)
        print_table(report);
    switch (report->verdict) {
    case ACCEPTED:
        printf("accepted    some order of insertions makes this table\n");
        return;
    case DISORDERED:
        print_disorder(report);
        return;
    case DIRTY:
        printf("dirty       DIRTY (22): no table has slot %" PRIu64 " as it is here\n", report->slot);
        return;
    case REFUSED:
        print_refused(report);
        return;
    default:
        print_unread(report);
    }
}

void report_quietly(const struct report *report)
{
    if (report->verdict == UNREAD) {
        print_unread(report);
        return;
    }
    printf("%-12s", verdicts[report->verdict]);
    print_name(stdout, report->file);
    putchar('\n');
}

/* ---- JSON: every string is in printable ASCII, escaped first as in the lines */

static void json_text(const uint8_t *bytes, size_t length)
{
    size_t i;
    putchar('"');
    for (i = 0; i < length; i++) {
        if (bytes[i] == '"' || bytes[i] == '\\')
            printf("\\\\\\%c", bytes[i]);
        else if (bytes[i] < 32 || bytes[i] > 126)
            printf("\\\\x%02x", bytes[i]);
        else
            putchar(bytes[i]);
    }
    putchar('"');
}

static void json_number(const char *name, uint64_t value)
{
    printf(",\"%s\":%" PRIu64, name, value);
}

/* A number of 64 bits as a string: many readers keep 53. */
static void json_word(const char *name, uint64_t value)
{
    printf(",\"%s\":\"%" PRIu64 "\"", name, value);
}

static void json_table(const struct report *report)
{
    printf(",\"label\":");
    if (report->label_bytes != 0)
        json_text(report->label, report->label_bytes);
    else
        printf("null");
    json_number("members", report->members);
    json_number("maximum", report->maximum);
    json_number("ordinary", report->ordinary);
    json_number("primary", report->primary);
    json_number("fallback", report->fallback);
}

static void json_disorder(const struct report *report)
{
    static const char *const endings[] = { "vacant", "twice", "blocked", "maximum", "found", "off path", "range", "refused" };
    json_number("placed", report->placed);
    json_number("slot", report->slot);
    json_word("identity", report->identity);
    printf(",\"search\":\"%s\"", endings[report->ending]);
    if (report->ending == STOPPED || report->ending == TWICE || report->ending == REACHED)
        json_number("stop", report->stop);
    if (report->ending == NOT_DRAWN)
        json_number("words", report->words);
}

static void json_refused(const struct report *report)
{
    printf(",\"refusal\":\"%s\"", landovireph_refusal_name(report->refusal));
    json_number("number", report->refusal);
    if (report->refusal != LANDOVIREPH_REFUSED_IMAGE)
        return;
    json_number("place", report->place);
    if (report->byte < 0)
        printf(",\"byte\":null");
    else
        json_number("byte", (uint64_t)report->byte);
}

static void json_rest(const struct report *report)
{
    if (report->has_numbers) {
        json_number("n", report->n);
        json_number("e", report->e);
        json_word("seed", report->seed);
    }
    if (report->has_table)
        json_table(report);
    if (report->verdict == DISORDERED)
        json_disorder(report);
    if (report->verdict == DIRTY)
        json_number("slot", report->slot);
    if (report->verdict == REFUSED)
        json_refused(report);
}

void report_json(const struct report *report, bool quietly)
{
    printf("{\"file\":");
    json_text((const uint8_t *)report->file, strlen(report->file));
    printf(",\"verdict\":\"%s\",\"status\":%d", verdicts[report->verdict], report_status(report));
    if (!quietly)
        json_rest(report);
    if (report->verdict == UNREAD) {
        printf(",\"reason\":");
        json_text((const uint8_t *)report->reason, strlen(report->reason));
    }
    printf("}\n");
}

/* ---- for the picture */

void report_verdict(FILE *to, const struct report *report)
{
    switch (report->verdict) {
    case ACCEPTED:
        fprintf(to, "accepted: some order of insertions makes this table");
        return;
    case DISORDERED:
        fprintf(to, "disordered: no order of insertions makes this table; %" PRIu64 " of %" PRIu64 " members can be placed", report->placed,
                report->members);
        return;
    default:
        fprintf(to, "dirty: no table has slot %" PRIu64 " as it is here", report->slot);
    }
}

const char *report_stop(const struct report *report)
{
    if (report->verdict != DISORDERED)
        return "";
    switch (report->ending) {
    case STOPPED:
        return "vacant: a search for that member stops here and does not find it";
    case TWICE:
        return "the same identity: a search finds it here";
    case REACHED:
        return "read before it, and its own member cannot be placed either";
    default:
        return "";
    }
}
