/*
 * examine: says in plain words what a table image is, and whether some order of insertions makes its table.
 *
 *     examine [-q] [--json] [--word-cap CAP] [--picture OUT.svg] [--] IMAGE..
 *
 * docs/MANUAL.md and man/examine.1 say how to read the answer. What it says of an image goes to standard output; misuse, and why a file
 * cannot be read, to standard error. Tables of any size that memory holds are taken.
 * Exit status, the largest of all images: 0 accepted, 1 disordered or dirty, 2 malformed or refused, 3 cannot be read (or what was to be
 * written cannot be), 64 misuse.
 */
#include "look.h"

#include "landovireph.h"

#include <errno.h>
#include <stdio.h>
#include <stdlib.h>
#include <string.h>

#define UNWRITTEN 3
#define MISUSE 64

struct options {
    struct look look;
    bool quietly, json;
};

static const char usage[] =
    "usage       examine [-q] [--json] [--word-cap CAP] [--picture OUT.svg] [--] IMAGE..\n"
    "            IMAGE names a file, - is standard input\n"
    "            -q, --quiet         the verdict of each image and its name alone\n"
    "            --json              one JSON object for each image\n"
    "            --word-cap CAP      the word cap that the tables were made with, 1 to 256; 8 if none is given\n"
    "            --picture OUT.svg   a picture of the table, where one image is named\n"
    "            --help, --version   this; the version\n"
    "status      0 accepted, 1 disordered or dirty, 2 malformed or refused, 3 cannot be read, 64 misuse\n";

/* The name is quoted and escaped behind the sentence; NULL for none. */
static void misuse(const char *why, const char *name)
{
    fprintf(stderr, "misuse      %s", why);
    if (name != NULL) {
        putc(' ', stderr);
        print_name(stderr, name);
    }
    fprintf(stderr, "\n%s", usage);
    exit(MISUSE);
}

/* Everything that was printed has reached standard output. */
static int printed(int status)
{
    if (!ferror(stdout) && fflush(stdout) == 0)
        return status;
    fprintf(stderr, "examine: the verdict cannot be written: %s\n", strerror(errno));
    return UNWRITTEN;
}

/* A plain decimal from 1 to 256, or the end of the program. */
static uint64_t word_cap(const char *text)
{
    uint64_t cap = 0;
    const char *at;
    for (at = text; *at >= '0' && *at <= '9' && cap <= 256; at++)
        cap = cap * 10 + (uint64_t)(*at - '0');
    if (*at != 0 || cap < 1 || cap > 256)
        misuse("the word cap is not a number from 1 to 256:", text);
    return cap;
}

/* What follows an option: behind an equals sign, or the next word. */
static const char *value_of(const char *option, char **words, int *at)
{
    const char *equals = strchr(option, '=');
    if (equals != NULL)
        return equals + 1;
    if (words[*at + 1] == NULL)
        misuse("nothing follows", option);
    return words[++*at];
}

static bool is(const char *word, const char *option)
{
    size_t length = strlen(option);
    return strncmp(word, option, length) == 0 && (word[length] == 0 || word[length] == '=');
}

static void take_option(struct options *options, char **words, int *at)
{
    const char *word = words[*at];
    if (strcmp(word, "-q") == 0 || strcmp(word, "--quiet") == 0) {
        options->quietly = true;
    } else if (strcmp(word, "--json") == 0) {
        options->json = true;
    } else if (is(word, "--word-cap")) {
        options->look.word_cap = word_cap(value_of(word, words, at));
    } else if (is(word, "--picture")) {
        options->look.picture = value_of(word, words, at);
    } else if (strcmp(word, "--help") == 0) {
        fputs(usage, stdout);
        exit(printed(0));
    } else if (strcmp(word, "--version") == 0) {
        printf("examine %s\n", landovireph_version());
        exit(printed(0));
    } else {
        misuse("no option is called", word);
    }
}

/* Reads the options, which may stand anywhere before --, and moves the images to the front; how many there are. */
static int take_options(struct options *options, int count, char **words)
{
    int at, images = 0;
    bool all_images = false;
    for (at = 1; at < count; at++) {
        if (!all_images && strcmp(words[at], "--") == 0)
            all_images = true;
        else if (all_images || words[at][0] != '-' || words[at][1] == 0)
            words[images++] = words[at];
        else
            take_option(options, words, &at);
    }
    if (images == 0)
        misuse("no image is named", NULL);
    if (options->look.picture != NULL && images > 1)
        misuse("one picture cannot show several images:", options->look.picture);
    return images;
}

static void say(const struct options *options, const struct report *report, bool several)
{
    if (options->json) {
        report_json(report, options->quietly);
    } else if (options->quietly) {
        report_quietly(report);
    } else {
        if (several) {
            printf("file        ");
            print_name(stdout, report->file);
            putchar('\n');
        }
        report_lines(report);
    }
}

int main(int count, char **words)
{
    struct options options = { { 8, NULL }, false, false };
    int images = take_options(&options, count, words), at, status = 0;
    for (at = 0; at < images && !ferror(stdout); at++) {
        struct report report;
        bool drawn = look_at(words[at], &options.look, &report);
        if (at != 0 && !options.quietly && !options.json)
            putchar('\n');
        say(&options, &report, images > 1);
        if (report_status(&report) > status)
            status = report_status(&report);
        if (!drawn)
            status = UNWRITTEN;
    }
    return printed(status);
}
