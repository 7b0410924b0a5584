/* What examine found out of one image, and the three ways to say it. */
#ifndef HOST_REPORT_H
#define HOST_REPORT_H

#include <stdbool.h>
#include <stddef.h>
#include <stdint.h>
#include <stdio.h>

/* In the order of their exit statuses. */
enum verdict { ACCEPTED, DISORDERED, DIRTY, REFUSED, UNREAD };

/* How a search of the whole table for the first unplaced member ends. */
enum ending {
    STOPPED,   /* at a vacancy */
    TWICE,     /* at another slot that holds the identity */
    REACHED,   /* in its slot; the placed part alone has a vacancy before it */
    BEYOND,    /* in its slot; the maximum is placed without it */
    UNPLACED,  /* in its slot, and none of these */
    MISSED,    /* at no vacancy, and not in its slot */
    NOT_DRAWN, /* all words of a draw rejected */
    OTHER
};

struct report {
    const char *file;
    enum verdict verdict;

    bool has_numbers; /* n, e and seed were read */
    uint64_t n, seed;
    uint32_t e;

    bool has_table; /* the image is a table's */
    uint8_t label[64];
    size_t label_bytes;
    uint64_t members, maximum, ordinary, primary, fallback;

    uint64_t slot;           /* DIRTY: the slot; DISORDERED: the first unplaced one */
    uint64_t placed;         /* DISORDERED */
    uint64_t identity;       /* of the first unplaced */
    enum ending ending;      /* of a search for it */
    uint64_t stop, words;    /* the slot where the search ends, the words that were rejected */

    uint64_t refusal;        /* REFUSED: its number */
    uint64_t place;          /* of IMAGE: the byte place, */
    int byte;                /* and the byte there, or -1 at the end of the file */

    char reason[1536];       /* UNREAD */
};

/* The exit status that a verdict is. */
int report_status(const struct report *report);

/* All of it in lines; UNREAD on standard error. */
void report_lines(const struct report *report);

/* The verdict's word and the file's name; UNREAD on standard error, with the reason. */
void report_quietly(const struct report *report);

/* One JSON object on a line; quietly: file, verdict and status alone. */
void report_json(const struct report *report, bool quietly);

/* The verdict in a sentence. */
void report_verdict(FILE *to, const struct report *report);

/* Printable bytes as they are, quotes and backslashes behind a backslash, others as \x and two digits. */
void print_text(FILE *to, const uint8_t *bytes, size_t length);
void print_name(FILE *to, const char *name);

/* What a vacancy, or the slot in its stead, is to the first unplaced member; empty where no slot stands out. */
const char *report_stop(const struct report *report);

#endif
