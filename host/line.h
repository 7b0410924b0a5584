/* A command line: fields with single spaces between them, and what a field can hold. */
#ifndef HOST_LINE_H
#define HOST_LINE_H

#include <stdbool.h>
#include <stddef.h>
#include <stdint.h>

struct field {
    const char *text;
    size_t length;
};

/* The fields of a line, in an array that grows from line to line. Zeroed at first. */
struct fields {
    struct field *list;
    size_t count, room;
};

/* What an entry of a table is given as: slot=id or slot=id:flag. */
struct entry {
    uint64_t slot, identity;
    uint8_t flag;
};

/* Each answers whether the text is of that form. Fields are never empty. */
bool line_fields(struct fields *fields, const char *text, size_t length);
bool field_is(struct field field, const char *word);
/* A number of any size. */
bool field_is_number(struct field field);
bool field_word(struct field field, uint64_t *value);
/* LEFT=RIGHT. */
bool field_pair(struct field field, uint64_t *left, uint64_t *right);
bool field_entry(struct field field, uint64_t n, struct entry *entry);
/* Pairs of hex digits, or - for none: how many bytes; they are written to bytes, which has room for half the field. */
bool field_bytes(struct field field, uint8_t *bytes, size_t *length);

#endif
