#include "line.h"

#include "table.h"

#include <string.h>

static void add_field(struct fields *fields, const char *text, size_t length)
{
    if (fields->count == fields->room) {
        fields->room = fields->room != 0 ? 2 * fields->room : 64;
        fields->list = must_have_again(fields->list, fields->room * sizeof *fields->list);
    }
    fields->list[fields->count].text = text;
    fields->list[fields->count].length = length;
    fields->count++;
}

bool line_fields(struct fields *fields, const char *text, size_t length)
{
    size_t from = 0, at;
    fields->count = 0;
    for (at = 0; at <= length; at++) {
        if (at < length && text[at] != ' ')
            continue;
        if (at == from)
            return false;
        add_field(fields, text + from, at - from);
        from = at + 1;
    }
    return true;
}

bool field_is(struct field field, const char *word)
{
    return field.length == strlen(word) && memcmp(field.text, word, field.length) == 0;
}

/* The value of a digit, 16 for none. */
static unsigned digit(char c)
{
    if (c >= '0' && c <= '9')
        return (unsigned)(c - '0');
    if (c >= 'a' && c <= 'f')
        return (unsigned)(c - 'a') + 10;
    if (c >= 'A' && c <= 'F')
        return (unsigned)(c - 'A') + 10;
    return 16;
}

/* The base of a number, and where its digits begin. */
static unsigned base_of(struct field field, size_t *at)
{
    bool hex = field.length >= 2 && field.text[0] == '0' && field.text[1] == 'x';
    *at = hex ? 2 : 0;
    return hex ? 16 : 10;
}

bool field_is_number(struct field field)
{
    size_t at;
    unsigned base = base_of(field, &at);
    if (at == field.length)
        return false;
    for (; at < field.length; at++)
        if (digit(field.text[at]) >= base)
            return false;
    return true;
}

bool field_word(struct field field, uint64_t *value)
{
    size_t at;
    unsigned base = base_of(field, &at);
    uint64_t sum = 0;
    if (!field_is_number(field))
        return false;
    for (; at < field.length; at++) {
        unsigned d = digit(field.text[at]);
        if (sum > (UINT64_MAX - d) / base)
            return false;
        sum = sum * base + d;
    }
    *value = sum;
    return true;
}

/* The field up to the first of a character, and what is behind it. */
static bool split(struct field field, char at, struct field *before, struct field *after)
{
    const char *found = memchr(field.text, at, field.length);
    if (found == NULL)
        return false;
    before->text = field.text;
    before->length = (size_t)(found - field.text);
    after->text = found + 1;
    after->length = field.length - before->length - 1;
    return true;
}

bool field_pair(struct field field, uint64_t *left, uint64_t *right)
{
    struct field before, after;
    return split(field, '=', &before, &after) && field_word(before, left) && field_word(after, right);
}

bool field_entry(struct field field, uint64_t n, struct entry *entry)
{
    struct field pair = field, flag;
    uint64_t value = 1;
    if (split(field, ':', &pair, &flag) && (!field_word(flag, &value) || value > 255))
        return false;
    entry->flag = (uint8_t)value;
    return field_pair(pair, &entry->slot, &entry->identity) && entry->slot < n;
}

bool field_bytes(struct field field, uint8_t *bytes, size_t *length)
{
    size_t i;
    *length = 0;
    if (field_is(field, "-"))
        return true;
    if (field.length % 2 != 0)
        return false;
    for (i = 0; i < field.length / 2; i++) {
        unsigned high = digit(field.text[2 * i]), low = digit(field.text[2 * i + 1]);
        if (high > 15 || low > 15)
            return false;
        bytes[i] = (uint8_t)(16 * high + low);
    }
    *length = field.length / 2;
    return true;
}
