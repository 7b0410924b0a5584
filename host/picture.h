/* A picture of a table, as an SVG file. */
#ifndef HOST_PICTURE_H
#define HOST_PICTURE_H

#include "report.h"

#include "landovireph_table.h"

/* Draws each level as a band with its fill, the special part apart, members without a mark in another colour, and the slots that the
 * report names. The file is written whole or not at all; false with a message on standard error where it cannot be. */
bool draw(const char *path, const struct report *report, const struct landovireph_table *table, const uint8_t *marks);

#endif
