/* Looks at one image file. */
#ifndef HOST_LOOK_H
#define HOST_LOOK_H

#include "report.h"

struct look {
    uint64_t word_cap;
    const char *picture; /* where to draw it, or NULL */
};

/* Fills the report. Answers false where a picture was wanted and could not be made, which is told on standard error. */
bool look_at(const char *file, const struct look *look, struct report *report);

#endif
