/* What the library says of itself. All else in it is compiled from proved crates, which export nothing but the calls on tables and
 * have no strings; so these two are C. */
#include "landovireph.h"

const char *landovireph_version(void)
{
    return LANDOVIREPH_VERSION;
}

uint32_t landovireph_version_number(void)
{
    return LANDOVIREPH_VERSION_NUMBER;
}
