/* How much memory this process may still have, and whose limit that is. */
#ifndef HOST_LIMITS_H
#define HOST_LIMITS_H

#include <stdint.h>

struct limit {
    uint64_t left;    /* bytes */
    char whose[1024]; /* behind "left of what": "the process may have (RLIMIT_AS, ulimit -v)" */
};

/* Where a container's limits are told: which groups the process is in, and the roots of both kinds of trees. */
struct limit_files {
    const char *groups, *unified, *memory;
};

extern const struct limit_files limit_files_of_linux;

/* The smallest of: what the process may have (RLIMIT_AS, RLIMIT_DATA), what each group that it is in may have (memory.max, or
 * memory.limit_in_bytes), what the machine has. */
struct limit limit_of_memory(const struct limit_files *files);

#endif
