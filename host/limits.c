#include "limits.h"

#include <inttypes.h>
#include <stdbool.h>
#include <stdio.h>
#include <stdlib.h>
#include <string.h>
#include <sys/resource.h>
#include <unistd.h>

#define MOST_PATH 768

const struct limit_files limit_files_of_linux = { "/proc/self/cgroup", "/sys/fs/cgroup", "/sys/fs/cgroup/memory" };

/* The files of a group in one kind of tree. */
struct tree {
    const char *root, *limit, *use;
    const char *unused; /* of memory.stat: file pages that are given back when memory is short */
};

static void bound(struct limit *least, uint64_t left, const char *whose, const char *where)
{
    if (left >= least->left)
        return;
    least->left = left;
    snprintf(least->whose, sizeof least->whose, "%s (%s)", whose, where);
}

static uint64_t less(uint64_t a, uint64_t b)
{
    return a > b ? a - b : 0;
}

/* The bytes of address space that the process has now. */
static uint64_t bytes_mapped(void)
{
    FILE *file = fopen("/proc/self/statm", "r");
    uint64_t pages = 0;
    if (file == NULL)
        return 0;
    if (fscanf(file, "%" SCNu64, &pages) != 1)
        pages = 0;
    fclose(file);
    return pages * (uint64_t)sysconf(_SC_PAGESIZE);
}

static void bound_by_process(struct limit *least)
{
    struct rlimit limit;
    if (getrlimit(RLIMIT_AS, &limit) == 0 && limit.rlim_cur != RLIM_INFINITY)
        bound(least, less(limit.rlim_cur, bytes_mapped()), "the process may have", "RLIMIT_AS, ulimit -v");
    if (getrlimit(RLIMIT_DATA, &limit) == 0 && limit.rlim_cur != RLIM_INFINITY)
        bound(least, limit.rlim_cur, "the process may have", "RLIMIT_DATA, ulimit -d");
}

/* The number that a file in a group's folder begins with, or that stands behind a name at the start of a line; false where there is none,
 * as where a limit is "max". */
static bool read_number(const char *folder, const char *name, const char *key, uint64_t *value)
{
    char path[MOST_PATH + 64], line[256];
    size_t length = strlen(key);
    bool found = false;
    FILE *file;
    snprintf(path, sizeof path, "%s/%s", folder, name);
    file = fopen(path, "r");
    if (file == NULL)
        return false;
    while (!found && fgets(line, sizeof line, file) != NULL)
        found = strncmp(line, key, length) == 0 && sscanf(line + length, "%" SCNu64, value) == 1;
    fclose(file);
    return found;
}

static void bound_by_group(struct limit *least, const struct tree *tree, const char *folder)
{
    char where[MOST_PATH + 64];
    uint64_t most, used = 0, unused = 0;
    if (!read_number(folder, tree->limit, "", &most))
        return;
    read_number(folder, tree->use, "", &used);
    read_number(folder, "memory.stat", tree->unused, &unused);
    snprintf(where, sizeof where, "%s/%s", folder, tree->limit);
    bound(least, less(most, less(used, unused)), "the container may have", where);
}

/* The limits of a group and of all groups around it. A path that is not there, as seen from inside a container, has the root at least. */
static void bound_by_groups(struct limit *least, const struct tree *tree, const char *group)
{
    char folder[MOST_PATH];
    size_t root = strlen(tree->root);
    if (root + strlen(group) >= sizeof folder)
        return;
    strcat(strcpy(folder, tree->root), group);
    for (;;) {
        char *slash;
        bound_by_group(least, tree, folder);
        slash = strrchr(folder + root, '/');
        if (slash == NULL)
            return;
        *slash = 0;
    }
}

/* Whether a list of names, apart by commas, has "memory". */
static bool has_memory(const char *names)
{
    for (; names != NULL; names = strchr(names, ',')) {
        names += *names == ',';
        if (strncmp(names, "memory", 6) == 0 && (names[6] == 0 || names[6] == ','))
            return true;
    }
    return false;
}

/* Each line is NUMBER:CONTROLLERS:PATH; the unified tree's has no controllers. */
static void bound_by_container(struct limit *least, const struct limit_files *files)
{
    const struct tree unified = { files->unified, "memory.max", "memory.current", "inactive_file " };
    const struct tree memory = { files->memory, "memory.limit_in_bytes", "memory.usage_in_bytes", "total_inactive_file " };
    char line[MOST_PATH];
    FILE *file = fopen(files->groups, "r");
    if (file == NULL)
        return;
    while (fgets(line, sizeof line, file) != NULL) {
        char *names = strchr(line, ':'), *path = names == NULL ? NULL : strchr(names + 1, ':');
        if (path == NULL)
            continue;
        *path++ = 0;
        path[strcspn(path, "\n")] = 0;
        if (names[1] == 0)
            bound_by_groups(least, &unified, path);
        else if (has_memory(names + 1))
            bound_by_groups(least, &memory, path);
    }
    fclose(file);
}

struct limit limit_of_memory(const struct limit_files *files)
{
    struct limit least = { UINT64_MAX, "there is" };
    long pages = sysconf(_SC_PHYS_PAGES), page = sysconf(_SC_PAGESIZE);
    if (pages > 0 && page > 0)
        bound(&least, (uint64_t)pages * (uint64_t)page, "this machine has", "its memory");
    bound_by_process(&least);
    bound_by_container(&least, files);
    return least;
}
