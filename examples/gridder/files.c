#include "files.h"

#include <errno.h>
#include <stdio.h>
#include <stdlib.h>
#include <string.h>
#include <sys/stat.h>
#include <unistd.h>

#define MOST_PARTS 4

/* A file to be: it lies as `new` in a folder of its own beside its place, where what stood there is kept as `old` until all
 * files have their names. The folder's name is made up anew, so nothing that was there is in the way or taken for a part. */
struct part {
    const char *path;
    char *holder, *folder, *made, *kept; /* the folder the path is in, the part's own, `new` and `old` in it */
    int had, named;                      /* whether something stood at the path; whether the file has its name now */
};

static struct part parts[MOST_PARTS];
static size_t part_count;

/* Undoes what was done to the file's place, and takes the part away. */
static void drop_part(struct part *part)
{
    if (part->named && part->had)
        rename(part->kept, part->path);
    else if (part->named)
        remove(part->path);
    remove(part->made);
    remove(part->kept);
    rmdir(part->folder);
}

void give_up(int status, const char *what, const char *wrong)
{
    fprintf(stderr, "%s: %s: %s\n", program, what, wrong);
    while (part_count != 0)
        drop_part(&parts[--part_count]);
    exit(status);
}

void *memory(size_t count, size_t size)
{
    void *zeroed = calloc(count != 0 ? count : 1, size);
    if (zeroed == NULL)
        give_up(2, "memory", "there is not enough");
    return zeroed;
}

struct bytes read_file(const char *path, size_t most)
{
    struct bytes bytes;
    FILE *file = fopen(path, "rb");
    if (file == NULL)
        give_up(2, path, strerror(errno));
    bytes.at = memory(most + 1, 1);
    bytes.length = fread(bytes.at, 1, most + 1, file);
    if (ferror(file))
        give_up(2, path, strerror(errno));
    fclose(file);
    return bytes;
}

static char *joined(const char *folder, const char *name)
{
    size_t room = strlen(folder) + strlen(name) + 2;
    char *path = memory(room, 1);
    snprintf(path, room, "%s/%s", folder, name);
    return path;
}

/* The name behind the last slash. */
static const char *last_name(const char *path)
{
    const char *slash = strrchr(path, '/');
    return slash == NULL ? path : slash + 1;
}

/* The folder that a path is in. */
static char *folder_of(const char *path)
{
    size_t length = (size_t)(last_name(path) - path);
    char *folder;
    if (length == 0)
        return strcpy(memory(2, 1), ".");
    folder = memory(length + 1, 1);
    return memcpy(folder, path, length);
}

/* Whether two parts have one place, by whatever names: the same folder, and in it the same name. */
static int one_place(const struct part *a, const struct part *b)
{
    struct stat in_a, in_b;
    return strcmp(last_name(a->path), last_name(b->path)) == 0 && stat(a->holder, &in_a) == 0 && stat(b->holder, &in_b) == 0 &&
           in_a.st_dev == in_b.st_dev && in_a.st_ino == in_b.st_ino;
}

/* A file can be put at the path: nothing stands there, or a file, and no other part is to be put there. */
static void test_place(struct part *part)
{
    struct stat there;
    size_t i;
    for (i = 0; i < part_count; i++)
        if (one_place(&parts[i], part))
            give_up(2, part->path, "two files are to be written under this name");
    part->had = lstat(part->path, &there) == 0;
    if (!part->had && errno != ENOENT)
        give_up(2, part->path, strerror(errno));
    if (part->had && !S_ISREG(there.st_mode) && !S_ISLNK(there.st_mode))
        give_up(2, part->path, "what stands there is no file");
}

static struct part *add_part(const char *path)
{
    struct part *part = &parts[part_count];
    if (part_count == MOST_PARTS)
        give_up(2, path, "more files than this program can keep apart");
    memset(part, 0, sizeof *part);
    part->path = path;
    part->holder = folder_of(path);
    if (*last_name(path) == 0)
        give_up(2, path, "this is no file's name");
    test_place(part);
    part->folder = joined(part->holder, ".part-XXXXXX");
    if (mkdtemp(part->folder) == NULL)
        give_up(2, path, strerror(errno));
    part->made = joined(part->folder, "new");
    part->kept = joined(part->folder, "old");
    part_count++;
    return part;
}

void write_part(const char *path, const void *bytes, size_t length)
{
    struct part *part = add_part(path);
    FILE *file = fopen(part->made, "wb");
    int failed;
    if (file == NULL)
        give_up(2, path, strerror(errno));
    failed = fwrite(bytes, 1, length, file) != length;
    if (fclose(file) != 0 || failed)
        give_up(2, path, strerror(errno));
}

void finish_printing(void)
{
    if (fflush(stdout) != 0 || ferror(stdout))
        give_up(2, "standard output", strerror(errno));
}

/* What stands at the path now may have come there after the part was begun, so it is looked for again. */
static void name_part(struct part *part)
{
    part->had = link(part->path, part->kept) == 0;
    if (!part->had && errno != ENOENT)
        give_up(2, part->path, strerror(errno));
    if (rename(part->made, part->path) != 0)
        give_up(2, part->path, strerror(errno));
    part->named = 1;
}

void keep_parts(void)
{
    size_t i;
    for (i = 0; i < part_count; i++)
        name_part(&parts[i]);
    while (part_count != 0) {
        struct part *part = &parts[--part_count];
        remove(part->kept);
        rmdir(part->folder);
        free(part->holder);
        free(part->folder);
        free(part->made);
        free(part->kept);
    }
}
