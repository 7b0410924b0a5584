/* Files that are read whole, and written whole or not at all. What goes wrong ends the program with a message and status 2. */
#ifndef FILES_H
#define FILES_H

#include <stddef.h>
#include <stdint.h>

struct bytes {
    uint8_t *at;
    size_t length;
};

/* The name that messages begin with; each program has its own. */
extern const char *const program;

/* Says on standard error what is wrong with what, and ends the program with that status. */
void give_up(int status, const char *what, const char *wrong);

/* Zeroed memory. */
void *memory(size_t count, size_t size);

/* The bytes of a file; of a longer one than `most` one byte more, and no others. */
struct bytes read_file(const char *path, size_t most);

/* Writes what is to become a file into a new folder beside its place, .part-XXXXXX. Ends the program where no file can be put there,
 * or two files have one place, by whatever names. */
void write_part(const char *path, const void *bytes, size_t length);

/* What was printed has reached standard output. */
void finish_printing(void);

/* Gives every part its name, or, where one of them cannot have it, none: what stood at the others is put back. Until then no file
 * that was there is touched; a program that gives up takes its parts away. (One that is killed leaves the folders of its parts.) */
void keep_parts(void);

#endif
