/* A file's bytes in memory: a regular file is mapped, anything else is read to its end; "-" is standard input. */
#ifndef INPUT_H
#define INPUT_H
#include <stddef.h>
#include <stdint.h>
#include <sys/stat.h>

typedef struct {
    const char *path;
    const uint8_t *at; /* null where there is no byte */
    size_t length;
    int descriptor; /* of a mapped file, to see whether it stayed as it was; -1 of any other */
    struct stat facts;
} input;

/* DONE; or TROUBLE, which was said, and nothing is held. */
int input_open(input *file, const char *path);

/* DONE; or TROUBLE, which is said: the file changed since it was opened, so that what was told of it may be true of no file. */
int input_unchanged(const input *file);

void input_close(input *file);
#endif
