/*
 * A file that appears whole or not at all: its bytes are put into a temporary file beside it, flushed to disk, and renamed. Whatever fails, a full disk included,
 * the old file stays as it was. "-" is standard output, where no such thing can be promised.
 */
#ifndef WHOLE_H
#define WHOLE_H
#include <stddef.h>
#include <stdint.h>

typedef struct {
    const char *path; /* as it was named */
    char *target;     /* where it is in truth, links followed; null for standard output */
    char *temporary;
    int descriptor;
    uint8_t *at; /* `room` bytes to be filled */
    size_t room;
} whole;

/* DONE; or TROUBLE, which was said, and nothing is left behind. */
int whole_open(whole *file, const char *path, size_t room);

/* The first `length` bytes become the file: DONE, or TROUBLE, which was said. Ends it in either case. */
int whole_keep(whole *file, size_t length);

/* Ends it, with the old file as it was. */
void whole_drop(whole *file);

/* Removes the temporary file there may be; for a handler of signals. */
void whole_remove(void);
#endif
