/* Rows that describe objects with one blob each, and the files that are written of them. */
#ifndef DESCRIBED_H
#define DESCRIBED_H
#include "inputs.h"

typedef struct {
    size_t objects, blob; /* bytes of each blob */
    uint64_t *rows;
    uint8_t *buffer; /* format, component's name, names of eight bytes; then the blobs */
    size_t filled, blobs; /* the buffer's bytes, and those of all blobs, which end it */
} described;

/* Dense objects of this storage, named by a letter; `salt` goes into every byte of the blobs. */
described describe(size_t objects, size_t blob, uint64_t dtype, char letter, uint8_t salt);
void forget(described d);

/* The file that is written of it, and of rows that are forgotten then; its manifest isn't looked for. */
zt_file file_of(described d);
zt_file large_model(size_t objects, size_t blob, uint64_t dtype, char letter, uint8_t salt);
#endif
