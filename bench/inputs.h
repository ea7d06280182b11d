/* What the programs are timed on. */
#ifndef INPUTS_H
#define INPUTS_H
#include <stddef.h>
#include <stdint.h>

typedef struct {
    uint8_t *bytes;
    size_t length;
} input;

/* Two files of so many objects with one blob of so many bytes each, laid alike. */
typedef struct {
    input first, second;
    size_t objects, blob;
} two_files;

/* Names in one buffer: for each, the bytes left at its start, and its length. */
typedef struct {
    input in;
    size_t *left, *size, count;
} names;

/* A whole file, and its manifest where it stands in it: first, so that a job over an item takes a file's manifest too. */
typedef struct {
    input manifest, file;
} zt_file;

input flat(size_t length);                    /* an array of integers of one byte */
input nested(size_t length, int depth);       /* an array at this depth, of arrays, one in the other down to depth 32 */
input text(size_t length, const char *piece); /* whole pieces only */
names model_names(size_t count);
names long_names(size_t count, size_t length, size_t at); /* that differ only in six bytes at `at` */

/* Files that are accepted. */
zt_file model(size_t objects, unsigned unknown);     /* of dense objects, with 0 to 3 unknown fields in every map */
zt_file first_model(size_t objects);                 /* the same objects in layout 1.0 */
zt_file with_value(input value);                     /* that has this item in an unknown field */
zt_file named(names n);                              /* of objects without components, by these names */
zt_file packed(size_t objects, size_t digest);       /* of objects with 16 components, each with a digest so long */

/* A file whose manifest has so many bytes or a little fewer: items of one byte at depth 32, in arrays one in the other, and the last of them is malformed. */
zt_file broken_deep(size_t size);

/* The last dtype of a file of either layout becomes none of the 13. */
void spoil_dtype(zt_file *z);

/* Kinds of files whose manifests have so many bytes or a little fewer: as they are accepted, and spoiled so that they are refused but stay sound CBOR. */
typedef struct {
    const char *what;
    zt_file (*make)(size_t size);
    void (*spoil)(zt_file *z);
} large_kind;
enum { LARGE_KINDS = 6 };
extern const large_kind large_kinds[LARGE_KINDS];
#endif
