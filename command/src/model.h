/* A file as the proved calls know it: its bytes, its layout, and the table and answer that zt_read_as gave. All that the command says of a file comes from here. */
#ifndef MODEL_H
#define MODEL_H
#include "input.h"
#include "refusal.h"
#include "zt.h"

typedef struct {
    input file;
    uint64_t layout; /* a zt_layout */
    uint64_t *table; /* of ZT_TABLE_MOST numbers, so that ROOM is never the answer */
    zt_answer answer;
} model;

/* Bytes of the file at a row's place; absent where place and length are 0. */
typedef struct {
    const uint8_t *at;
    size_t length;
    int present;
} text;

/* DONE, with the answer, accepted or not; or TROUBLE, which was said, and nothing is held: the file can't be read, or changed while it was. */
int model_open(model *of, const char *path, uint64_t layout);

/*
 * For commands that show sound files: as model_open, but a refusal is said, as JSON on standard output or a line on standard error, nothing is held, and
 * the answer is REFUSED.
 */
int model_open_sound(model *of, const char *path, uint64_t layout, int json);

/* Gives everything back. The status; or TROUBLE, which is said, if the file changed meanwhile. */
int model_close(model *of, int status);

fault fault_of(const model *of);
const uint64_t *object_row(const model *of, uint64_t object);
const uint64_t *component_row(const model *of, uint64_t component); /* its index among all components */
text text_of(const model *of, const uint64_t *place);               /* a place in a row, with the length beside it */
text attributes_of(const model *of);                                /* the root's */
uint64_t behind_manifest(uint64_t layout);                          /* bytes of frame: its size, and the footer if there is one */
uint64_t manifest_length(const model *of);

int same_text(text a, text b);

/* What is shown in place of a text: "-" of one that is absent, so that "-" itself is escaped, and a backslash alone of the empty one; null of any other. */
const char *stand_in(text of);

/* Of a file of layout 1.0 that was written anew: what is left out. */
void say_not_carried(const char *path, uint64_t layout);
#endif
