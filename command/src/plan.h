/*
 * A placement plan (document 02, Request 02): an offset for each component, in the order of rows, in a file a decimal number a line. zt_write_planned judges
 * it; what is said of a refusal is worked out from the row that it names.
 */
#ifndef PLAN_H
#define PLAN_H
#include "model.h"

typedef struct {
    const char *path;
    uint64_t *offsets;
    size_t count;
    uint64_t ceiling;
} plan;

/* DONE; or TROUBLE, which was said, with the line that is no number, and nothing is held. */
int plan_read(plan *into, const char *path, uint64_t ceiling);

void plan_close(plan *of);

/* zt_write_planned, with the model's rows. */
zt_written plan_write(const model *of, const plan *by, uint8_t *at, size_t room);

/*
 * Why nothing is written, on standard error; answers REFUSED. Of a plan that is refused: the line, the component that it is for, and the rule that is broken
 * there. The plan may be null.
 */
int say_unwritten(const model *of, const plan *by, zt_written written);

/* Where the last component ends by a plan that was accepted. */
uint64_t plan_end(const model *of, const plan *by);
#endif
