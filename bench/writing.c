/* The writer beside memcpy of the same blobs, and with plans beside the writer without one. */
#include "bench.h"
#include "described.h"
#include "timing.h"
#include "zt.h"
#include <stdlib.h>
#include <string.h>

enum { OBJECTS = 1000, BLOB = 67136, ROWS = ZT_NUMBERS(OBJECTS, OBJECTS), BLOBS = OBJECTS * BLOB, OUT = BLOBS + (1 << 20) };

typedef struct {
    described model;
    uint64_t rising[OBJECTS], falling[OBJECTS]; /* offsets for its rows */
    uint8_t *out;
} job_of_writing;

static job_of_writing work;

static bool written(const void *x) {
    const job_of_writing *w = x;
    return zt_write(w->model.rows, ROWS, OBJECTS, OBJECTS, 0, 0, w->model.buffer, w->model.filled, w->out, OUT).number == ZT_ACCEPTED;
}

static bool planned(const job_of_writing *w, const uint64_t *plan) {
    const described *m = &w->model;
    return zt_write_planned(m->rows, ROWS, OBJECTS, OBJECTS, 0, 0, m->buffer, m->filled, plan, OBJECTS, (uint64_t)1 << 40, w->out, OUT).number == ZT_ACCEPTED;
}
static bool planned_rising(const void *x) { return planned(x, ((const job_of_writing *)x)->rising); }
static bool planned_falling(const void *x) { return planned(x, ((const job_of_writing *)x)->falling); }

static bool copied(const void *x) {
    const job_of_writing *w = x;
    const uint8_t *blobs = w->model.buffer + (w->model.filled - BLOBS);
    for (size_t i = 0; i < OBJECTS; i++) memcpy(w->out + 64 + i * BLOB, blobs + i * BLOB, BLOB);
    return w->out[64] == blobs[0];
}

void writing(void) {
    work.model = describe(OBJECTS, BLOB, ZT_U8, 'a', 0);
    work.out = malloc(OUT);
    if (!work.out) exit(2);
    for (size_t i = 0; i < OBJECTS; i++) work.rising[i] = 64 + i * BLOB, work.falling[OBJECTS - 1 - i] = 64 + i * BLOB;
    heading("writing 1000 objects with 64 MiB of blobs", "per byte");
    compare("a model", (program){"zt_write", written}, (program){"memcpy", copied}, &work, BLOBS, BLOBS, 2);
    compare("a plan that rises", (program){"zt_write_planned", planned_rising}, (program){"zt_write", written}, &work, BLOBS, BLOBS, 1.2);
    compare("a plan that falls", (program){"zt_write_planned", planned_falling}, (program){"zt_write", written}, &work, BLOBS, BLOBS, 2);
    forget(work.model);
    free(work.out);
}
