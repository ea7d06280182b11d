/* Rescuing a sound file, beside reading it and writing its rows, which is what the rescue then comes to. */
#include "bench.h"
#include "described.h"
#include "timing.h"
#include "zt.h"
#include <stdlib.h>

enum { OBJECTS = 1000, BLOB = 67072, ROOM = ZT_NUMBERS(OBJECTS, OBJECTS), OUT = OBJECTS * BLOB + (1 << 20) };

typedef struct {
    zt_file file;
    uint8_t *out;
} job_of_rescue;

static uint64_t rows[ROOM];

static bool rescued(const void *x) {
    const job_of_rescue *r = x;
    return zt_rescue(ZT_LAYOUT_1_2, r->file.file.bytes, r->file.file.length, rows, ROOM, NULL, 0, r->out, OUT).number == ZT_ACCEPTED;
}

static bool read_and_written(const void *x) {
    const job_of_rescue *r = x;
    zt_answer a = zt_read(r->file.file.bytes, r->file.file.length, rows, ROOM);
    return zt_write(rows, ROOM, a.objects, a.components, a.place, a.size, r->file.file.bytes, r->file.file.length, r->out, OUT).number == ZT_ACCEPTED;
}

static void beside(const char *what, size_t blob, double units, double most, uint8_t *out) {
    job_of_rescue r = {large_model(OBJECTS, blob, ZT_U8, 'a', 0), out};
    compare(what, (program){"zt_rescue", rescued}, (program){"zt_read, zt_write", read_and_written}, &r, units, OBJECTS * blob, most);
    free(r.file.file.bytes);
}

void rescuing(void) {
    uint8_t *out = malloc(OUT);
    if (!out) exit(2);
    heading("rescuing a sound file of 1000 objects", "per byte");
    beside("64 MiB", BLOB, OBJECTS * BLOB, 1.2, out);
    heading("rescuing a sound file of 1000 objects", "per object");
    beside("64 bytes an object", 64, OBJECTS, 0, out);
    free(out);
}
