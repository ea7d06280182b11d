/* Two files in one: beside two readings and a copy of the blobs, by memcpy and by a loop, and beside two readings where there is next to nothing to copy. */
#include "bench.h"
#include "described.h"
#include "peers.h"
#include "timing.h"
#include "zt.h"
#include <stdlib.h>
#include <string.h>

enum { OBJECTS = 512, BLOB = 1 << 17, BLOBS = 2 * OBJECTS * BLOB, ROOM = 2 * ZT_NUMBERS(OBJECTS, OBJECTS), OUT = BLOBS + (1 << 20) };

typedef struct {
    zt_file first, second;
    size_t blobs; /* bytes of both files' blobs */
    uint8_t *out;
} job_of_merging;

static uint64_t rows[ROOM];

static bool merged(const void *x) {
    const job_of_merging *m = x;
    const input *a = &m->first.file, *b = &m->second.file;
    return zt_merge(ZT_LAYOUT_1_2, a->bytes, a->length, ZT_LAYOUT_1_2, b->bytes, b->length, rows, ROOM, m->out, OUT).number == ZT_ACCEPTED;
}

static bool filled(input file) { return zt_read(file.bytes, file.length, rows, ROOM).number == ZT_ACCEPTED; }

static bool read_and_copied(const void *x) {
    const job_of_merging *m = x;
    memcpy(m->out + 64, m->first.file.bytes + 64, m->blobs / 2);
    memcpy(m->out + 64 + m->blobs / 2, m->second.file.bytes + 64, m->blobs / 2);
    return filled(m->first.file) && filled(m->second.file);
}

/* The same without the C library's memcpy, whose stores pass by the caches where much is copied at once. */
static bool read_and_looped(const void *x) {
    const job_of_merging *m = x;
    c_copy(m->out + 64, m->first.file.bytes + 64, m->blobs / 2);
    c_copy(m->out + 64 + m->blobs / 2, m->second.file.bytes + 64, m->blobs / 2);
    return filled(m->first.file) && filled(m->second.file);
}

static void beside(const char *what, size_t blob, double units, double most, uint8_t *out) {
    job_of_merging m = {large_model(OBJECTS, blob, ZT_U8, 'a', 0), large_model(OBJECTS, blob, ZT_U8, 'A', 1), 2 * OBJECTS * blob, out};
    compare(what, (program){"zt_merge", merged}, (program){"zt_read x 2, memcpy", read_and_copied}, &m, units, m.blobs, most);
    compare("", (program){"zt_merge", merged}, (program){"zt_read x 2, loop", read_and_looped}, &m, units, m.blobs, most);
    free(m.first.file.bytes);
    free(m.second.file.bytes);
}

void merging(void) {
    uint8_t *out = malloc(OUT);
    if (!out) exit(2);
    heading("merging two files of 512 objects", "per byte");
    beside("64 MiB each", BLOB, BLOBS, 1.3, out);
    heading("merging two files of 512 objects", "per object");
    beside("64 bytes an object", 64, 2 * OBJECTS, 0, out);
    free(out);
}
