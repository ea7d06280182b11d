/* What changed between two files of 64 MiB: beside memcmp where nothing did, beside a loop in C where every byte did. */
#include "bench.h"
#include "described.h"
#include "peers.h"
#include "timing.h"
#include "zt.h"
#include <stdlib.h>

enum { OBJECTS = 1000, BLOB = 67136, BLOBS = OBJECTS * BLOB, ROOM = 2 * ZT_NUMBERS(OBJECTS, OBJECTS), LIST = 2 * OBJECTS * ZT_ENTRY_WIDTH };

static uint64_t rows[ROOM], list[LIST];

static zt_changes compared(const void *x) {
    const two_files *f = x;
    return zt_diff(ZT_LAYOUT_1_2, f->first.bytes, f->first.length, ZT_LAYOUT_1_2, f->second.bytes, f->second.length, rows, ROOM, list, LIST);
}

static bool unchanged(const void *x) {
    zt_changes c = compared(x);
    return c.number == ZT_ACCEPTED && c.entries == 0;
}

/* An entry for each object and one for its component. */
static bool changed(const void *x) {
    zt_changes c = compared(x);
    return c.number == ZT_ACCEPTED && c.entries == 2 * OBJECTS;
}

void changes(void) {
    zt_file first = large_model(OBJECTS, BLOB, ZT_U8, 'a', 0), again = large_model(OBJECTS, BLOB, ZT_U8, 'a', 0);
    zt_file other = large_model(OBJECTS, BLOB, ZT_U8, 'a', 1);
    two_files equal = {first.file, again.file, OBJECTS, BLOB}, apart = {first.file, other.file, OBJECTS, BLOB};
    heading("what changed between two files of 64 MiB", "per byte");
    compare("nothing", (program){"zt_diff", unchanged}, (program){"memcmp", c_equal}, &equal, BLOBS, BLOBS, 1.5);
    compare("every byte", (program){"zt_diff", changed}, (program){"C -O2, by bytes", c_apart}, &apart, BLOBS, BLOBS, 3);
    free(first.file.bytes);
    free(again.file.bytes);
    free(other.file.bytes);
}
