/* Why a file is refused: beside the acceptance check where the fault is in the last of many objects, and beside one strict pass of large manifests. */
#include "bench.h"
#include "peers.h"
#include "zt.h"
#include <stdlib.h>

enum { OBJECTS = 1000, LARGE = 1 << 24, TEXT = 1 << 10 };

static uint8_t line[TEXT];

/* A span is shown. */
static bool explained(const void *x) {
    const zt_file *z = x;
    return zt_explain(ZT_LAYOUT_1_2, z->file.bytes, z->file.length, ZT_TABLE_MOST).length > 0;
}

static bool said(const void *x) {
    const zt_file *z = x;
    return zt_sentence(ZT_LAYOUT_1_2, z->file.bytes, z->file.length, ZT_TABLE_MOST, line, TEXT).number == ZT_ACCEPTED;
}

static bool refused(const void *x) {
    const zt_file *z = x;
    return zt_accept(z->file.bytes, z->file.length) != ZT_ACCEPTED;
}

static bool strictly_refused(const void *x) { return !c_item_utf8(x); }

static const program explain = {"zt_explain", explained}, say = {"zt_sentence", said}, refuse = {"zt_accept", refused};

static void beside(const char *what, zt_file z) {
    spoil_dtype(&z);
    compare(what, explain, refuse, &z, OBJECTS, z.manifest.length, 2.5);
    compare("", say, explain, &z, OBJECTS, z.manifest.length, 0);
    free(z.file.bytes);
}

/* The reading itself is refused: the place is looked for in the depth. */
static void unread(void) {
    zt_file z = broken_deep(LARGE);
    double bytes = (double)z.manifest.length;
    compare("items of one byte at depth 32, the last malformed", explain, (program){"C strict, UTF-8", strictly_refused}, &z, bytes, z.manifest.length, 4);
    compare("", explain, refuse, &z, bytes, z.manifest.length, 0);
    free(z.file.bytes);
}

void explaining(void) {
    heading("a fault in the last of 1000 objects", "per object");
    beside("a model", model(OBJECTS, 0));
    beside("with three unknown fields in every map", model(OBJECTS, 3));

    heading("why 16 MiB are refused", "per byte");
    for (int i = 0; i < LARGE_KINDS; i++) grown(large_kinds[i], true, explain, refuse);
    unread();
}
