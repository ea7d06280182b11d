/* The acceptance check beside its peers, and how its cost grows. */
#include "bench.h"
#include "peers.h"
#include "timing.h"
#include "zt.h"
#include <stdlib.h>

enum { OBJECTS = 1000, LARGE = 1 << 24, SMALL = 1 << 20 };

static bool accepted(const void *x) {
    const zt_file *z = x;
    return zt_accept(z->file.bytes, z->file.length) == ZT_ACCEPTED;
}

#ifdef WITH_BEFORE
uint64_t before_accept(const uint8_t *file, size_t length); /* zt_accept of an older library */

static bool accepted_before(const void *x) {
    const zt_file *z = x;
    return before_accept(z->file.bytes, z->file.length) == ZT_ACCEPTED;
}
#endif

const program acceptance_check = {"zt_accept", accepted};
static const program extract = {"C floor", c_floor}, strict = {"C strict, UTF-8", c_item_utf8};

static void beside(const char *what, zt_file z) {
    compare(what, acceptance_check, extract, &z, OBJECTS, z.manifest.length, 1.3);
    compare("", acceptance_check, strict, &z, OBJECTS, z.manifest.length, 0);
#ifdef WITH_BEFORE
    compare("", acceptance_check, (program){"zt_accept, before", accepted_before}, &z, OBJECTS, z.manifest.length, 1.05);
#endif
#ifdef WITH_LIBCBOR
    compare("", acceptance_check, (program){"libcbor, tokens", libcbor_tokens}, &z, OBJECTS, z.manifest.length, 1);
#endif
#ifdef WITH_TINYCBOR
    compare("", acceptance_check, (program){"TinyCBOR, tokens", tinycbor_tokens}, &z, OBJECTS, z.manifest.length, 1);
#endif
    free(z.file.bytes);
}

/* One model in both layouts. */
typedef struct {
    zt_file current, first;
} both_layouts;

static bool current_accepted(const void *x) { return accepted(&((const both_layouts *)x)->current); }

static bool first_accepted(const void *x) {
    const both_layouts *b = x;
    return zt_accept_as(ZT_LAYOUT_1_0, b->first.file.bytes, b->first.file.length) == ZT_ACCEPTED;
}

static void in_both_layouts(void) {
    both_layouts b = {model(OBJECTS, 0), first_model(OBJECTS)};
    program first = {"zt_accept_as, 1.0", first_accepted}, current = {"zt_accept, 1.2.0", current_accepted};
    compare("a model of layout 1.0", first, current, &b, OBJECTS, b.first.manifest.length, 0);
    free(b.current.file.bytes);
    free(b.first.file.bytes);
}

void grown(large_kind kind, bool spoiled, program ours, program other) {
    zt_file large = kind.make(LARGE), small = kind.make(SMALL);
    double bytes = (double)large.manifest.length;
    if (spoiled) {
        kind.spoil(&large);
        kind.spoil(&small);
    }
    compare(kind.what, ours, strict, &large, bytes, large.manifest.length, 4);
    compare("", ours, other, &large, bytes, large.manifest.length, 0);
    grows(ours, &large, &small, bytes / (double)small.manifest.length);
    free(large.file.bytes);
    free(small.file.bytes);
}

void acceptance(void) {
    heading("acceptance of 1000 objects", "per object");
    beside("a model", model(OBJECTS, 0));
    beside("with three unknown fields in every map", model(OBJECTS, 3));
    in_both_layouts();

    heading("acceptance of 16 MiB", "per byte");
    for (int i = 0; i < LARGE_KINDS; i++) grown(large_kinds[i], false, acceptance_check, extract);
}
