/* The panel's summary: a component's f32 numbers beside a loop in C, the account beside a reading, the text beside reading, listing and that loop. */
#include "bench.h"
#include "described.h"
#include "peers.h"
#include "timing.h"
#include "zt.h"
#include <stdlib.h>

enum { OBJECTS = 1000, LARGE = 1 << 26, ROOM = ZT_TABLE_MOST, TEXT = 1 << 20 };

static uint64_t table[ROOM];
static uint8_t lines[TEXT];
static zt_answer counts;

static bool filled(const void *x) {
    const zt_file *z = x;
    counts = zt_read(z->file.bytes, z->file.length, table, ROOM);
    return counts.number == ZT_ACCEPTED;
}

static bool listed(const void *x) {
    const zt_file *z = x;
    return filled(x) && zt_list(z->file.bytes, z->file.length, table, ROOM, counts.objects, counts.components, lines, TEXT).number == ZT_ACCEPTED;
}

/* The first component of the table that the last reading filled. */
static bool found(const void *x) {
    const zt_file *z = x;
    return zt_find(z->file.bytes, z->file.length, table, ROOM, counts.objects, counts.components, 0).finding == ZT_FINDING_SPAN;
}

static bool looped(const void *x) {
    const zt_file *z = x;
    return c_span(z->file.bytes + table[ZT_NUMBERS(1, 0) + ZT_COMPONENT_OFFSET], table[ZT_NUMBERS(1, 0) + ZT_COMPONENT_LENGTH]);
}

static uint64_t work[ROOM];

static bool accounted(const void *x) {
    const zt_file *z = x;
    return zt_account(ZT_LAYOUT_1_2, z->file.bytes, z->file.length, work, ROOM).number == ZT_ACCEPTED;
}

static bool told(const void *x) {
    const zt_file *z = x;
    return zt_panel(ZT_LAYOUT_1_2, z->file.bytes, z->file.length, work, ROOM, lines, TEXT).number == ZT_ACCEPTED;
}

static const program table_read = {"zt_read", filled}, list = {"zt_read, zt_list", listed}, loop = {"C -O2", looped};
static const program find = {"zt_find", found}, account = {"zt_account", accounted}, panel = {"zt_panel", told};

void finding(void) {
    zt_file numbers = large_model(1, LARGE, ZT_F32, 'a', 0), small = model(OBJECTS, 0), many = packed(1024, 8);
    heading("numbers of 64 MiB", "per byte");
    if (!filled(&numbers)) exit(1);
    compare("a component", find, loop, &numbers, LARGE, LARGE, 1.2);
    compare("the panel's text, which reads it twice", panel, loop, &numbers, LARGE, LARGE, 0);
    heading("account and panel", "per object");
    compare("account: a model of 1000 objects", account, table_read, &small, OBJECTS, small.manifest.length, 2);
    compare("account: 1,024 objects of 16 components", account, table_read, &many, 1024, many.manifest.length, 2);
    compare("panel: a model of 1000 objects", panel, list, &small, OBJECTS, small.manifest.length, 2);
    free(numbers.file.bytes);
    free(small.file.bytes);
    free(many.file.bytes);
}
