/* The table beside the acceptance check, the listing beside the table, two engines' loading and dropping beside reading and memset, and their listing and views beside those of a table. */
#include "bench.h"
#include "inputs.h"
#include "timing.h"
#include "zt.h"
#include <stdlib.h>
#include <string.h>

enum { OBJECTS = 1000, ROOM = ZT_TABLE_MOST, TEXT = 1 << 20 };

static uint64_t table[ROOM];
static uint8_t lines[TEXT];
static zt_answer counts;

static bool filled(const void *x) {
    const zt_file *z = x;
    counts = zt_read(z->file.bytes, z->file.length, table, ROOM);
    return counts.number == ZT_ACCEPTED;
}

/* Of the table that the last reading filled. */
static bool listed(const void *x) {
    const zt_file *z = x;
    return zt_list(z->file.bytes, z->file.length, table, ROOM, counts.objects, counts.components, lines, TEXT).number == ZT_ACCEPTED;
}

static bool first_filled(const void *x) {
    const zt_file *z = x;
    counts = zt_read_as(ZT_LAYOUT_1_0, z->file.bytes, z->file.length, table, ROOM);
    return counts.number == ZT_ACCEPTED;
}

static bool first_accepted(const void *x) {
    const zt_file *z = x;
    return zt_accept_as(ZT_LAYOUT_1_0, z->file.bytes, z->file.length) == ZT_ACCEPTED;
}

/* An engine's state, after the table that both engines share; as it was when the file was loaded. */
enum { STATE = ZT_SHARED - 16, NUMBERS = ZT_NUMBERS(OBJECTS, OBJECTS) };
static uint64_t shared[ZT_SHARED], loaded_state[8], zeroed[ZT_SHARED];

/* With the state put back to zeros each time, so that the engine isn't busy. */
static bool loaded(const void *x) {
    const zt_file *z = x;
    memset(shared + STATE, 0, sizeof loaded_state);
    return zt_load(shared, ZT_SHARED, 0, ZT_LAYOUT_1_2, z->file.bytes, z->file.length).number == ZT_ACCEPTED;
}

/* With the state of a loaded engine put back each time. */
static bool dropped(const void *x) {
    (void)x;
    memcpy(shared + STATE, loaded_state, sizeof loaded_state);
    return zt_drop(shared, ZT_SHARED, 0) == ZT_ACCEPTED;
}

/* Of the rows that the engine holds. */
static bool listed_for_engine(const void *x) {
    const zt_file *z = x;
    return zt_engine_list(shared, ZT_SHARED, 0, z->file.bytes, z->file.length, lines, TEXT).number == ZT_ACCEPTED;
}

/* Every component, one after the other. */
static bool viewed_for_engine(const void *x) {
    const zt_file *z = x;
    uint64_t refused = 0;
    for (uint64_t i = 0; i < OBJECTS; i++) refused |= zt_engine_view(shared, ZT_SHARED, 0, z->file.bytes, z->file.length, i).number;
    return refused == 0;
}

static bool viewed(const void *x) {
    const zt_file *z = x;
    uint64_t refused = 0;
    for (uint64_t i = 0; i < OBJECTS; i++)
        refused |= zt_view(z->file.bytes, z->file.length, table, ROOM, counts.objects, counts.components, i).number;
    return refused == 0;
}

/* As many questions as there are components. */
static bool held(const void *x) {
    (void)x;
    uint64_t components = 0;
    for (uint64_t i = 0; i < OBJECTS; i++) components += zt_holds(shared, ZT_SHARED, 0).components;
    return components == (uint64_t)OBJECTS * OBJECTS;
}

static bool set_to_zeros(const void *x) {
    (void)x;
    memset(zeroed, 0, NUMBERS * sizeof *zeroed);
    memset(zeroed + STATE, 0, sizeof loaded_state);
    return zeroed[0] == 0;
}

static const program load = {"zt_load", loaded}, drop = {"zt_drop", dropped}, clearing = {"memset", set_to_zeros};
static const program table_read = {"zt_read", filled}, list = {"zt_list", listed};
static const program engine_list = {"zt_engine_list", listed_for_engine}, engine_view = {"zt_engine_view", viewed_for_engine};
static const program view = {"zt_view", viewed}, hold = {"zt_holds", held};
static const program first_read = {"zt_read_as, 1.0", first_filled}, first_check = {"zt_accept_as, 1.0", first_accepted};

static void beside(const char *what, zt_file z) {
    compare(what, table_read, acceptance_check, &z, OBJECTS, z.manifest.length, 2.2);
    compare("", list, table_read, &z, OBJECTS, z.manifest.length, 2);
    free(z.file.bytes);
}

void reading(void) {
    heading("table and listing of 1000 objects", "per object");
    beside("a model", model(OBJECTS, 0));
    beside("with three unknown fields in every map", model(OBJECTS, 3));
    zt_file first = first_model(OBJECTS);
    compare("a model of layout 1.0", first_read, first_check, &first, OBJECTS, first.manifest.length, 2.2);
    free(first.file.bytes);
    zt_file shared_model = model(OBJECTS, 0);
    compare("a model, loaded for an engine", load, table_read, &shared_model, OBJECTS, shared_model.manifest.length, 1.05);
    memcpy(loaded_state, shared + STATE, sizeof loaded_state);
    compare("its listing", engine_list, list, &shared_model, OBJECTS, shared_model.manifest.length, 1.2);
    compare("its components, viewed", engine_view, view, &shared_model, OBJECTS, NUMBERS * sizeof *shared, 3);
    compare("where its rows stand, asked", hold, view, &shared_model, OBJECTS, NUMBERS * sizeof *shared, 3);
    compare("its rows, dropped", drop, clearing, &shared_model, OBJECTS, NUMBERS * sizeof *shared, 1.5);
    free(shared_model.file.bytes);
}
