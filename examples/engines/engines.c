/*
 * Two engines of one box that share a table: the bearing engine and the pump engine each load their model file, show their panel, and give their numbers back. usage: engines BEARING PUMP.
 * A model that is refused, or that finds too few numbers free, leaves the other engine as it is. Exit status 0: both ready; 1: an engine's model was refused; 2: usage, or no file.
 *
 *     library/archive zt
 *     host/cc -std=gnu99 -Wall -Wextra -Werror -Iinclude -o engines examples/engines/engines.c target/staticlib/libzt.a
 */
#include "zt.h"
#include <inttypes.h>
#include <stdio.h>

/* A box has no heap: one table for both engines, whose numbers are zeros at first, and as much of a file as the box can hold. */
enum { ENGINES = 2, FILE_MOST = 1 << 20 };
static uint64_t shared[ZT_SHARED];
static uint8_t files[ENGINES][FILE_MOST + 1], text[1 << 18];
static size_t lengths[ENGINES];
static const char *const names[ENGINES] = {"bearing", "pump"};

static int read_file(const char *path, int engine) {
    FILE *file = fopen(path, "rb");
    if (!file) {
        perror(path);
        return 0;
    }
    lengths[engine] = fread(files[engine], 1, FILE_MOST + 1, file);
    int failed = ferror(file);
    fclose(file);
    if (failed || lengths[engine] > FILE_MOST) fprintf(stderr, "%s: can't be read, or too long\n", path);
    return !failed && lengths[engine] <= FILE_MOST;
}

/* An engine's model, loaded: its rows lie at its own end of the table, whatever the other engine has there. */
static int load(int engine) {
    zt_answer a = zt_load(shared, ZT_SHARED, engine, ZT_LAYOUT_1_2, files[engine], lengths[engine]);
    if (a.number == ZT_ACCEPTED) return 1;
    printf("%s: refused %" PRIu64 " %" PRIu64 " %" PRIu64 "\n", names[engine], a.number, a.object, a.component);
    return 0;
}

/* What the engine's panel shows, by its own rows alone. */
static void show(int engine) {
    zt_held held = zt_holds(shared, ZT_SHARED, engine);
    zt_text lines = zt_engine_list(shared, ZT_SHARED, engine, files[engine], lengths[engine], text, sizeof text);
    printf("%s: %" PRIu64 " numbers from %" PRIu64 "\n", names[engine], held.numbers, held.place);
    fwrite(text, 1, (size_t)lines.length, stdout);
}

/* A new model for an engine that runs: its old rows are dropped first, or it is busy. The other engine's rows stay where they are. */
static int replace(int engine) {
    if (zt_load(shared, ZT_SHARED, engine, ZT_LAYOUT_1_2, files[engine], lengths[engine]).number != ZT_BUSY) return 0;
    return zt_drop(shared, ZT_SHARED, engine) == ZT_ACCEPTED && load(engine);
}

int main(int count, char **words) {
    int ready = 0, clean = 1;
    if (count != 1 + ENGINES) {
        fprintf(stderr, "usage: engines BEARING PUMP\n");
        return 2;
    }
    for (int engine = 0; engine < ENGINES; engine++)
        if (!read_file(words[1 + engine], engine)) return 2;
    for (int engine = 0; engine < ENGINES; engine++)
        if (load(engine) && replace(engine)) ready++;
    for (int engine = 0; engine < ENGINES; engine++) show(engine);
    for (int engine = 0; engine < ENGINES; engine++) zt_drop(shared, ZT_SHARED, engine);
    for (size_t i = 0; i < ZT_SHARED; i++) clean = clean && shared[i] == 0;
    if (clean) puts("all numbers given back");
    return ready == ENGINES && clean ? 0 : 1;
}
