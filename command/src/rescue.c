/* zt rescue: the objects that are sound, as zt_rescue writes them anew, and a line for each that isn't. */
#include "commands.h"
#include "items.h"
#include "model.h"
#include "whole.h"
#include <errno.h>
#include <stdlib.h>
#include <string.h>

/* The table becomes the call's working room: what it held isn't needed any more. */
static zt_rescued rescue_to(const model *of, uint64_t *list, size_t list_room, uint8_t *at, size_t room) {
    return zt_rescue(of->layout, of->file.at, of->file.length, of->table, ZT_TABLE_MOST, list, list_room, at, room);
}

/* Names of objects, which zt_rescue's list doesn't have: keys of the manifest, for people. */
typedef struct {
    item objects, name, entry;
    const uint8_t *at;
    uint64_t passed;
} names;

static void names_begin(names *of, const model *from) {
    item root;
    *of = (names){.at = NULL};
    if (!manifest_at(&root, &from->file, from->layout)) return;
    if (field_at(&of->objects, &root, from->layout == ZT_LAYOUT_1_0 ? "tensors" : "objects")) of->at = of->objects.content;
}

/* Indices rise, so that all names together are one way through the map. */
static void print_name(names *of, uint64_t index) {
    while (of->at && of->passed <= index) {
        int held = item_in(&of->name, &of->objects, of->at) && item_in(&of->entry, &of->objects, of->name.to);
        of->at = held ? of->entry.to : NULL;
        of->passed++;
    }
    if (of->at && of->name.major == TEXT && !of->name.open) print_escaped(&err, of->name.content, (size_t)of->name.argument);
}

static void begin_line(const model *of) {
    print_words(&err, "zt: ");
    print_escaped(&err, (const uint8_t *)of->file.path, strlen(of->file.path));
    print_words(&err, ": ");
}

static void say_dropped(const model *of, const uint64_t *list, const zt_rescued *answer) {
    names by;
    names_begin(&by, of);
    flush(&out);
    for (uint64_t i = 0; i < answer->dropped; i++) {
        const uint64_t *entry = list + ZT_DROPPED_WIDTH * i;
        begin_line(of);
        print_words(&err, "dropped object ");
        print_name(&by, entry[ZT_DROPPED_OBJECT]);
        print_counted(&err, ": ", entry[ZT_DROPPED_NUMBER], " ");
        print_words(&err, zt_refusal_name(entry[ZT_DROPPED_NUMBER]));
        print_counted(&err, ", component ", entry[ZT_DROPPED_COMPONENT], ": ");
        print_words(&err, why_of(entry[ZT_DROPPED_NUMBER]));
        print_words(&err, "\n");
    }
    begin_line(of);
    print_counted(&err, "objects kept ", answer->kept, ", dropped ");
    print_counted(&err, "", answer->dropped, "\n");
    flush(&err);
}

/* The reader's refusal, or the writer's of what would be kept. */
static int say_unrescued(const model *of, zt_rescued answer) {
    fault what = fault_of(of);
    what.number = answer.number;
    what.object = answer.object;
    what.component = answer.component;
    say_refused(of->file.path, what);
    return TROUBLE;
}

static int write_kept(const model *of, const char *output, uint64_t *list, zt_rescued *answer) {
    whole file;
    int status = whole_open(&file, output, (size_t)answer->length);
    if (status != DONE) return status;
    *answer = rescue_to(of, list, ZT_DROPPED_WIDTH * (size_t)answer->dropped, file.at, file.room);
    status = answer->number == ZT_ACCEPTED ? input_unchanged(&of->file) : trouble(of->file.path, zt_refusal_words(answer->number));
    if (status == DONE) return whole_keep(&file, (size_t)answer->length);
    whole_drop(&file);
    return status;
}

/* The first call lends neither list nor output: with ROOM it says how long both will be, and any other refusal comes before. */
static int rescued(const model *of, const char *output) {
    zt_rescued answer = rescue_to(of, NULL, 0, NULL, 0);
    uint64_t *list;
    int status;
    if (answer.number != ZT_ROOM) return say_unrescued(of, answer);
    list = malloc((ZT_DROPPED_WIDTH * (size_t)answer.dropped + 1) * sizeof *list);
    status = list ? write_kept(of, output, list, &answer) : trouble_of(output, ENOMEM);
    if (status == DONE && answer.dropped) {
        say_dropped(of, list, &answer);
        status = DROPPED;
    }
    free(list);
    return status;
}

int rescue_file(const arguments *given) {
    model of;
    int status = model_open(&of, given->operands[0], given->layout);
    if (status != DONE) return status;
    status = model_close(&of, rescued(&of, given->output));
    if (status != TROUBLE) say_not_carried(given->operands[0], given->layout);
    return status;
}
