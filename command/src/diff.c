/* zt diff: what changed between two models, a line for each of zt_diff's entries, with the old and new values from both files' rows. */
#include "commands.h"
#include "pair.h"
#include <errno.h>
#include <stdlib.h>

/* The columns of an entry, its kinds, and what differs, added up (zt.h, zt_diff). */
enum { ENTRY_KIND, FIRST_OBJECT, SECOND_OBJECT, FIRST_COMPONENT, SECOND_COMPONENT, DIFFERS, POSITION, COUNT, ENTRY_WIDTH };
enum { OBJECT_IN_FIRST = 1, OBJECT_IN_SECOND, OBJECT_CHANGED, COMPONENT_CHANGED, COMPONENT_IN_FIRST, COMPONENT_IN_SECOND };
enum { SHAPE = 1, FORMAT = 2, NAMES = 4, DTYPES = 8, TYPES = 16, BYTES = 32 };

static const uint64_t *component_of(const model *of, uint64_t object, uint64_t index) {
    for (uint64_t i = 0; i < object; i++) index += object_row(of, i)[ZT_OBJECT_COMPONENTS];
    return component_row(of, index);
}

/* ": " before the first of several values, ", " before each next. */
static void next_value(int *first, const char *what) {
    print_words(&out, *first ? ": " : ", ");
    print_words(&out, what);
    *first = 0;
}

static void print_value(text of) {
    const char *words = stand_in(of);
    if (words) print_words(&out, words);
    else print_escaped(&out, of.at, of.length);
}

static void print_shape(const uint64_t *row) {
    print_words(&out, "[");
    for (uint64_t i = 0; i < row[ZT_OBJECT_RANK]; i++) print_counted(&out, i ? "," : "", row[ZT_OBJECT_SHAPE + i], "");
    print_words(&out, "]");
}

static void print_object_values(const pair *of, const uint64_t *entry) {
    static const struct {
        uint64_t what;
        const char *words;
    } others[] = {{NAMES, "component names"}, {DTYPES, "dtypes"}, {TYPES, "types"}, {BYTES, "bytes"}};
    const uint64_t *old = object_row(&of->first, entry[FIRST_OBJECT]), *new = object_row(&of->second, entry[SECOND_OBJECT]);
    int first = 1;
    if (entry[DIFFERS] & SHAPE) {
        next_value(&first, "shape ");
        print_shape(old);
        print_words(&out, " -> ");
        print_shape(new);
    }
    if (entry[DIFFERS] & FORMAT) {
        next_value(&first, "format ");
        print_value(text_of(&of->first, old + ZT_OBJECT_FORMAT));
        print_words(&out, " -> ");
        print_value(text_of(&of->second, new + ZT_OBJECT_FORMAT));
    }
    for (int i = 0; i < 4; i++)
        if (entry[DIFFERS] & others[i].what) next_value(&first, others[i].words);
}

static void print_component_values(const pair *of, const uint64_t *entry) {
    const uint64_t *old = component_of(&of->first, entry[FIRST_OBJECT], entry[FIRST_COMPONENT]);
    const uint64_t *new = component_of(&of->second, entry[SECOND_OBJECT], entry[SECOND_COMPONENT]);
    int first = 1;
    if (entry[DIFFERS] & DTYPES) {
        next_value(&first, "dtype ");
        print_words(&out, zt_dtype_name(old[ZT_COMPONENT_DTYPE]));
        print_words(&out, " -> ");
        print_words(&out, zt_dtype_name(new[ZT_COMPONENT_DTYPE]));
    }
    if (entry[DIFFERS] & TYPES) {
        next_value(&first, "type ");
        print_value(text_of(&of->first, old + ZT_COMPONENT_TYPE));
        print_words(&out, " -> ");
        print_value(text_of(&of->second, new + ZT_COMPONENT_TYPE));
    }
    if (old[ZT_COMPONENT_LENGTH] != new[ZT_COMPONENT_LENGTH]) {
        next_value(&first, "length ");
        print_counted(&out, "", old[ZT_COMPONENT_LENGTH], " -> ");
        print_number(&out, new[ZT_COMPONENT_LENGTH]);
    }
    if (entry[DIFFERS] & BYTES) {
        next_value(&first, "bytes from ");
        print_counted(&out, "", entry[POSITION], " on, ");
        print_counted(&out, "", entry[COUNT], " differ");
    }
}

/* "~ blob OBJECT COMPONENT", names by the file that has them. */
static void print_names(const pair *of, const uint64_t *entry) {
    uint64_t kind = entry[ENTRY_KIND];
    int gone = kind == OBJECT_IN_FIRST || kind == COMPONENT_IN_FIRST, added = kind == OBJECT_IN_SECOND || kind == COMPONENT_IN_SECOND;
    const model *by = added ? &of->second : &of->first;
    uint64_t object = entry[added ? SECOND_OBJECT : FIRST_OBJECT];
    text name = text_of(by, object_row(by, object) + ZT_OBJECT_NAME);
    print_words(&out, gone ? "- " : added ? "+ " : "~ ");
    print_words(&out, kind < COMPONENT_CHANGED ? "object " : "blob ");
    print_escaped(&out, name.at, name.length);
    if (kind < COMPONENT_CHANGED) return;
    name = text_of(by, component_of(by, object, entry[added ? SECOND_COMPONENT : FIRST_COMPONENT]) + ZT_COMPONENT_NAME);
    print_words(&out, " ");
    print_escaped(&out, name.at, name.length);
}

static void print_entry(const pair *of, const uint64_t *entry) {
    print_names(of, entry);
    if (entry[ENTRY_KIND] == OBJECT_CHANGED) print_object_values(of, entry);
    if (entry[ENTRY_KIND] == COMPONENT_CHANGED) print_component_values(of, entry);
    print_words(&out, "\n");
}

static uint64_t rows_of(const model *of) { return of->answer.objects + of->answer.components; }

static size_t room_of(const model *of) { return (size_t)ZT_NUMBERS(of->answer.objects, of->answer.components); }

/* An entry is about one object or component at least, and each has one entry at most, so that the list has room. */
static int compare(const pair *of) {
    size_t work_room = room_of(&of->first) + room_of(&of->second), room = ENTRY_WIDTH * (size_t)(rows_of(&of->first) + rows_of(&of->second));
    uint64_t *work = malloc((work_room + 1) * sizeof *work), *list = malloc((room + 1) * sizeof *list);
    const input *old = &of->first.file, *new = &of->second.file;
    int status = work && list ? DONE : trouble_of(old->path, ENOMEM);
    if (status == DONE) {
        zt_changes found = zt_diff(of->first.layout, old->at, old->length, of->second.layout, new->at, new->length, work, work_room, list, room);
        if (found.number != ZT_ACCEPTED) status = trouble(found.file == 2 ? new->path : old->path, zt_refusal_words(found.number));
        else if (found.entries) status = DIFFERENT;
        for (uint64_t i = 0; status == DIFFERENT && i < found.entries; i++) print_entry(of, list + ENTRY_WIDTH * i);
    }
    free(work);
    free(list);
    return status;
}

/* Where diff is asked, 1 says that files differ, so that a file that is refused is trouble. */
int diff_files(const arguments *given) {
    pair of;
    int status = pair_open(&of, given);
    if (status != DONE) return TROUBLE;
    status = pair_close(&of, compare(&of));
    if (status != TROUBLE) remark(NULL, "digests and attributes are not compared");
    return status;
}
