/* Reading a file by zt_read_as, and what stands in its rows. */
#include "model.h"
#include "json.h"
#include <errno.h>
#include <stdlib.h>
#include <string.h>

int model_open(model *of, const char *path, uint64_t layout) {
    of->layout = layout;
    if (input_open(&of->file, path) != DONE) return TROUBLE;
    of->table = malloc(ZT_TABLE_MOST * sizeof *of->table);
    if (!of->table) {
        input_close(&of->file);
        return trouble_of(path, ENOMEM);
    }
    of->answer = zt_read_as(layout, of->file.at, of->file.length, of->table, ZT_TABLE_MOST);
    if (input_unchanged(&of->file) == DONE) return DONE;
    return model_close(of, TROUBLE);
}

int model_open_sound(model *of, const char *path, uint64_t layout, int json) {
    int status = model_open(of, path, layout);
    if (status != DONE || of->answer.number == ZT_ACCEPTED) return status;
    if (json) {
        print_words(&out, "{");
        json_verdict(path, fault_of(of));
        print_words(&out, "}\n");
    } else {
        say_refused(path, fault_of(of));
    }
    return model_close(of, REFUSED);
}

int model_close(model *of, int status) {
    if (status != TROUBLE) status = input_unchanged(&of->file) == DONE ? status : TROUBLE;
    free(of->table);
    input_close(&of->file);
    return status;
}

/* A sound file of the other layout is refused by its last 8 bytes: they are no footer, or a footer and no size. */
static int is_sound_as_other(const model *of) {
    int first = of->layout == ZT_LAYOUT_1_0;
    if (of->answer.number != (first ? ZT_BIG : ZT_FOOTER)) return 0;
    return zt_accept_as(first ? ZT_LAYOUT_1_2 : ZT_LAYOUT_1_0, of->file.at, of->file.length) == ZT_ACCEPTED;
}

fault fault_of(const model *of) {
    return (fault){of->answer.number, of->answer.object, of->answer.component, of->layout, is_sound_as_other(of)};
}

const uint64_t *object_row(const model *of, uint64_t object) { return of->table + ZT_OBJECT_WIDTH * object; }

const uint64_t *component_row(const model *of, uint64_t component) {
    return of->table + ZT_OBJECT_WIDTH * of->answer.objects + ZT_COMPONENT_WIDTH * component;
}

static text text_at(const model *of, uint64_t place, uint64_t length) {
    return (text){of->file.at + place, (size_t)length, place != 0 || length != 0};
}

text text_of(const model *of, const uint64_t *place) { return text_at(of, place[0], place[1]); }

text attributes_of(const model *of) { return text_at(of, of->answer.place, of->answer.size); }

uint64_t behind_manifest(uint64_t layout) { return layout == ZT_LAYOUT_1_0 ? 8 : 16; }

uint64_t manifest_length(const model *of) { return of->file.length - behind_manifest(of->layout) - of->answer.start; }

int same_text(text a, text b) { return a.length == b.length && (a.length == 0 || memcmp(a.at, b.at, a.length) == 0); }

const char *stand_in(text of) {
    if (!of.present) return "-";
    if (of.length == 0) return "\\";
    return of.length == 1 && of.at[0] == '-' ? "\\2d" : NULL;
}

/* Which unknown fields there are isn't known, so that it is said of every such file. */
void say_not_carried(const char *path, uint64_t layout) {
    if (layout == ZT_LAYOUT_1_0) remark(path, "fields unknown to layout 1.0, generator and attributes of tensors among them, are not carried over");
}
