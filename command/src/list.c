/* zt list: the listing, as zt_list puts it; as JSON the same rows. */
#include "commands.h"
#include "rows.h"
#include <errno.h>
#include <stdlib.h>

static int print_listing(const model *of, const char *path) {
    size_t room = 3 * (size_t)manifest_length(of); /* zt.h's bound */
    uint8_t *lines = malloc(room);
    zt_text listed;
    if (!lines) return trouble_of(path, ENOMEM);
    listed = zt_list(of->file.at, of->file.length, of->table, ZT_TABLE_MOST, of->answer.objects, of->answer.components, lines, room);
    if (listed.number == ZT_ACCEPTED) print_bytes(&out, lines, (size_t)listed.length);
    free(lines);
    return listed.number == ZT_ACCEPTED ? DONE : trouble(path, zt_refusal_words(listed.number));
}

static void json_listing(const model *of) {
    print_words(&out, "{");
    json_verdict(of->file.path, fault_of(of));
    json_objects(of, 0);
    print_words(&out, "}\n");
}

int list_file(const arguments *given) {
    const char *path = given->operands[0];
    model of;
    int status = model_open_sound(&of, path, given->layout, given->json);
    if (status != DONE) return status;
    if (given->json) json_listing(&of);
    else status = print_listing(&of, path);
    return model_close(&of, status);
}
