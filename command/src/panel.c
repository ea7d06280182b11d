/* zt panel: the panel's text, as zt_panel puts it; of several files each text stands under a line of its path, and every file is looked at. */
#include "commands.h"
#include "model.h"
#include <errno.h>
#include <stdlib.h>
#include <string.h>

/*
 * A listing has three bytes at most for each of the manifest (zt.h). To a component's line " min X max Y nan N" adds 64 at most: X and Y have 15 characters, N has
 * 19 digits. The last line has 90.
 */
static size_t room_for(const model *of) { return 3 * (size_t)manifest_length(of) + 64 * (size_t)of->answer.components + 90; }

/* The table becomes the call's working room: what it held isn't needed any more. */
static int print_panel(const model *of, int headed) {
    size_t room = room_for(of);
    uint8_t *lines = malloc(room);
    zt_panel_text shown;
    if (!lines) return trouble_of(of->file.path, ENOMEM);
    shown = zt_panel(of->layout, of->file.at, of->file.length, of->table, ZT_TABLE_MOST, lines, room);
    if (shown.number == ZT_ACCEPTED && headed) {
        print_escaped(&out, (const uint8_t *)of->file.path, strlen(of->file.path));
        print_words(&out, ":\n");
    }
    if (shown.number == ZT_ACCEPTED) print_bytes(&out, lines, (size_t)shown.length);
    free(lines);
    return shown.number == ZT_ACCEPTED ? DONE : trouble(of->file.path, zt_refusal_words(shown.number));
}

int panel_files(const arguments *given) {
    int worst = DONE;
    for (int i = 0; i < given->count; i++) {
        model of;
        int status = model_open_sound(&of, given->operands[i], given->layout, 0);
        if (status == DONE) status = model_close(&of, print_panel(&of, given->count > 1));
        if (status > worst) worst = status;
    }
    return worst;
}
