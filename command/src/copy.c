/*
 * zt copy: a file read, and its rows written anew, by zt_write or, with a plan, by zt_write_planned; unknown fields are gone, and without a plan blobs stand in
 * order with no more than the gaps that 64 asks for.
 * zt import: the same of a file of layout 1.0, which becomes one of 1.2.0.
 */
#include "commands.h"
#include "plan.h"
#include "whole.h"

/*
 * A length that the new file can't pass: 24 of frame, the components, and the manifest. That is no longer than the old one, but for offsets that may take 8 bytes
 * more each, the version, which may be 2 longer, and the head of a map of objects, one; and, out of layout 1.0, for each component's dtype, 11 at most. The
 * components end where the plan says, or have up to 63 zeros before each. No more than SIZE_MAX.
 */
static size_t room_for(const model *of, const plan *by) {
    size_t room = 24 + 16 + (size_t)manifest_length(of) + (by ? (size_t)plan_end(of, by) : 0), entry = of->layout == ZT_LAYOUT_1_0 ? 8 + 11 : 8;
    for (uint64_t i = 0; i < of->answer.components; i++) {
        size_t more = entry + (by ? 0 : (size_t)component_row(of, i)[ZT_COMPONENT_LENGTH] + 63);
        if (room > SIZE_MAX - more) return SIZE_MAX;
        room += more;
    }
    return room;
}

static zt_written write_to(const model *of, const plan *by, uint8_t *at, size_t room) {
    if (by) return plan_write(of, by, at, room);
    return zt_write(of->table, ZT_TABLE_MOST, of->answer.objects, of->answer.components, of->answer.place, of->answer.size, of->file.at, of->file.length, at,
                    room);
}

/* What is refused for another reason than room is so before any room is asked for. */
static int copied(const model *of, const plan *by, const char *output) {
    zt_written written = write_to(of, by, NULL, 0);
    whole file;
    int status;
    if (written.number != ZT_ROOM) return say_unwritten(of, by, written);
    if (whole_open(&file, output, room_for(of, by)) != DONE) return TROUBLE;
    written = write_to(of, by, file.at, file.room);
    status = written.number == ZT_ACCEPTED ? input_unchanged(&of->file) : trouble(of->file.path, zt_refusal_words(written.number));
    if (status == DONE) return whole_keep(&file, (size_t)written.length);
    whole_drop(&file);
    return status;
}

static int copy_as(uint64_t layout, const arguments *given) {
    model of;
    plan by;
    int status = model_open_sound(&of, given->operands[0], layout, 0);
    if (status != DONE) return status;
    if (given->plan) status = plan_read(&by, given->plan, given->ceiling);
    if (status == DONE) {
        status = copied(&of, given->plan ? &by : NULL, given->output);
        if (given->plan) plan_close(&by);
    }
    return model_close(&of, status);
}

int copy_file(const arguments *given) { return copy_as(ZT_LAYOUT_1_2, given); }

int import_file(const arguments *given) {
    int status = copy_as(ZT_LAYOUT_1_0, given);
    if (status == DONE) say_not_carried(given->operands[0], ZT_LAYOUT_1_0);
    return status;
}
