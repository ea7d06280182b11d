/* Reading a plan, and telling which of its lines is refused, and why. */
#include "plan.h"
#include "arguments.h"
#include "decimal.h"
#include <errno.h>
#include <stdio.h>
#include <stdlib.h>
#include <string.h>

static int line_trouble(const char *path, size_t line, const char *what) {
    char words[120];
    snprintf(words, sizeof words, "line %llu: %s", (unsigned long long)line, what);
    return trouble(path, words);
}

/* The last line may end without a newline. */
static int lines_read(plan *into, const input *file) {
    size_t at = 0;
    while (at < file->length) {
        const uint8_t *from = file->at + at, *end = memchr(from, '\n', file->length - at);
        size_t length = end ? (size_t)(end - from) : file->length - at, line = into->count + 1;
        enum decimal found = decimal_read(into->offsets + into->count, from, length);
        if (length == 0) return line_trouble(into->path, line, "an empty line, where an offset is due");
        if (found == NOT_DECIMAL) return line_trouble(into->path, line, "no decimal number: an offset is digits and nothing else");
        if (found == OVER_64_BITS) return line_trouble(into->path, line, "too large a number: no offset is above 2^40");
        into->count++;
        at += length + 1;
    }
    return DONE;
}

int plan_read(plan *into, const char *path, uint64_t ceiling) {
    input file;
    int status;
    *into = (plan){.path = path, .ceiling = ceiling};
    if (input_open(&file, path) != DONE) return TROUBLE;
    /* A number takes two bytes at least, its line's end among them, but for the last. */
    into->offsets = malloc((file.length / 2 + 1) * sizeof *into->offsets);
    status = into->offsets ? lines_read(into, &file) : trouble_of(path, ENOMEM);
    if (status == DONE) status = input_unchanged(&file);
    input_close(&file);
    if (status != DONE) plan_close(into);
    return status;
}

void plan_close(plan *of) {
    free(of->offsets);
    of->offsets = NULL;
}

zt_written plan_write(const model *of, const plan *by, uint8_t *at, size_t room) {
    return zt_write_planned(of->table, ZT_TABLE_MOST, of->answer.objects, of->answer.components, of->answer.place, of->answer.size, of->file.at,
                            of->file.length, by->offsets, by->count, by->ceiling, at, room);
}

static uint64_t length_of(const model *of, uint64_t row) { return component_row(of, row)[ZT_COMPONENT_LENGTH]; }

uint64_t plan_end(const model *of, const plan *by) {
    uint64_t end = 0;
    for (uint64_t i = 0; i < of->answer.components; i++)
        if (by->offsets[i] + length_of(of, i) > end) end = by->offsets[i] + length_of(of, i);
    return end;
}

/* Whether two ranges that aren't empty share a byte; neither ends above 2^40. */
static int shared(const model *of, const plan *by, uint64_t a, uint64_t b) {
    return length_of(of, a) && length_of(of, b) && by->offsets[a] < by->offsets[b] + length_of(of, b) && by->offsets[b] < by->offsets[a] + length_of(of, a);
}

/* "line 4, object ear.weight, component data", names as listings have them. */
static void print_row(const model *of, const plan *by, uint64_t row) {
    const uint64_t *part = component_row(of, row);
    text owner = text_of(of, object_row(of, part[ZT_COMPONENT_OWNER]) + ZT_OBJECT_NAME), name = text_of(of, part + ZT_COMPONENT_NAME);
    if (row < by->count) print_counted(&err, "line ", row + 1, ", ");
    print_words(&err, "object ");
    print_escaped(&err, owner.at, owner.length);
    print_words(&err, ", component ");
    print_escaped(&err, name.at, name.length);
}

/* The rule that a row with an offset breaks by itself or with an earlier one, in document 02's order. */
static void print_breach(const model *of, const plan *by, uint64_t row) {
    uint64_t offset = by->offsets[row], length = length_of(of, row), other = 0;
    print_counted(&err, "offset ", offset, "");
    if (offset % ALIGNMENT) {
        print_words(&err, " is no multiple of 64");
    } else if (offset < ALIGNMENT) {
        print_words(&err, " is under 64");
    } else if (offset > by->ceiling || length > by->ceiling - offset) {
        print_counted(&err, " and length ", length, " end above the ceiling");
        print_counted(&err, ", ", by->ceiling, "");
    } else {
        while (other < row && !shared(of, by, other, row)) other++;
        print_counted(&err, " and length ", length, " share a byte with ");
        print_row(of, by, other);
        print_counted(&err, ", offset ", by->offsets[other], "");
        print_counted(&err, " and length ", length_of(of, other), "");
    }
}

static int say_plan_refused(const model *of, const plan *by, uint64_t row) {
    flush(&out);
    print_words(&err, "zt: ");
    print_escaped(&err, (const uint8_t *)by->path, strlen(by->path));
    print_counted(&err, ": refused ", ZT_PLAN, " ");
    print_words(&err, zt_refusal_name(ZT_PLAN));
    print_words(&err, ", ");
    if (row == of->answer.components) {
        print_counted(&err, "line ", row + 1, ": offsets are left over");
        print_counted(&err, ": the file's components are ", row, "");
        print_counted(&err, ", the plan's lines ", by->count, "");
    } else {
        print_row(of, by, row);
        print_words(&err, ": ");
        if (row < by->count) print_breach(of, by, row);
        else print_counted(&err, "has no offset: the plan's lines are ", by->count, "");
    }
    print_words(&err, "\n");
    flush(&err);
    return REFUSED;
}

int say_unwritten(const model *of, const plan *by, zt_written written) {
    if (by && written.number == ZT_PLAN) return say_plan_refused(of, by, written.object);
    return say_refused(of->file.path, (fault){written.number, written.object, written.component, ZT_LAYOUT_1_2, 0});
}
