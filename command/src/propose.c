/* zt plan: proposes a placement plan for flash pages. What is written was taken by zt_write_planned, for these rows and this ceiling. */
#include "commands.h"
#include "pages.h"
#include "plan.h"
#include "whole.h"
#include <errno.h>
#include <stdio.h>
#include <stdlib.h>
#include <string.h>

/* Bytes of a line: 20 digits and its end. */
enum { LINE = 21 };

static int say_too_low(const model *of, uint64_t ceiling, uint64_t end) {
    char words[120];
    if (end == PAGES_NO_END) snprintf(words, sizeof words, "no plan was found: components would end above 2^40, the highest ceiling there is");
    else
        snprintf(words, sizeof words, "no plan was found for the ceiling %llu; there is one for %llu", (unsigned long long)ceiling,
                 (unsigned long long)end);
    remark(of->file.path, words);
    return REFUSED;
}

/* In the order of rows where that stays under the ceiling; else into gaps. */
static int propose(plan *into, const model *of, const uint64_t *lengths, uint64_t page) {
    uint64_t end = pages_in_order(into->offsets, lengths, into->count, page), tight;
    if (end <= into->ceiling) return DONE;
    tight = pages_by_length(into->offsets, lengths, into->count, page);
    if (tight == 0) return trouble_of(of->file.path, ENOMEM);
    return tight <= into->ceiling ? DONE : say_too_low(of, into->ceiling, tight < end ? tight : end);
}

/* No output is lent, so that ROOM says that all else is right. */
static int judged(const model *of, const plan *by) {
    zt_written written = plan_write(of, by, NULL, 0);
    return written.number == ZT_ROOM ? DONE : say_unwritten(of, by, written);
}

static void print_plan(const plan *of) {
    for (size_t i = 0; i < of->count; i++) {
        print_number(&out, of->offsets[i]);
        print_words(&out, "\n");
    }
}

static int write_plan(const model *about, const plan *of, const char *output) {
    whole file;
    size_t used = 0;
    if (whole_open(&file, output, of->count * LINE) != DONE) return TROUBLE;
    for (size_t i = 0; i < of->count; i++) {
        char line[LINE + 1];
        int length = snprintf(line, sizeof line, "%llu\n", (unsigned long long)of->offsets[i]);
        memcpy(file.at + used, line, (size_t)length);
        used += (size_t)length;
    }
    if (input_unchanged(&about->file) == DONE) return whole_keep(&file, used);
    whole_drop(&file);
    return TROUBLE;
}

static int planned(const model *of, const arguments *given) {
    size_t count = (size_t)of->answer.components;
    uint64_t *lengths = malloc((count + 1) * sizeof *lengths);
    plan by = {given->operands[0], malloc((count + 1) * sizeof *by.offsets), count, given->ceiling};
    int status = lengths && by.offsets ? DONE : trouble_of(of->file.path, ENOMEM);
    for (size_t i = 0; status == DONE && i < count; i++) lengths[i] = component_row(of, i)[ZT_COMPONENT_LENGTH];
    if (status == DONE) status = propose(&by, of, lengths, given->page);
    if (status == DONE) status = judged(of, &by);
    if (status == DONE && given->output) status = write_plan(of, &by, given->output);
    else if (status == DONE) print_plan(&by);
    free(lengths);
    plan_close(&by);
    return status;
}

int plan_file(const arguments *given) {
    model of;
    int status = model_open_sound(&of, given->operands[0], given->layout, 0);
    if (status != DONE) return status;
    status = planned(&of, given);
    return model_close(&of, status);
}
