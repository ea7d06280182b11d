/* zt get: one component's bytes, by the names of its object and itself. */
#include "commands.h"
#include "model.h"
#include "whole.h"
#include <errno.h>
#include <stdio.h>
#include <stdlib.h>
#include <string.h>

static int digit(char of) { return of >= '0' && of <= '9' ? of - '0' : of >= 'a' && of <= 'f' ? of - 'a' + 10 : -1; }

/* A name from an operand: its bytes as they are, or, where it is escaped as listings print it, those that it stands for. */
static int name_read(text *name, const char *operand, int escaped) {
    size_t length = strlen(operand);
    uint8_t *into = malloc(length + 1);
    *name = (text){into, 0, 1};
    if (!into) return trouble_of(operand, ENOMEM);
    for (size_t i = 0; i < length; i++) {
        into[name->length++] = (uint8_t)operand[i];
        if (!escaped || operand[i] != '\\') continue;
        int high = digit(operand[i + 1]), low = high < 0 ? -1 : digit(operand[i + 2]);
        if (low < 0) return trouble(operand, "no name as listings print it: a backslash takes two hex digits");
        into[name->length - 1] = (uint8_t)(high * 16 + low);
        i += 2;
    }
    return DONE;
}

/* A name with a backslash may have been copied from a listing, where it stands for another. */
static int no_such(const arguments *given, text name, const char *what) {
    char words[120];
    int copied = !given->escaped && name.length && memchr(name.at, '\\', name.length);
    snprintf(words, sizeof words, "%s%s", what, copied ? "; --escaped takes names as listings print them" : "");
    return trouble_named(name.at, name.length, words);
}

/* The index among all components; or their count, and what is missing was said. */
static uint64_t find(const model *of, const arguments *given, text object, text component) {
    uint64_t first = 0;
    for (uint64_t i = 0; i < of->answer.objects; i++) {
        const uint64_t *row = object_row(of, i);
        uint64_t count = row[ZT_OBJECT_COMPONENTS];
        if (same_text(text_of(of, row + ZT_OBJECT_NAME), object)) {
            for (uint64_t j = first; j < first + count; j++)
                if (same_text(text_of(of, component_row(of, j) + ZT_COMPONENT_NAME), component)) return j;
            no_such(given, component, "the object has no such component");
            return of->answer.components;
        }
        first += count;
    }
    no_such(given, object, "the file has no such object");
    return of->answer.components;
}

static int put(const model *of, const char *output, uint64_t index) {
    zt_range range = zt_view(of->file.at, of->file.length, of->table, ZT_TABLE_MOST, of->answer.objects, of->answer.components, index);
    whole file;
    if (range.number != ZT_ACCEPTED) return trouble(of->file.path, zt_refusal_words(range.number));
    if (!output) {
        print_bytes(&out, of->file.at + range.offset, (size_t)range.length);
        return DONE;
    }
    if (whole_open(&file, output, (size_t)range.length) != DONE) return TROUBLE;
    if (range.length) memcpy(file.at, of->file.at + range.offset, (size_t)range.length);
    if (input_unchanged(&of->file) == DONE) return whole_keep(&file, (size_t)range.length);
    whole_drop(&file);
    return TROUBLE;
}

int get_component(const arguments *given) {
    text object = {0}, component = {0};
    model of;
    int status = name_read(&object, given->operands[1], given->escaped);
    if (status == DONE) status = name_read(&component, given->operands[2], given->escaped);
    if (status == DONE) status = model_open_sound(&of, given->operands[0], given->layout, 0);
    if (status == DONE) {
        uint64_t index = find(&of, given, object, component);
        status = index == of.answer.components ? TROUBLE : put(&of, given->output, index);
        status = model_close(&of, status);
    }
    free((void *)object.at);
    free((void *)component.at);
    return status;
}
