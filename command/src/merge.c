/* zt merge: the first file's objects, then the second's, as zt_merge writes them. */
#include "commands.h"
#include "pair.h"
#include "whole.h"
#include <errno.h>
#include <stdlib.h>
#include <string.h>

static zt_merged merge_to(const pair *of, uint64_t *rows, size_t numbers, uint8_t *at, size_t room) {
    const input *first = &of->first.file, *second = &of->second.file;
    return zt_merge(of->first.layout, first->at, first->length, of->second.layout, second->at, second->length, rows, numbers, at, room);
}

/* How many names the second file shares with the first, and the leftmost of them in the second. */
static uint64_t shared_names(const pair *of, text *leftmost) {
    uint64_t count = 0;
    for (uint64_t i = 0; i < of->second.answer.objects; i++) {
        text name = text_of(&of->second, object_row(&of->second, i) + ZT_OBJECT_NAME);
        uint64_t j = 0;
        while (j < of->first.answer.objects && !same_text(text_of(&of->first, object_row(&of->first, j) + ZT_OBJECT_NAME), name)) j++;
        if (j == of->first.answer.objects) continue;
        if (count++ == 0) *leftmost = name;
    }
    return count;
}

static int say_shared(const char *output, text name, uint64_t count) {
    flush(&out);
    print_words(&err, "zt: ");
    print_escaped(&err, (const uint8_t *)output, strlen(output));
    print_counted(&err, ": refused ", ZT_TWICE, " ");
    print_words(&err, zt_refusal_name(ZT_TWICE));
    print_words(&err, ": both files have an object ");
    print_escaped(&err, name.at, name.length);
    if (count > 1) print_counted(&err, ", and ", count - 1, " more that both have");
    print_words(&err, "\n");
    flush(&err);
    return REFUSED;
}

static int say_unmerged(const pair *of, const char *output, zt_merged answer) {
    text name;
    uint64_t shared = answer.number == ZT_TWICE ? shared_names(of, &name) : 0;
    if (shared) return say_shared(output, name, shared);
    return say_refused(output, (fault){answer.number, answer.object, answer.component, ZT_LAYOUT_1_2, 0});
}

/* What is refused for another reason than room is so before any room is asked for; with ROOM the length is said. */
static int merged(const pair *of, const char *output) {
    size_t numbers = (size_t)ZT_NUMBERS(of->first.answer.objects + of->second.answer.objects, of->first.answer.components + of->second.answer.components);
    uint64_t *rows = malloc((numbers + 1) * sizeof *rows);
    zt_merged answer;
    whole file;
    int status;
    if (!rows) return trouble_of(output, ENOMEM);
    answer = merge_to(of, rows, numbers, NULL, 0);
    status = answer.number == ZT_ROOM ? whole_open(&file, output, (size_t)answer.length) : say_unmerged(of, output, answer);
    if (status == DONE) {
        answer = merge_to(of, rows, numbers, file.at, file.room);
        status = answer.number == ZT_ACCEPTED ? pair_unchanged(of) : trouble(output, zt_refusal_words(answer.number));
        if (status == DONE) status = whole_keep(&file, (size_t)answer.length);
        else whole_drop(&file);
    }
    free(rows);
    return status;
}

static const char *attributes_words(const pair *of) {
    static const char *const words[2][2] = {
        {"no root attributes; neither file has any", "root attributes are the second file's; the first has none"},
        {"root attributes are the first file's; the second has none", "root attributes are the first file's; the second's are not carried over"}};
    return words[attributes_of(&of->first).present][attributes_of(&of->second).present];
}

int merge_files(const arguments *given) {
    pair of;
    const char *words;
    int status = pair_open(&of, given);
    if (status != DONE) return status;
    words = attributes_words(&of);
    status = pair_close(&of, merged(&of, given->output));
    if (status != DONE) return status;
    remark(given->output, words);
    say_not_carried(given->operands[0], given->layout);
    say_not_carried(given->operands[1], given->second_layout);
    return DONE;
}
