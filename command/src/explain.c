/* zt explain: the proved sentence about each file, and below it, for people, what stands at the span and which numbers the check compares. */
#include "explain.h"
#include "commands.h"
#include "stream.h"
#include <errno.h>
#include <stdlib.h>
#include <string.h>

/* Words and numbers of a sentence, without its names, of which a byte takes three at most; and the bytes that are shown of a span. */
enum { SENTENCE_MOST = 256, SHOWN_MOST = 32 };

static int print_sentence(const refused *of) {
    size_t room = SENTENCE_MOST + 3 * (size_t)(of->why.object_name_length + of->why.component_name_length);
    uint8_t *line = malloc(room);
    zt_text said;
    if (!line) return trouble_of(of->file->path, ENOMEM);
    said = zt_sentence(of->layout, of->file->at, of->file->length, of->room, line, room);
    if (said.number == ZT_ACCEPTED) print_bytes(&out, line, (size_t)said.length);
    free(line);
    return said.number == ZT_ACCEPTED ? DONE : trouble(of->file->path, zt_refusal_words(said.number));
}

static void print_span(const refused *of) {
    static const char digits[] = "0123456789abcdef";
    uint64_t shown = of->why.length < SHOWN_MOST ? of->why.length : SHOWN_MOST;
    if (shown == 0) return;
    print_words(&out, "  bytes");
    for (uint64_t i = 0; i < shown; i++) {
        uint8_t byte = of->file->at[of->why.place + i];
        char hex[3] = {' ', digits[byte / 16], digits[byte % 16]};
        print_bytes(&out, hex, sizeof hex);
    }
    print_words(&out, shown < of->why.length ? " ..\n" : "\n");
}

static int explain(const input *file, const arguments *given, int headed) {
    refused of = {file, given->layout, given->room, zt_explain(given->layout, file->at, file->length, given->room)};
    int status;
    if (headed) {
        print_escaped(&out, (const uint8_t *)file->path, strlen(file->path));
        print_words(&out, ":\n");
    }
    status = print_sentence(&of);
    if (status != DONE || of.why.number == ZT_ACCEPTED) return status;
    print_span(&of);
    print_compared(&of);
    print_hints(&of);
    return REFUSED;
}

int explain_files(const arguments *given) {
    int worst = DONE;
    for (int i = 0; i < given->count; i++) {
        input file;
        int status = input_open(&file, given->operands[i]);
        if (status == DONE) {
            status = explain(&file, given, given->count > 1);
            if (input_unchanged(&file) != DONE) status = TROUBLE;
            input_close(&file);
        }
        if (status > worst) worst = status;
    }
    return worst;
}
