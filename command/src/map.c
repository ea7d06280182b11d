/* zt map: what each byte of a file belongs to, by its rows: a bar, a legend, and sums that add up to the file's length. */
#include "commands.h"
#include "json.h"
#include "model.h"
#include <errno.h>
#include <stdio.h>
#include <stdlib.h>

enum kind { FRAME, COMPONENTS, GAPS, MANIFEST, KINDS };
enum { HEADER = 8, CELLS = 64 };

static const struct {
    char mark;
    const char *name;
} kinds[KINDS] = {{'F', "frame"}, {'#', "components"}, {'.', "gaps"}, {'M', "manifest"}};

typedef struct {
    enum kind kind;
    uint64_t offset, length;
} span;

/* The whole file as spans, one after the other; neighbours are of different kinds, and a byte of several components counts once. */
typedef struct {
    span *spans;
    size_t count;
    uint64_t length, sums[KINDS];
} account;

static int earlier(const void *a, const void *b) {
    uint64_t one = ((const span *)a)->offset, other = ((const span *)b)->offset;
    return one < other ? -1 : one > other;
}

/* Spans up to `end`, from where the last one ended. */
static void reach(account *of, enum kind kind, uint64_t end) {
    span *last = of->count ? of->spans + of->count - 1 : NULL;
    uint64_t from = last ? last->offset + last->length : 0;
    if (end <= from) return;
    of->sums[kind] += end - from;
    if (last && last->kind == kind) last->length += end - from;
    else of->spans[of->count++] = (span){kind, from, end - from};
}

/* At most a gap and a span for each component, and what is around them. `parts` are the components' ranges. */
static int account_of(account *into, const model *of) {
    size_t components = (size_t)of->answer.components;
    span *parts = malloc((components + 1) * sizeof *parts);
    *into = (account){.spans = malloc((2 * components + 4) * sizeof(span)), .length = of->file.length};
    if (!parts || !into->spans) {
        free(parts);
        return trouble_of(of->file.path, ENOMEM);
    }
    for (size_t i = 0; i < components; i++) {
        const uint64_t *row = component_row(of, i);
        parts[i] = (span){COMPONENTS, row[ZT_COMPONENT_OFFSET], row[ZT_COMPONENT_LENGTH]};
    }
    qsort(parts, components, sizeof *parts, earlier);
    reach(into, FRAME, HEADER);
    for (size_t i = 0; i < components; i++) {
        if (parts[i].length == 0) continue;
        reach(into, GAPS, parts[i].offset);
        reach(into, COMPONENTS, parts[i].offset + parts[i].length);
    }
    reach(into, GAPS, of->answer.start);
    reach(into, MANIFEST, into->length - behind_manifest(of->layout));
    reach(into, FRAME, into->length);
    free(parts);
    return DONE;
}

/* The bar's cell where `part` of `parts` of a file begins, without a product that could pass 64 bits. */
static uint64_t cell_start(uint64_t length, uint64_t part, uint64_t parts) { return length / parts * part + length % parts * part / parts; }

/* Each cell shows what most of its bytes belong to, of equal ones the first of the legend. */
static void print_bar(const account *of) {
    uint64_t cells = of->length < CELLS ? of->length : CELLS;
    size_t at = 0;
    for (uint64_t i = 0; i < cells; i++) {
        uint64_t from = cell_start(of->length, i, cells), to = cell_start(of->length, i + 1, cells), bytes[KINDS] = {0};
        enum kind most = FRAME;
        while (from < to) {
            uint64_t end = of->spans[at].offset + of->spans[at].length, stop = end < to ? end : to;
            bytes[of->spans[at].kind] += stop - from;
            from = stop;
            if (stop == end) at++;
        }
        for (int kind = 0; kind < KINDS; kind++)
            if (bytes[kind] > bytes[most]) most = (enum kind)kind;
        print_bytes(&out, &kinds[most].mark, 1);
    }
    print_words(&out, "\n");
}

static void legend_line(char mark, const char *name, uint64_t bytes, uint64_t of) {
    char line[96];
    print_bytes(&out, line, (size_t)snprintf(line, sizeof line, "%c %-10s %20llu %5.1f %%\n", mark, name, (unsigned long long)bytes,
                                             100.0 * (double)bytes / (double)of));
}

static void print_account(const account *of) {
    print_bar(of);
    for (int kind = 0; kind < KINDS; kind++) legend_line(kinds[kind].mark, kinds[kind].name, of->sums[kind], of->length);
    legend_line(' ', "file", of->length, of->length);
}

static void json_account(const account *of, const model *about) {
    print_words(&out, "{");
    json_verdict(about->file.path, fault_of(about));
    json_number(0, " ", "length", of->length);
    for (int kind = 0; kind < KINDS; kind++) json_number(0, " ", kinds[kind].name, of->sums[kind]);
    json_key(0, " ", "spans");
    print_words(&out, "[");
    for (size_t i = 0; i < of->count; i++) {
        print_words(&out, i ? ",\n  {" : "\n  {");
        json_key(1, "", "kind");
        json_words(kinds[of->spans[i].kind].name);
        json_number(0, " ", "offset", of->spans[i].offset);
        json_number(0, " ", "length", of->spans[i].length);
        print_words(&out, "}");
    }
    print_words(&out, "]}\n");
}

int map_file(const arguments *given) {
    model of;
    account all;
    int status = model_open_sound(&of, given->operands[0], given->layout, given->json);
    if (status != DONE) return status;
    status = account_of(&all, &of);
    if (status == DONE && given->json) json_account(&all, &of);
    else if (status == DONE) print_account(&all);
    free(all.spans);
    return model_close(&of, status);
}
