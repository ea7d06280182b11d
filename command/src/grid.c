/* Cells, measured or printed. */
#include "grid.h"
#include <stdio.h>
#include <string.h>

void row_begin(grid *in, size_t indent) {
    in->column = 0;
    in->pending = indent;
}

void row_end(const grid *in) {
    if (in->printing) print_words(&out, "\n");
}

static void cell_begin(grid *in, size_t width, int right) {
    size_t *most = &in->width[in->column], blanks = *most > width ? *most - width : 0;
    if (in->printing) {
        print_blanks(&out, in->pending + (right ? blanks : 0));
        in->pending = 2 + (right ? 0 : blanks);
    } else if (width > *most) {
        *most = width < GRID_WIDEST ? width : GRID_WIDEST;
    }
    in->column++;
}

void cell_words(grid *in, const char *words) {
    cell_begin(in, strlen(words), 0);
    if (in->printing) print_words(&out, words);
}

void cell_number(grid *in, uint64_t number) {
    char digits[21];
    cell_begin(in, (size_t)snprintf(digits, sizeof digits, "%llu", (unsigned long long)number), 1);
    if (in->printing) print_words(&out, digits);
}

void cell_text(grid *in, text of) {
    const char *words = stand_in(of);
    if (words) {
        cell_words(in, words);
        return;
    }
    cell_begin(in, escaped_length(of.at, of.length), 0);
    if (in->printing) print_escaped(&out, of.at, of.length);
}

void cell_range(grid *in, uint64_t place, uint64_t length) {
    char words[64];
    snprintf(words, sizeof words, "%llu bytes at %llu", (unsigned long long)length, (unsigned long long)place);
    cell_words(in, place || length ? words : "-");
}

void cell_list(grid *in, const uint64_t *numbers, uint64_t count) {
    char words[ZT_RANK_MOST * 21 + 3] = "[";
    size_t used = 1;
    for (uint64_t i = 0; i < count; i++)
        used += (size_t)snprintf(words + used, sizeof words - used, "%s%llu", i ? "," : "", (unsigned long long)numbers[i]);
    snprintf(words + used, sizeof words - used, "]");
    cell_words(in, words);
}
