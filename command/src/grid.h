/* Rows of cells in columns that are as wide as their widest cell, up to a limit that a longer cell passes. */
#ifndef GRID_H
#define GRID_H
#include "model.h"

enum { GRID_COLUMNS = 6, GRID_WIDEST = 40 };

/* Rows are gone through twice: first each column's width is measured, then they are printed. Blanks wait until something follows them. */
typedef struct {
    size_t width[GRID_COLUMNS], pending;
    int column, printing;
} grid;

void row_begin(grid *in, size_t indent);
void row_end(const grid *in);
void cell_words(grid *in, const char *words);
void cell_number(grid *in, uint64_t number); /* to the right */
void cell_text(grid *in, text of);           /* or what stands for it */
void cell_range(grid *in, uint64_t place, uint64_t length);
void cell_list(grid *in, const uint64_t *numbers, uint64_t count); /* ZT_RANK_MOST at most */
#endif
