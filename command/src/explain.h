/* Why a file was refused, for people: what is worked out from the span that zt_explain answers. No part of what is proved, and the manual says so. */
#ifndef EXPLAIN_H
#define EXPLAIN_H
#include "input.h"
#include "zt.h"

typedef struct {
    const input *file;
    uint64_t layout, room;
    zt_explanation why;
} refused;

/* A line with the numbers that the check compares, found and asked, or the text or kind that it found; none where it compares neither. */
void print_compared(const refused *of);

/* Lines that begin with "hint: ": what else the file may be. */
void print_hints(const refused *of);

/* The code of a dtype's name in a layout, or ZT_BOOL + 1. */
uint64_t dtype_of(const uint8_t *at, size_t length, uint64_t layout);
#endif
