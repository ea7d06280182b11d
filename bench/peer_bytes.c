/* Peers that look at blobs, for -O2: whether they are equal, where and how often they differ, and the span of their f32 numbers. */
#include "peers.h"
#include <math.h>
#include <string.h>

/* Two files that differ in nothing but their blobs, which begin at 64, each at a multiple of 64. */
static const uint8_t *blob(input file, const two_files *f, size_t i) { return file.bytes + 64 + i * ((f->blob + 63) / 64 * 64); }

bool c_equal(const void *x) {
    const two_files *f = x;
    return f->first.length == f->second.length && memcmp(f->first.bytes, f->second.bytes, f->first.length) == 0;
}

/* The first position of a blob that differs, and how many do. */
static bool differs(const uint8_t *a, const uint8_t *b, size_t n, size_t *first, size_t *count) {
    size_t k = 0;
    while (k < n && a[k] == b[k]) k++;
    *first = k, *count = 0;
    for (; k < n; k++) *count += a[k] != b[k];
    return *count > 0;
}

bool c_apart(const void *x) {
    const two_files *f = x;
    bool all = true;
    for (size_t i = 0; i < f->objects; i++) {
        size_t first, count;
        all = differs(blob(f->first, f, i), blob(f->second, f, i), f->blob, &first, &count) && count == f->blob && all;
    }
    return all;
}

void c_copy(uint8_t *to, const uint8_t *from, size_t length) {
    size_t i = 0;
    for (; i + 16 <= length; i += 16) {
        uint64_t a[2];
        memcpy(a, from + i, sizeof a);
        memcpy(to + i, a, sizeof a);
        __asm__ volatile("" ::: "memory"); /* so that the loop isn't made a call of memcpy */
    }
    for (; i < length; i++) to[i] = from[i];
}

bool c_span(const uint8_t *p, size_t length) {
    float smallest = INFINITY, largest = -INFINITY;
    size_t nans = 0;
    for (size_t i = 0; i + 4 <= length; i += 4) {
        float v;
        memcpy(&v, p + i, 4);
        if (v != v) {
            nans++;
            continue;
        }
        if (v < smallest) smallest = v;
        if (v > largest) largest = v;
    }
    return smallest <= largest && nans < length;
}
