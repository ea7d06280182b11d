/* Where components go: one after the other, or into gaps. */
#include "pages.h"
#include "arguments.h"
#include <stdlib.h>
#include <string.h>

static uint64_t aligned(uint64_t place) { return (place + ALIGNMENT - 1) / ALIGNMENT * ALIGNMENT; }

/*
 * The first multiple of 64 from `from` on where so many bytes touch as few pages as they can: what their last page has left is how far behind a page's edge
 * they may begin. No bytes touch no page.
 */
static uint64_t next_offset(uint64_t from, uint64_t length, uint64_t page) {
    uint64_t offset = aligned(from), left = (page - length % page) % page;
    return length == 0 || offset % page <= left ? offset : (offset / page + 1) * page;
}

static int is_above(uint64_t offset, uint64_t length) { return offset > CEILING_MOST || length > CEILING_MOST - offset; }

uint64_t pages_in_order(uint64_t *offsets, const uint64_t *lengths, size_t count, uint64_t page) {
    uint64_t end = ALIGNMENT;
    for (size_t i = 0; i < count; i++) {
        offsets[i] = next_offset(end, lengths[i], page);
        if (is_above(offsets[i], lengths[i])) return PAGES_NO_END;
        end = offsets[i] + lengths[i];
    }
    return count ? end : 0;
}

typedef struct {
    uint64_t length;
    size_t row;
} part;

static int longer(const void *a, const void *b) {
    const part *one = a, *other = b;
    if (one->length != other->length) return one->length > other->length ? -1 : 1;
    return one->row < other->row ? -1 : 1;
}

/* Free places between components, rising; the last one never ends. */
typedef struct {
    uint64_t from, to;
} gap;

/* The gap becomes what is left of it before and behind the component. */
static size_t split(gap *gaps, size_t count, size_t at, uint64_t offset, uint64_t end) {
    gap left[2] = {{gaps[at].from, offset}, {aligned(end), gaps[at].to}};
    size_t kept = 0;
    for (int i = 0; i < 2; i++)
        if (left[i].from < left[i].to) left[kept++] = left[i];
    memmove(gaps + at + kept, gaps + at + 1, (count - at - 1) * sizeof *gaps);
    memcpy(gaps + at, left, kept * sizeof *gaps);
    return count - 1 + kept;
}

/* The first gap that has room for a component, and its offset there. */
static size_t find_gap(const gap *gaps, uint64_t length, uint64_t page, uint64_t *offset) {
    for (size_t at = 0;; at++) {
        *offset = next_offset(gaps[at].from, length, page);
        if (*offset + length <= gaps[at].to) return at;
    }
}

/* `gaps` has room for one more than there are parts: each adds one at most. An empty component shares no byte and takes no gap. */
static uint64_t fill(uint64_t *offsets, const part *parts, size_t count, gap *gaps, uint64_t page) {
    uint64_t greatest = ALIGNMENT;
    size_t free_places = 1;
    gaps[0] = (gap){ALIGNMENT, UINT64_MAX};
    for (size_t i = 0; i < count; i++) {
        uint64_t length = parts[i].length, *offset = offsets + parts[i].row;
        *offset = ALIGNMENT;
        if (length == 0) continue;
        if (is_above(ALIGNMENT, length)) return PAGES_NO_END;
        size_t at = find_gap(gaps, length, page, offset);
        if (is_above(*offset, length)) return PAGES_NO_END;
        free_places = split(gaps, free_places, at, *offset, *offset + length);
        if (*offset + length > greatest) greatest = *offset + length;
    }
    return greatest;
}

uint64_t pages_by_length(uint64_t *offsets, const uint64_t *lengths, size_t count, uint64_t page) {
    part *parts = malloc((count + 1) * sizeof *parts);
    gap *gaps = malloc((count + 1) * sizeof *gaps);
    uint64_t end = 0;
    if (parts && gaps) {
        for (size_t i = 0; i < count; i++) parts[i] = (part){lengths[i], i};
        qsort(parts, count, sizeof *parts, longer);
        end = fill(offsets, parts, count, gaps, page);
    }
    free(parts);
    free(gaps);
    return end;
}
