/*
 * A plan for flash pages: each component touches as few pages as its length allows, so that none that fits in one crosses a page's edge. The file is taken to
 * begin at a page's edge. No part of what is proved: zt_write_planned judges what is proposed here as it does anyone's plan.
 */
#ifndef PAGES_H
#define PAGES_H
#include <stddef.h>
#include <stdint.h>

/* No end: components would end above 2^40. */
#define PAGES_NO_END UINT64_MAX

/*
 * Offsets for components of these lengths, in their order, each at the first place that will do; answers where the last one ends, or PAGES_NO_END. The page is a
 * multiple of 64.
 */
uint64_t pages_in_order(uint64_t *offsets, const uint64_t *lengths, size_t count, uint64_t page);

/* The same by falling lengths, each in the first gap that has room, so that short ones fill the gaps that long ones leave. 0 if there is no memory for it. */
uint64_t pages_by_length(uint64_t *offsets, const uint64_t *lengths, size_t count, uint64_t page);
#endif
