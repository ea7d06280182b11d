/* Hand-written C with no promise kept. */
#include "head.h"
#include "peers.h"
#include <stdlib.h>

bool strict_utf8(const uint8_t *p, size_t n) {
    size_t i = 0;
    while (i < n) {
        uint64_t w;
        while (n - i >= 8 && (memcpy(&w, p + i, 8), !(w & 0x8080808080808080u))) i += 8;
        if (i == n) break;
        if (n >= 8 && n - i < 8 && (memcpy(&w, p + n - 8, 8), !(w & 0x8080808080808080u))) return true;
        uint8_t c = p[i];
        if (c < 0x80) { i++; continue; }
        size_t k = c >= 0xF0 ? 3 : c >= 0xE0 ? 2 : 1;
        if (c < 0xC2 || c > 0xF4 || n - i <= k) return 0;
        for (size_t j = 1; j <= k; j++) if (p[i + j] >> 6 != 2) return 0;
        if ((c == 0xE0 && p[i + 1] < 0xA0) || (c == 0xED && p[i + 1] > 0x9F) ||
            (c == 0xF0 && p[i + 1] < 0x90) || (c == 0xF4 && p[i + 1] > 0x8F)) return 0;
        i += k + 1;
    }
    return 1;
}

#define ITEM strict_item
#define TEXT(p, n) 1
#include "strict_item.h"
#undef ITEM
#undef TEXT

#define ITEM strict_utf8_item
#define TEXT(p, n) strict_utf8(p, n)
#include "strict_item.h"

const uint8_t *c_skip(const uint8_t *p, const uint8_t *e, int depth) { return strict_item(p, e, depth); }

bool c_item(const void *x) {
    const input *in = x;
    return strict_item(in->bytes, in->bytes + in->length, 32) == in->bytes + in->length;
}

bool c_item_utf8(const void *x) {
    const input *in = x;
    return strict_utf8_item(in->bytes, in->bytes + in->length, 32) == in->bytes + in->length;
}

bool c_utf8(const void *x) {
    const input *in = x;
    return strict_utf8(in->bytes, in->length);
}

/* qsort hands no context on. */
static const names *sorted;

static int by_name(const void *a, const void *b) {
    uint32_t i = *(const uint32_t *)a, j = *(const uint32_t *)b;
    if (sorted->size[i] != sorted->size[j]) return sorted->size[i] < sorted->size[j] ? -1 : 1;
    const uint8_t *end = sorted->in.bytes + sorted->in.length;
    return memcmp(end - sorted->left[i], end - sorted->left[j], sorted->size[i]);
}

bool c_names(const void *input) {
    const names *n = input;
    static uint32_t ix[65536];
    for (uint32_t i = 0; i < n->count; i++) ix[i] = i;
    sorted = n;
    qsort(ix, n->count, sizeof *ix, by_name);
    for (size_t i = 1; i < n->count; i++) if (!by_name(&ix[i - 1], &ix[i])) return 0;
    return 1;
}
