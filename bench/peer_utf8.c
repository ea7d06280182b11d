/* Two peers of the UTF-8 test, for -O2: a loop that takes a byte at a time, and the best plain C that we can write. */
#include "peers.h"
#include <string.h>

/* A byte at a time: how many bytes must still come, and from where to where the next may go. */
static bool by_bytes(const uint8_t *p, size_t n) {
    unsigned need = 0, low = 0x80, high = 0xBF;
    for (size_t i = 0; i < n; i++) {
        unsigned c = p[i];
        if (need) {
            if (c < low || c > high) return false;
            need--, low = 0x80, high = 0xBF;
        } else if (c >= 0x80) {
            if (c < 0xC2 || c > 0xF4) return false;
            need = c < 0xE0 ? 1 : c < 0xF0 ? 2 : 3;
            if (c == 0xE0) low = 0xA0;
            if (c == 0xED) high = 0x9F;
            if (c == 0xF0) low = 0x90;
            if (c == 0xF4) high = 0x8F;
        }
    }
    return !need;
}

static bool follows(uint8_t c) { return c >> 6 == 2; }

/* The bytes of the character at p, which begins with one above 127; 0 for none. */
static inline size_t character(const uint8_t *p, size_t n) {
    unsigned c = p[0];
    if (c < 0xE0) return c >= 0xC2 && n >= 2 && follows(p[1]) ? 2 : 0;
    if (c < 0xF0) {
        if (n < 3 || !follows(p[1]) || !follows(p[2])) return 0;
        return (c == 0xE0 && p[1] < 0xA0) || (c == 0xED && p[1] > 0x9F) ? 0 : 3;
    }
    if (c > 0xF4 || n < 4 || !follows(p[1]) || !follows(p[2]) || !follows(p[3])) return 0;
    return (c == 0xF0 && p[1] < 0x90) || (c == 0xF4 && p[1] > 0x8F) ? 0 : 4;
}

/* Words of eight while no byte is above 127; from one that has such, straight to it, past its character, and back to words. */
static bool by_words(const uint8_t *p, size_t n) {
    size_t i = 0;
    while (n - i >= 8) {
        uint64_t w;
        memcpy(&w, p + i, 8);
        uint64_t high = w & 0x8080808080808080u;
        if (!high) {
            i += 8;
            continue;
        }
        i += (size_t)__builtin_ctzll(high) >> 3;
        size_t k = character(p + i, n - i);
        if (!k) return false;
        i += k;
    }
    while (i < n) {
        size_t k = p[i] < 0x80 ? 1 : character(p + i, n - i);
        if (!k) return false;
        i += k;
    }
    return true;
}

bool c_utf8_bytes(const void *x) {
    const input *in = x;
    return by_bytes(in->bytes, in->length);
}

bool c_utf8_words(const void *x) {
    const input *in = x;
    return by_words(in->bytes, in->length);
}
