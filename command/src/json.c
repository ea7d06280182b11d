/* Texts as JSON strings, and members of objects. */
#include "json.h"
#include "stream.h"
#include <stdio.h>
#include <string.h>

enum { REPLACEMENT = 0xFFFD };

/* The character at the front of a text, and how many bytes it takes; a byte that begins none (RFC 3629) is REPLACEMENT. */
static uint32_t character(const uint8_t *at, size_t length, size_t *taken) {
    static const uint32_t least[] = {0, 0, 0x80, 0x800, 0x10000};
    size_t size = at[0] < 0x80 ? 1 : at[0] >> 5 == 6 ? 2 : at[0] >> 4 == 14 ? 3 : at[0] >> 3 == 30 ? 4 : 0;
    uint32_t point = size < 2 ? at[0] : at[0] & (0x7Fu >> size);
    *taken = 1;
    if (size == 0 || size > length) return REPLACEMENT;
    for (size_t i = 1; i < size; i++) {
        if (at[i] >> 6 != 2) return REPLACEMENT;
        point = point << 6 | (at[i] & 0x3F);
    }
    if (point < least[size] || point > 0x10FFFF || point >> 11 == 27) return REPLACEMENT;
    *taken = size;
    return point;
}

static void print_unit(unsigned unit) {
    char escaped[8];
    print_bytes(&out, escaped, (size_t)snprintf(escaped, sizeof escaped, "\\u%04x", unit));
}

void json_text(const uint8_t *at, size_t length) {
    print_words(&out, "\"");
    for (size_t taken; length > 0; at += taken, length -= taken) {
        uint32_t point = character(at, length, &taken);
        if (point >= 0x10000) {
            print_unit(0xD800 + ((point - 0x10000) >> 10));
            print_unit(0xDC00 + ((point - 0x10000) & 0x3FF));
        } else if (point < 32 || point > 126 || point == '"' || point == '\\') {
            print_unit(point);
        } else {
            print_bytes(&out, at, 1);
        }
    }
    print_words(&out, "\"");
}

void json_words(const char *words) { json_text((const uint8_t *)words, strlen(words)); }

void json_key(int first, const char *before, const char *key) {
    print_words(&out, first ? "" : ",");
    print_words(&out, before);
    json_words(key);
    print_words(&out, ": ");
}

void json_number(int first, const char *before, const char *key, uint64_t number) {
    json_key(first, before, key);
    print_number(&out, number);
}
