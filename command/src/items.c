/* Heads, steps over items, and ways down. */
#include "items.h"
#include "model.h"
#include <string.h>

enum { HEADER = 8, DEPTH = 32, BREAK = 0xFF };

/* A head of one byte and up to eight more; low bits of 28 to 30 have no meaning. */
static int head_at(item *into, const uint8_t *from, const uint8_t *to) {
    unsigned low;
    size_t more;
    if (from >= to) return 0;
    low = from[0] & 31;
    more = low < 24 || low == 31 ? 0 : (size_t)1 << (low - 24);
    if (low > 27 && low != 31) return 0;
    if (more >= (size_t)(to - from)) return 0;
    *into = (item){from, from + 1 + more, NULL, (enum major)(from[0] >> 5), low < 24 ? low : 0, low == 31};
    for (size_t i = 1; i <= more; i++) into->argument = into->argument << 8 | from[i];
    return 1;
}

static const uint8_t *behind(const uint8_t *from, const uint8_t *to, int depth);

/* Behind the items that one holds: so many of them, or up to the break. */
static const uint8_t *behind_held(const item *of, uint64_t count, const uint8_t *to, int depth) {
    const uint8_t *at = of->content;
    while (at && (of->open || count > 0)) {
        if (of->open && at < to && *at == BREAK) return at + 1;
        at = behind(at, to, depth - 1);
        count--;
    }
    return at;
}

/* Behind a string in chunks, which are whole ones of its kind. */
static const uint8_t *behind_chunks(const item *of, const uint8_t *to) {
    const uint8_t *at = of->content;
    item chunk;
    while (at < to && *at != BREAK) {
        if (!head_at(&chunk, at, to) || chunk.major != of->major || chunk.open || chunk.argument > (uint64_t)(to - chunk.content)) return NULL;
        at = chunk.content + chunk.argument;
    }
    return at < to ? at + 1 : NULL;
}

/* Behind an item; null if these bytes hold no whole one, or it goes deeper than a manifest may. An array or map has a byte at least for each that it holds. */
static const uint8_t *behind(const uint8_t *from, const uint8_t *to, int depth) {
    item of;
    if (depth == 0 || !head_at(&of, from, to)) return NULL;
    if (of.major == UNSIGNED || of.major == NEGATIVE || of.major == SIMPLE) return of.open ? NULL : of.content;
    if (of.major == TAG) return of.open ? NULL : behind_held(&of, 1, to, depth);
    if (of.argument > (uint64_t)(to - of.content)) return NULL;
    if (of.major == ARRAY) return behind_held(&of, of.argument, to, depth);
    if (of.major == MAP) return behind_held(&of, 2 * of.argument, to, depth);
    return of.open ? behind_chunks(&of, to) : of.content + of.argument;
}

int item_at(item *into, const uint8_t *from, const uint8_t *to) { return head_at(into, from, to) && (into->to = behind(from, to, DEPTH)) != NULL; }

uint64_t little(const uint8_t *at) {
    uint64_t number = 0;
    for (int i = 7; i >= 0; i--) number = number << 8 | at[i];
    return number;
}

int manifest_at(item *into, const input *file, uint64_t layout) {
    size_t rest = (size_t)behind_manifest(layout), most;
    const uint8_t *end;
    if (file->length < HEADER + rest) return 0;
    most = file->length - HEADER - rest;
    end = file->at + file->length - rest;
    return little(end) <= most && item_at(into, end - little(end), end);
}

/* Where an array or map is open, its last byte is the break. */
int item_in(item *into, const item *of, const uint8_t *at) {
    const uint8_t *end = of->open ? of->to - 1 : of->to;
    return (of->major == ARRAY || of->major == MAP) && at < end && item_at(into, at, end);
}

int element_at(item *into, const item *of, uint64_t index) {
    const uint8_t *at = of->content;
    for (uint64_t i = 0; item_in(into, of, at); i++) {
        if (i == index) return 1;
        at = into->to;
    }
    return 0;
}

uint64_t elements(const item *of) {
    item held;
    uint64_t count = 0;
    if (!of->open) return of->major == MAP ? 2 * of->argument : of->argument;
    for (const uint8_t *at = of->content; item_in(&held, of, at); at = held.to) count++;
    return count;
}

int is_text(const item *of, const char *words) {
    size_t length = strlen(words);
    return of->major == TEXT && !of->open && of->argument == length && memcmp(of->content, words, length) == 0;
}

int field_at(item *into, const item *of, const char *name) {
    item key;
    const uint8_t *at = of->content;
    while (of->major == MAP && item_in(&key, of, at) && item_in(into, of, key.to)) {
        if (is_text(&key, name)) return 1;
        at = into->to;
    }
    return 0;
}

int holders_of(item holders[HOLDERS], const item *root, const uint8_t *at) {
    holders[ROOT] = *root;
    for (int i = OBJECTS; i < HOLDERS; i++) {
        const uint8_t *from = holders[i - 1].content;
        do {
            if (!item_in(holders + i, holders + i - 1, from)) return 0;
            from = holders[i].to;
        } while (from <= at);
        if (holders[i].major != MAP) return 0;
    }
    return 1;
}
