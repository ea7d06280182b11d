/*
 * What a reader without promises does at least: one strict pass that takes every object's and component's fields into structs, asks that names,
 * formats, types and digests are UTF-8, and sorts the names to see that none stands twice. No other rule of document 01 is looked at.
 */
#include "head.h"
#include "peers.h"
#include <stdlib.h>

enum { OBJECTS = 1024, COMPONENTS = 16, RANK = 8 };

typedef struct {
    const uint8_t *at;
    size_t length;
} words;

typedef struct {
    words name, dtype, type, encoding, digest;
    uint64_t offset, length, uncompressed;
} component;

typedef struct {
    words name, format;
    uint64_t shape[RANK];
    size_t rank, count;
    component components[COMPONENTS];
} object;

static object objects[OBJECTS];

/* The pairs of a map that are still to come. */
typedef struct {
    const uint8_t *p, *e;
    uint64_t left;
    bool loose;
} pairs;

static bool open_map(pairs *m, const uint8_t *p, const uint8_t *e) {
    if (p == e || *p >> 5 != 5) return false;
    m->e = e;
    m->left = 0;
    m->loose = *p == 0xBF;
    m->p = m->loose ? p + 1 : argument(p + 1, e, *p & 31, &m->left);
    return m->p != 0;
}

/* Whether a pair is due; a map that ends early has one due, whose key is then not there. */
static inline bool more(pairs *m) {
    if (!m->loose) return m->left && m->left--;
    if (m->p == m->e || *m->p != 0xFF) return true;
    m->p++;
    return false;
}

static inline bool take_words(pairs *m, words *w) {
    uint64_t n;
    if (m->p == m->e || *m->p >> 5 != 3) return false;
    const uint8_t *q = argument(m->p + 1, m->e, *m->p & 31, &n);
    if (!q || n > (uint64_t)(m->e - q)) return false;
    *w = (words){q, (size_t)n};
    m->p = q + n;
    return true;
}

static inline bool take_text(pairs *m, words *w) { return take_words(m, w) && strict_utf8(w->at, w->length); }

/* Null is absence. */
static inline bool take_optional(pairs *m, words *w) {
    if (m->p == m->e || *m->p != 0xF6) return take_text(m, w);
    m->p++;
    return true;
}

static inline bool take_number(pairs *m, uint64_t *n) {
    if (m->p == m->e || *m->p >> 5) return false;
    m->p = argument(m->p + 1, m->e, *m->p & 31, n);
    return m->p != 0;
}

static inline bool pass_over(pairs *m, int depth) { return (m->p = c_skip(m->p, m->e, depth)) != 0; }

#define IS(w, s) ((w).length == sizeof s - 1 && !memcmp((w).at, s, sizeof s - 1))

static bool take_component(pairs *outer, component *c) {
    pairs m;
    words key;
    if (!open_map(&m, outer->p, outer->e)) return false;
    while (more(&m)) {
        bool right;
        if (!take_words(&m, &key)) return false;
        if (IS(key, "dtype")) right = take_words(&m, &c->dtype);
        else if (IS(key, "offset")) right = take_number(&m, &c->offset);
        else if (IS(key, "length")) right = take_number(&m, &c->length);
        else if (IS(key, "digest")) right = take_optional(&m, &c->digest);
        else if (IS(key, "type")) right = take_optional(&m, &c->type);
        else if (IS(key, "encoding")) right = take_words(&m, &c->encoding);
        else if (IS(key, "uncompressed_length")) right = take_number(&m, &c->uncompressed);
        else right = pass_over(&m, 27);
        if (!right) return false;
    }
    outer->p = m.p;
    return true;
}

static bool take_components(pairs *outer, object *o) {
    pairs m;
    if (!open_map(&m, outer->p, outer->e)) return false;
    while (more(&m)) {
        if (o->count == COMPONENTS) return false;
        component *c = &o->components[o->count++];
        memset(c, 0, sizeof *c);
        if (!take_text(&m, &c->name) || !take_component(&m, c)) return false;
        for (const component *d = o->components; d < c; d++)
            if (d->name.length == c->name.length && !memcmp(d->name.at, c->name.at, c->name.length)) return false;
    }
    outer->p = m.p;
    return true;
}

static bool take_shape(pairs *m, object *o) {
    uint64_t n = 0;
    if (m->p == m->e || *m->p >> 5 != 4) return false;
    bool loose = *m->p == 0x9F;
    m->p = loose ? m->p + 1 : argument(m->p + 1, m->e, *m->p & 31, &n);
    if (!m->p) return false;
    for (; loose ? m->p == m->e || *m->p != 0xFF : o->rank < n; o->rank++)
        if (o->rank == RANK || !take_number(m, &o->shape[o->rank])) return false;
    m->p += loose;
    return true;
}

static bool take_object(pairs *outer, object *o) {
    pairs m;
    words key;
    if (!open_map(&m, outer->p, outer->e)) return false;
    o->rank = o->count = 0;
    while (more(&m)) {
        bool right;
        if (!take_words(&m, &key)) return false;
        if (IS(key, "shape")) right = take_shape(&m, o);
        else if (IS(key, "format")) right = take_text(&m, &o->format);
        else if (IS(key, "components")) right = take_components(&m, o);
        else right = pass_over(&m, 29);
        if (!right) return false;
    }
    outer->p = m.p;
    return true;
}

static int by_name(const void *a, const void *b) {
    const words *x = a, *y = b;
    if (x->length != y->length) return x->length < y->length ? -1 : 1;
    return memcmp(x->at, y->at, x->length);
}

static bool take_objects(pairs *outer) {
    static words sorted[OBJECTS];
    pairs m;
    size_t count = 0;
    if (!open_map(&m, outer->p, outer->e)) return false;
    while (more(&m)) {
        if (count == OBJECTS || !take_text(&m, &objects[count].name) || !take_object(&m, &objects[count])) return false;
        sorted[count] = objects[count].name;
        count++;
    }
    outer->p = m.p;
    qsort(sorted, count, sizeof *sorted, by_name);
    for (size_t i = 1; i < count; i++)
        if (!by_name(&sorted[i - 1], &sorted[i])) return false;
    return true;
}

bool c_floor(const void *x) {
    const input *in = x;
    pairs m;
    words key, version;
    if (!open_map(&m, in->bytes, in->bytes + in->length)) return false;
    while (more(&m)) {
        bool right;
        if (!take_words(&m, &key)) return false;
        if (IS(key, "version")) right = take_words(&m, &version);
        else if (IS(key, "objects")) right = take_objects(&m);
        else right = pass_over(&m, 31);
        if (!right) return false;
    }
    return m.p == m.e;
}
