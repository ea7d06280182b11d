/* The proved leaves beside their peers. */
#include "bench.h"
#include "peers.h"
#include "timing.h"

/* crates/exported */
size_t leaf_skip(const uint8_t *s, size_t length, uint64_t left);
bool leaf_utf8(const uint8_t *t, size_t length);
bool leaf_no_twice(const uint8_t *m, size_t length, const size_t *left, size_t left_length, const size_t *size, size_t size_length,
                   size_t n, uint16_t *ix, size_t ix_length);

static bool our_item(const void *x) { const input *in = x; return leaf_skip(in->bytes, in->length, 32) == in->length; }
static bool our_utf8(const void *x) { const input *in = x; return leaf_utf8(in->bytes, in->length); }
static bool our_names(const void *x) {
    static uint16_t ix[65536];
    const names *n = x;
    return leaf_no_twice(n->in.bytes, n->in.length, n->left, n->count, n->size, n->count, n->count, ix, n->count);
}

/* A name of 16 KB: ASCII, mixed, and with a character of two bytes in every eight, so that no word is ASCII. */
static void long_texts(void) {
    enum { NAME = 16384 };
    program utf8 = {"leaf_utf8", our_utf8}, bytes = {"C -O2, by bytes", c_utf8_bytes}, words = {"C -O2, by words", c_utf8_words};
    struct {
        const char *what, *piece;
        double target;
    } texts[] = {
        {"UTF-8: a name of 16 KB, ASCII, per byte", "model.layers.11.self_attn.q_proj.weight ", 1.3},
        {"UTF-8: a name of 16 KB, mixed, per byte", "Größe der Schicht, 水の重み, 𐅑 weight ", 1.5},
        {"UTF-8: a name of 16 KB, worst, per byte", "layers\xC3\xA4", 1.5},
    };
    for (size_t i = 0; i < sizeof texts / sizeof *texts; i++) {
        input in = text(NAME, texts[i].piece);
        compare(texts[i].what, utf8, words, &in, (double)in.length, in.length, texts[i].target);
        compare("", utf8, bytes, &in, (double)in.length, in.length, 0);
    }
}

void leaves(void) {
    enum { OBJECTS = 1000, LARGE = 1 << 24, TEXT = 1 << 20, LONG = 16384 };
    zt_file m = model(OBJECTS, 0);
    input items = flat(LARGE), nest = nested(LARGE, 1);
    input ascii = text(TEXT, "model.layers.11.self_attn.q_proj.weight "), mixed = text(TEXT, "Größe der Schicht, 水の重み, 𐅑 weight ");
    names real = model_names(OBJECTS), tails = long_names(OBJECTS, LONG, LONG - 6);
    program item = {"leaf_skip", our_item}, utf8 = {"leaf_utf8", our_utf8}, twice = {"leaf_no_twice", our_names};
    program c_strict = {"C strict", c_item}, c_text = {"C", c_utf8}, c_sorted = {"C sorted", c_names};

    heading("leaves", "time");
    compare("well-formed: manifest of 1000, per object", item, c_strict, &m.manifest, OBJECTS, m.manifest.length, 0);
#ifdef WITH_LIBCBOR
    program c_tokens = {"libcbor, tokens", libcbor_tokens}, c_tree = {"libcbor, tree", libcbor_tree};
    compare("", item, c_tokens, &m.manifest, OBJECTS, m.manifest.length, 0);
    compare("", item, c_tree, &m.manifest, OBJECTS, m.manifest.length, 0);
#endif
    compare("well-formed: 16 MiB of integers, per byte", item, c_strict, &items, (double)items.length, items.length, 0);
    compare("well-formed: 16 MiB of arrays, per byte", item, c_strict, &nest, (double)nest.length, nest.length, 0);
    compare("UTF-8: 1 MiB of ASCII, per byte", utf8, c_text, &ascii, (double)ascii.length, ascii.length, 0);
    compare("UTF-8: 1 MiB mixed, per byte", utf8, c_text, &mixed, (double)mixed.length, mixed.length, 0);
    long_texts();
    compare("no name twice: 1000 of a model, per name", twice, c_sorted, &real, OBJECTS, real.in.length, 0);
    compare("no name twice: 1000 of 16 KB, per name", twice, c_sorted, &tails, OBJECTS, tails.in.length, 0);
}
