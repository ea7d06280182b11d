#include "inputs.h"
#include <stdbool.h>
#include <stdio.h>
#include <stdlib.h>
#include <string.h>

enum { ROOM = 18 << 20, LONG = 16384 };

static input empty(void) {
    input in = {malloc(ROOM), 0};
    if (!in.bytes) abort();
    return in;
}

static void put(input *in, const void *bytes, size_t length) {
    if (length > ROOM - in->length) abort();
    memcpy(in->bytes + in->length, bytes, length);
    in->length += length;
}

static void head(input *in, unsigned major, uint64_t n) {
    unsigned low = n < 24 ? (unsigned)n : n < 1 << 8 ? 24 : n < 1 << 16 ? 25 : 26;
    uint8_t b[5] = {(uint8_t)(major << 5 | low)};
    size_t width = low < 24 ? 0 : (size_t)1 << (low - 24);
    for (size_t i = 0; i < width; i++) b[1 + i] = (uint8_t)(n >> 8 * (width - 1 - i));
    put(in, b, 1 + width);
}

static void word(input *in, const char *s) {
    head(in, 3, strlen(s));
    put(in, s, strlen(s));
}

static void field(input *in, const char *key, uint64_t value) {
    word(in, key);
    head(in, 0, value);
}

/* The names of a model's layers, nine to a layer. */
static const char *name_of(size_t i) {
    static const char *const part[] = {
        "self_attn.q_proj.weight", "self_attn.k_proj.weight", "self_attn.v_proj.weight", "self_attn.o_proj.weight", "mlp.gate_proj.weight",
        "mlp.up_proj.weight", "mlp.down_proj.weight", "input_layernorm.weight", "post_attention_layernorm.weight"};
    static char name[64];
    snprintf(name, sizeof name, "model.layers.%zu.%s", i / 9, part[i % 9]);
    return name;
}

static void digest(input *in, size_t i) {
    char s[72] = "sha256:";
    for (size_t k = 0; k < 4; k++) snprintf(s + 7 + 16 * k, 17, "%016llx", (i + 1) * 0x9E3779B97F4A7C15ull * (k + 1));
    word(in, s);
}

/* Up to three fields that no map knows. */
static void unknown_fields(input *in, unsigned count) {
    if (count > 0) field(in, "created", 1735689600);
    if (count > 1) {
        word(in, "note");
        word(in, "made by the export of 2025");
    }
    if (count > 2) {
        word(in, "tags");
        head(in, 4, 2);
        word(in, "frozen");
        word(in, "v2");
    }
}

/* An object's shape; the length of its blob. */
static uint64_t shape(input *in, size_t i) {
    unsigned rank = i % 9 < 7 ? 2 : 1;
    uint64_t length = i % 4 ? 2 : 4;
    word(in, "shape");
    head(in, 4, rank);
    for (unsigned k = 0; k < rank; k++) {
        uint64_t n = 2 + (i + k) % 3;
        head(in, 0, n);
        length *= n;
    }
    return length;
}

/* The format, and the components up to the one's map. */
static void dense(input *in) {
    word(in, "format");
    word(in, "dense");
    word(in, "components");
    head(in, 5, 1);
    word(in, "data");
}

/* Where the blob lies, and its digest; where the next one lies. */
static uint64_t blob(input *in, size_t i, uint64_t offset, uint64_t length) {
    field(in, "offset", offset);
    field(in, "length", length);
    word(in, "digest");
    digest(in, i);
    return (offset + length + 63) / 64 * 64;
}

static uint64_t object(input *in, size_t i, uint64_t offset, unsigned unknown) {
    word(in, name_of(i));
    head(in, 5, 3 + unknown);
    unknown_fields(in, unknown);
    uint64_t length = shape(in, i);
    dense(in);
    head(in, 5, 4 + unknown);
    word(in, "dtype");
    word(in, i % 4 ? "f16" : "f32");
    uint64_t next = blob(in, i, offset, length);
    unknown_fields(in, unknown);
    return next;
}

static uint64_t tensor(input *in, size_t i, uint64_t offset) {
    word(in, name_of(i));
    head(in, 5, 4);
    word(in, "dtype");
    word(in, i % 4 ? "float16" : "float32");
    uint64_t length = shape(in, i);
    dense(in);
    head(in, 5, 3);
    return blob(in, i, offset, length);
}

/* The root of a manifest up to the first of its objects, which stand in this field. */
static input root_as(const char *version, const char *objects_field, size_t objects, unsigned unknown) {
    input in = empty();
    head(&in, 5, 2 + unknown);
    word(&in, "version");
    word(&in, version);
    unknown_fields(&in, unknown);
    word(&in, objects_field);
    head(&in, 5, objects);
    return in;
}

static input root_of(size_t objects, unsigned unknown) { return root_as("1.2.0", "objects", objects, unknown); }

/* The file whose manifest starts at `start`. */
static zt_file framed(input manifest, size_t start) {
    static const char magic[] = "ZTEN1000";
    zt_file z = {{0, manifest.length}, empty()};
    uint8_t size[8];
    for (int i = 0; i < 8; i++) size[i] = (uint8_t)((uint64_t)manifest.length >> 8 * i);
    put(&z.file, magic, 8);
    while (z.file.length < start) put(&z.file, "", 1);
    z.manifest.bytes = z.file.bytes + start;
    put(&z.file, manifest.bytes, manifest.length);
    put(&z.file, size, 8);
    put(&z.file, magic, 8);
    free(manifest.bytes);
    return z;
}

zt_file model(size_t objects, unsigned unknown) {
    input in = root_of(objects, unknown);
    uint64_t offset = 64;
    for (size_t i = 0; i < objects; i++) offset = object(&in, i, offset, unknown);
    return framed(in, offset);
}

zt_file first_model(size_t objects) {
    input in = root_as("1.0", "tensors", objects, 0);
    uint64_t offset = 64;
    for (size_t i = 0; i < objects; i++) offset = tensor(&in, i, offset);
    zt_file z = framed(in, offset);
    z.file.length -= 8; /* there is no footer */
    return z;
}

zt_file with_value(input value) {
    input in = empty();
    head(&in, 5, 3);
    word(&in, "version");
    word(&in, "1.2.0");
    word(&in, "objects");
    head(&in, 5, 0);
    word(&in, "x");
    put(&in, value.bytes, value.length);
    free(value.bytes);
    return framed(in, 8);
}

/* The fields of an object without any rule, up to its first component. */
static void free_object(input *in, size_t components) {
    head(in, 5, 3);
    word(in, "shape");
    head(in, 4, 0);
    word(in, "format");
    word(in, "pack");
    word(in, "components");
    head(in, 5, components);
}

zt_file named(names n) {
    input in = root_of(n.count, 0);
    for (size_t i = 0; i < n.count; i++) {
        head(&in, 3, n.size[i]);
        put(&in, n.in.bytes + n.in.length - n.left[i], n.size[i]);
        free_object(&in, 0);
    }
    free(n.in.bytes);
    return framed(in, 8);
}

zt_file packed(size_t objects, size_t digest) {
    input in = root_of(objects, 0);
    for (size_t i = 0; i < objects; i++) {
        char name[32];
        snprintf(name, sizeof name, "block.%zu", i);
        word(&in, name);
        free_object(&in, 16);
        for (size_t k = 0; k < 16; k++) {
            snprintf(name, sizeof name, "part.%zu", k);
            word(&in, name);
            head(&in, 5, 4);
            word(&in, "dtype");
            word(&in, "u8");
            field(&in, "offset", 64);
            field(&in, "length", 1);
            word(&in, "digest");
            head(&in, 3, digest);
            for (size_t d = 0; d < digest; d++) put(&in, "0123456789abcdef" + (d + i + k) % 16, 1);
        }
    }
    return framed(in, 128);
}

input flat(size_t length) {
    input in = empty();
    head(&in, 4, length);
    for (size_t i = 0; i < length; i++) head(&in, 0, i % 24);
    return in;
}

input nested(size_t length, int depth) {
    static const uint8_t one = 0x81, none = 0x80;
    size_t each = (size_t)(32 - depth);
    input in = empty();
    head(&in, 4, length / each);
    for (size_t i = 0; i < length / each; i++) {
        for (size_t k = 1; k < each; k++) put(&in, &one, 1);
        put(&in, &none, 1);
    }
    return in;
}

input text(size_t length, const char *piece) {
    input in = empty();
    while (in.length + strlen(piece) <= length) put(&in, piece, strlen(piece));
    return in;
}

static names no_names(size_t count) {
    names n = {empty(), malloc(count * sizeof(size_t)), malloc(count * sizeof(size_t)), 0};
    if (!n.left || !n.size) abort();
    return n;
}

/* Until `finish`, `left` has where each name starts. */
static void add(names *n, size_t start) {
    n->left[n->count] = start;
    n->size[n->count++] = n->in.length - start;
}

static names finish(names n) {
    for (size_t i = 0; i < n.count; i++) n.left[i] = n.in.length - n.left[i];
    return n;
}

names model_names(size_t count) {
    names n = no_names(count);
    for (size_t i = 0; i < count; i++) {
        size_t start = n.in.length;
        put(&n.in, name_of(i), strlen(name_of(i)));
        add(&n, start);
    }
    return finish(n);
}

names long_names(size_t count, size_t length, size_t at) {
    names n = no_names(count);
    char digits[7];
    for (size_t i = 0; i < count; i++) {
        size_t start = n.in.length;
        snprintf(digits, sizeof digits, "%06zu", i % 1000000);
        while (n.in.length - start < at) put(&n.in, "n", 1);
        put(&n.in, digits, 6);
        while (n.in.length - start < length) put(&n.in, "n", 1);
        add(&n, start);
    }
    return finish(n);
}

static zt_file one_byte_items(size_t size) { return with_value(flat(size - 64)); }
static zt_file nesting(size_t size) { return with_value(nested(size - 64, 2)); }
static zt_file by_names(size_t size, size_t at) { return named(long_names(size / (LONG + 64), LONG, at)); }
static zt_file starts(size_t size) { return by_names(size, 0); }
static zt_file middles(size_t size) { return by_names(size, LONG / 2); }
static zt_file ends(size_t size) { return by_names(size, LONG - 6); }
static zt_file components(size_t size) { return packed(size / LONG, LONG / 16 - 64); }

zt_file broken_deep(size_t size) {
    enum { ARRAYS = 29 };
    input in = empty(), items = flat(size - 64 - ARRAYS);
    for (int i = 0; i < ARRAYS; i++) head(&in, 4, 1);
    put(&in, items.bytes, items.length);
    free(items.bytes);
    zt_file z = with_value(in);
    z.manifest.bytes[z.manifest.length - 1] = 28;
    return z;
}

/* The place after the first or the last copy of these bytes in a manifest. */
static uint8_t *after(const zt_file *z, const char *bytes, size_t length, bool last) {
    uint8_t *found = NULL;
    for (size_t at = 0; at + length <= z->manifest.length && (last || !found); at++)
        if (!memcmp(z->manifest.bytes + at, bytes, length)) found = z->manifest.bytes + at + length;
    if (!found) abort();
    return found;
}

void spoil_dtype(zt_file *z) { after(z, "\x65" "dtype", 6, true)[1] = '?'; }

static void spoil_version(zt_file *z) { after(z, "\x67version", 8, false)[1] = '?'; }

/* The last name is the first. */
static void spoil_names(zt_file *z) {
    static const char head[] = {0x79, LONG >> 8, LONG & 255};
    memcpy(after(z, head, sizeof head, true), after(z, head, sizeof head, false), LONG);
}

const large_kind large_kinds[LARGE_KINDS] = {
    {"items of one byte", one_byte_items, spoil_version},
    {"nesting down to depth 32", nesting, spoil_version},
    {"names of 16 KB", starts, spoil_names},
    {"names of 16 KB that differ in the middle", middles, spoil_names},
    {"names of 16 KB that differ at the end", ends, spoil_names},
    {"1,024 objects of 16 components", components, spoil_dtype},
};
