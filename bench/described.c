#include "described.h"
#include "zt.h"
#include <stdio.h>
#include <stdlib.h>
#include <string.h>

enum { FORMAT = 0, ROLE = 5, NAMES = 9, NAME = 8 };

static uint64_t width_of(uint64_t dtype) { return dtype == ZT_F32 ? 4 : 1; }

static void fill_rows(described *d, uint64_t dtype, char letter) {
    for (size_t i = 0; i < d->objects; i++) {
        uint64_t *object = d->rows + ZT_NUMBERS(i, 0), *component = d->rows + ZT_NUMBERS(d->objects, i);
        char name[NAME + 8];
        snprintf(name, sizeof name, "layer%c%02zx", letter + (char)(i >> 8), i & 255);
        memcpy(d->buffer + NAMES + NAME * i, name, NAME);
        object[ZT_OBJECT_NAME] = NAMES + NAME * i, object[ZT_OBJECT_NAME_LENGTH] = NAME;
        object[ZT_OBJECT_RANK] = 1, object[ZT_OBJECT_SHAPE] = d->blob / width_of(dtype);
        object[ZT_OBJECT_FORMAT] = FORMAT, object[ZT_OBJECT_FORMAT_LENGTH] = ROLE - FORMAT;
        object[ZT_OBJECT_COMPONENTS] = 1;
        component[ZT_COMPONENT_NAME] = ROLE, component[ZT_COMPONENT_NAME_LENGTH] = NAMES - ROLE;
        component[ZT_COMPONENT_DTYPE] = dtype;
        component[ZT_COMPONENT_OFFSET] = d->filled - d->blobs + i * d->blob, component[ZT_COMPONENT_LENGTH] = d->blob;
        component[ZT_COMPONENT_OWNER] = i;
    }
}

described describe(size_t objects, size_t blob, uint64_t dtype, char letter, uint8_t salt) {
    described d = {.objects = objects, .blob = blob, .blobs = objects * blob};
    d.filled = NAMES + NAME * objects + d.blobs;
    d.rows = calloc(ZT_NUMBERS(objects, objects), sizeof *d.rows);
    d.buffer = malloc(d.filled);
    if (!d.rows || !d.buffer) exit(2);
    memcpy(d.buffer, "densedata", NAMES);
    fill_rows(&d, dtype, letter);
    for (size_t i = 0; i < d.blobs; i++) d.buffer[d.filled - d.blobs + i] = (uint8_t)(i * 31 + salt);
    return d;
}

void forget(described d) {
    free(d.rows);
    free(d.buffer);
}

zt_file file_of(described d) {
    size_t room = d.filled + d.objects * 256 + 64;
    zt_file z = {.file = {malloc(room), 0}};
    if (!z.file.bytes) exit(2);
    zt_written w = zt_write(d.rows, ZT_NUMBERS(d.objects, d.objects), d.objects, d.objects, 0, 0, d.buffer, d.filled, z.file.bytes, room);
    if (w.number != ZT_ACCEPTED) exit(2);
    z.file.length = (size_t)w.length;
    return z;
}

zt_file large_model(size_t objects, size_t blob, uint64_t dtype, char letter, uint8_t salt) {
    described d = describe(objects, blob, dtype, letter, salt);
    zt_file z = file_of(d);
    forget(d);
    return z;
}
