/*
 * Makes a small model from arrays: rows and a buffer, written as a whole file, which is then read back and listed. usage: maker [PATH], which also gets
 * the file. Exit status 0: written and read back; 1: refused; 2: the path can't be written.
 *
 *     library/archive zt
 *     host/cc -std=gnu99 -Wall -Wextra -Werror -Iinclude -o maker examples/maker/maker.c target/staticlib/libzt.a
 */
#include "zt.h"
#include <inttypes.h>
#include <stdio.h>
#include <string.h>

enum { OBJECTS = 2, NUMBERS = ZT_NUMBERS(OBJECTS, OBJECTS) };

static const float weight[3][2] = {{0.5f, -1.0f}, {0.25f, 2.0f}, {-0.125f, 1.5f}};
static const float bias[3] = {0.0f, 1.0f, -1.0f};

static uint8_t buffer[1024];
static size_t filled;
static uint64_t rows[NUMBERS];
static uint8_t file[4096];
static uint64_t table[NUMBERS];
static uint8_t text[1024];

/* Puts bytes into the buffer, and their place and length into two numbers of a row. */
static void put(uint64_t *range, const void *bytes, size_t length) {
    memcpy(buffer + filled, bytes, length);
    range[0] = filled;
    range[1] = length;
    filled += length;
}

/* Object `i`, dense, of one component. Objects' rows come first, then components' rows. */
static void put_object(uint64_t i, const char *name, const uint64_t *shape, uint64_t rank, const float *data, size_t count) {
    uint64_t *object = rows + ZT_NUMBERS(i, 0), *component = rows + ZT_NUMBERS(OBJECTS, i);
    put(object + ZT_OBJECT_NAME, name, strlen(name));
    object[ZT_OBJECT_RANK] = rank;
    memcpy(object + ZT_OBJECT_SHAPE, shape, rank * sizeof *shape);
    put(object + ZT_OBJECT_FORMAT, "dense", 5);
    object[ZT_OBJECT_COMPONENTS] = 1;
    put(component + ZT_COMPONENT_NAME, "data", 4);
    component[ZT_COMPONENT_DTYPE] = ZT_F32;
    put(component + ZT_COMPONENT_OFFSET, data, count * sizeof *data);
    component[ZT_COMPONENT_OWNER] = i;
}

static int refused(const char *what, uint64_t number, uint64_t object, uint64_t component) {
    printf("%s: refused %" PRIu64 " %" PRIu64 " %" PRIu64 "\n", what, number, object, component);
    return 1;
}

static int save(const char *path, size_t length) {
    FILE *out = fopen(path, "wb");
    if (!out || fwrite(file, 1, length, out) != length || fclose(out) != 0) {
        perror(path);
        return 0;
    }
    return 1;
}

int main(int count, char **words) {
    static const uint64_t matrix[] = {3, 2}, vector[] = {3};
    put_object(0, "ear.weight", matrix, 2, weight[0], 6);
    put_object(1, "ear.bias", vector, 1, bias, 3);

    zt_written written = zt_write(rows, NUMBERS, OBJECTS, OBJECTS, 0, 0, buffer, filled, file, sizeof file);
    if (written.number != ZT_ACCEPTED) return refused("writing", written.number, written.object, written.component);
    printf("%" PRIu64 " bytes written\n", written.length);

    zt_answer read = zt_read(file, (size_t)written.length, table, NUMBERS);
    if (read.number != ZT_ACCEPTED) return refused("reading", read.number, read.object, read.component);
    zt_text lines = zt_list(file, (size_t)written.length, table, NUMBERS, read.objects, read.components, text, sizeof text);
    if (lines.number != ZT_ACCEPTED) return refused("listing", lines.number, 0, 0);
    fwrite(text, 1, (size_t)lines.length, stdout);

    if (count > 1 && !save(words[1], (size_t)written.length)) return 2;
    return 0;
}
