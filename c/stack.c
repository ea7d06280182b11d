/*
 * How much stack the calls of zt.h take on the files named: each is judged, read, listed, written anew, loaded for two engines, compared with itself, merged with itself and with no objects, rescued, and explained, in either layout, in a thread whose stack was
 * painted before, and what is no longer paint was used. Prints the deepest use; it must stay within what zt.h says.
 */
#include "read_file.h"
#include "zt.h"
#include <pthread.h>
#include <stdio.h>
#include <stdlib.h>
#include <string.h>
#include <sys/mman.h>

enum { STACK = 1 << 17, ROOM = ZT_TABLE_MOST, SMALL = ZT_NUMBERS(64, 64), TEXT = 1 << 24 };

static uint64_t table[ROOM], shared[ZT_SHARED], work[2 * ROOM];
static uint8_t text[TEXT], out[2 * TEXT];

typedef struct {
    bytes file;
    const uint8_t *top; /* where the call begins */
} task;

/* The calls that go by the table. */
static inline __attribute__((always_inline)) void all_of(bytes file, zt_answer a) {
    zt_view(file.at, file.length, table, ROOM, a.objects, a.components, 0);
    zt_list(file.at, file.length, table, ROOM, a.objects, a.components, text, TEXT);
    zt_write(table, ROOM, a.objects, a.components, a.place, a.size, file.at, file.length, out, sizeof out);
}

/* The calls of two engines: the second loads what room the first leaves. */
static inline __attribute__((always_inline)) void for_engines(uint64_t layout, bytes file) {
    for (uint64_t engine = 0; engine < 2; engine++) {
        zt_load(shared, ZT_SHARED, engine, layout, file.at, file.length);
        zt_holds(shared, ZT_SHARED, engine);
        zt_engine_view(shared, ZT_SHARED, engine, file.at, file.length, 0);
        zt_engine_list(shared, ZT_SHARED, engine, file.at, file.length, text, TEXT);
    }
    for (uint64_t engine = 0; engine < 2; engine++) zt_drop(shared, ZT_SHARED, engine);
}

/* A merge that finds every name shared, and one that is laid. The rows are lent as the file needs them, since each call makes zeros of all. */
static inline __attribute__((always_inline)) void in_one(uint64_t layout, bytes file, size_t needed) {
    static const uint8_t empty[] = "ZTEN1000\xA2gversione1.2.0gobjects\xA0\x18\0\0\0\0\0\0\0ZTEN1000";
    zt_merge(layout, file.at, file.length, layout, file.at, file.length, table, needed, out, sizeof out);
    zt_merge(layout, file.at, file.length, ZT_LAYOUT_1_2, empty, sizeof empty - 1, table, needed, out, sizeof out);
}

static void *judge(void *given) {
    task *t = given;
    t->top = __builtin_frame_address(0);
    zt_accept(t->file.at, t->file.length);
    all_of(t->file, zt_read(t->file.at, t->file.length, table, ROOM));
    for (uint64_t layout = ZT_LAYOUT_1_2; layout <= ZT_LAYOUT_1_0; layout++) {
        zt_accept_as(layout, t->file.at, t->file.length);
        zt_answer a = zt_read_as(layout, t->file.at, t->file.length, table, ROOM);
        size_t needed = ZT_NUMBERS(a.objects, a.components);
        all_of(t->file, a);
        for_engines(layout, t->file);
        in_one(layout, t->file, needed);
        zt_rescue(layout, t->file.at, t->file.length, table, needed ? needed : SMALL, work, ZT_DROPPED_WIDTH * ZT_OBJECTS_MOST, out, sizeof out);
        zt_explain(layout, t->file.at, t->file.length, 0);
        zt_sentence(layout, t->file.at, t->file.length, ROOM, text, TEXT);
        zt_diff(layout, t->file.at, t->file.length, layout, t->file.at, t->file.length, work, 2 * needed, table, ROOM);
    }
    return NULL;
}

static size_t used(bytes file, uint8_t *stack, int paint) {
    task t = {file, NULL};
    pthread_attr_t attributes;
    pthread_t thread;
    memset(stack, paint, STACK);
    if (pthread_attr_init(&attributes) || pthread_attr_setstack(&attributes, stack, STACK) || pthread_create(&thread, &attributes, judge, &t) ||
        pthread_join(thread, NULL)) {
        fputs("no thread\n", stderr);
        exit(2);
    }
    pthread_attr_destroy(&attributes);
    const uint8_t *deepest = stack;
    while (*deepest == paint) deepest++;
    return (size_t)(t.top - deepest);
}

int main(int count, char **paths) {
    uint8_t *stack = mmap(NULL, STACK, PROT_READ | PROT_WRITE, MAP_PRIVATE | MAP_ANONYMOUS, -1, 0);
    size_t most = 0;
    const char *which = "";
    if (stack == MAP_FAILED) return 2;
    for (int i = 1; i < count; i++) {
        bytes file = read_file(paths[i]);
        /* Two paints, since a byte that was written may be the paint of one. */
        for (int paint = 0x5A; paint <= 0xA5; paint += 0xA5 - 0x5A) {
            size_t n = used(file, stack, paint);
            if (n > most) {
                most = n;
                which = paths[i];
            }
        }
        free(file.at);
    }
    printf("deepest stack use %zu bytes, on %s; zt.h says %d\n", most, which, ZT_STACK);
    return most == 0 || most > ZT_STACK;
}
