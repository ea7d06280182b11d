/* This processor's side: see far.h. RUNNER runs SERVER, which is a program for x86-64: the script host/run. */
#define _GNU_SOURCE
#include "far.h"
#include "zt.h"
#include <errno.h>
#include <fcntl.h>
#include <pthread.h>
#include <spawn.h>
#include <stdbool.h>
#include <stdio.h>
#include <stdlib.h>
#include <string.h>
#include <sys/mman.h>
#include <unistd.h>

/* A server and what is shared with it. It ends when this process does, since nothing writes to its pipe then. */
typedef struct server {
    message *shared;
    int to, from;
    struct server *next;
} server;

/* There are as many as there were calls at the same time. */
static server *idle;
static pthread_mutex_t lock = PTHREAD_MUTEX_INITIALIZER;

static void need(bool fine, const char *what) {
    if (fine) return;
    perror(what);
    abort();
}

static server *started(void) {
    extern char **environ;
    server *s = malloc(sizeof *s);
    int to[2], from[2], memory = memfd_create("far", 0);
    char number[12];
    posix_spawn_file_actions_t actions;
    pid_t id;
    need(s && memory >= 0 && !ftruncate(memory, SHARED) && !pipe2(to, O_CLOEXEC) && !pipe2(from, O_CLOEXEC), "far: no memory and pipes to share");
    s->shared = mmap(0, SHARED, PROT_READ | PROT_WRITE, MAP_SHARED, memory, 0);
    s->to = to[1];
    s->from = from[0];
    need(s->shared != MAP_FAILED, "far: no shared memory");
    snprintf(number, sizeof number, "%d", memory);
    need(!posix_spawn_file_actions_init(&actions) && !posix_spawn_file_actions_adddup2(&actions, to[0], 0) &&
             !posix_spawn_file_actions_adddup2(&actions, from[1], 1) &&
             !posix_spawn(&id, RUNNER, &actions, NULL, (char *[]){RUNNER, SERVER, number, NULL}, environ),
         "far: " RUNNER);
    posix_spawn_file_actions_destroy(&actions);
    close(to[0]);
    close(from[1]);
    close(memory);
    return s;
}

/* A number, or memory lent to the call, which comes `back` as the call leaves it if it may be written. */
typedef struct {
    uint64_t number;
    void *at;
    size_t size;
    bool lent, back;
} argument;

#define NUMBER(n) {.number = (n)}
#define LENT(p, n) {.at = (void *)(p), .size = (n) * sizeof *(p), .lent = true}, NUMBER(n)
#define WRITTEN(p, n) {.at = (p), .size = (n) * sizeof *(p), .lent = true, .back = true}, NUMBER(n)

typedef struct {
    uint64_t word[WORDS];
} words;

/* What stands behind each lent memory, up to the next: a call that writes there has gone too far. */
enum { GUARD = 0xA5, GUARDED = 32 };

static size_t guarded_size(size_t size) { return ((size + 15) & ~(size_t)15) + GUARDED; }

static bool guard_stands(const uint8_t *at, size_t size) {
    for (size_t i = size; i < guarded_size(size); i++)
        if (at[i] != GUARD) return false;
    return true;
}

static words called(int call, const argument *a, int count) {
    char turn = 0;
    size_t used = 0;
    pthread_mutex_lock(&lock);
    server *s = idle;
    if (s) idle = s->next;
    pthread_mutex_unlock(&lock);
    if (!s) s = started();

    message *m = s->shared;
    m->call = call;
    m->lent = 0;
    for (int i = 0; i < count; i++) {
        m->argument[i] = a[i].lent ? used : a[i].number;
        if (!a[i].lent) continue;
        m->lent |= 1 << i;
        need(a[i].size <= SHARED - sizeof *m - 16 - GUARDED - used, "far: too much is lent");
        if (a[i].size) memcpy(m->data + used, a[i].at, a[i].size);
        memset(m->data + used + a[i].size, GUARD, guarded_size(a[i].size) - a[i].size);
        used += guarded_size(a[i].size);
    }
    need(write(s->to, &turn, 1) == 1, "far: the emulated server ended");
    ssize_t got;
    do got = read(s->from, &turn, 1);
    while (got < 0 && errno == EINTR); /* libFuzzer's clock rings */
    need(got == 1, "far: the emulated server ended");
    for (int i = 0; i < count; i++) {
        if (!a[i].lent) continue;
        uint8_t *at = m->data + m->argument[i];
        need(guard_stands(at, a[i].size), "far: a call wrote behind what was lent");
        need(a[i].back || !a[i].size || !memcmp(at, a[i].at, a[i].size), "far: a call wrote to what was lent to be read");
        if (a[i].back && a[i].size) memcpy(a[i].at, at, a[i].size);
    }
    words answer;
    memcpy(&answer, m->word, sizeof answer);

    pthread_mutex_lock(&lock);
    s->next = idle;
    idle = s;
    pthread_mutex_unlock(&lock);
    return answer;
}

#define PLACE(name, words) AT_##name,
enum { CALLS(PLACE) };
#define CALLED(name, ...) called(AT_##name, (argument[]){__VA_ARGS__}, sizeof((argument[]){__VA_ARGS__}) / sizeof(argument))
/* A truth value is one byte; what stands beside it says nothing. */
#define WORD(...) CALLED(__VA_ARGS__).word[0]
#define TRUTH(...) ((uint8_t)WORD(__VA_ARGS__) != 0)
#define STRUCT(type, ...)                    \
    words answer = CALLED(__VA_ARGS__);      \
    type it;                                 \
    memcpy(&it, &answer, sizeof it);         \
    return it;

#define OF_TEXT(type, how, name) \
    type name(const uint8_t *text, size_t length) { return how(name, LENT(text, length)); }
OF_TEXT(uint64_t, WORD, zt_accept)
OF_TEXT(bool, TRUTH, leaf_utf8)
OF_TEXT(bool, TRUTH, leaf_version_shape)
OF_TEXT(bool, TRUTH, leaf_major_one)
OF_TEXT(bool, TRUTH, leaf_is_magic)
OF_TEXT(bool, TRUTH, leaf_is_raw)
OF_TEXT(uint64_t, WORD, leaf_ratio_of)
OF_TEXT(uint64_t, WORD, leaf_format_code)
OF_TEXT(uint64_t, WORD, leaf_role_code)

#define OF_LAYOUT(type, name) \
    type name(uint64_t layout, const uint8_t *text, size_t length) { return WORD(name, NUMBER(layout), LENT(text, length)); }
OF_LAYOUT(uint64_t, zt_accept_as)
OF_LAYOUT(size_t, leaf_root_key)
OF_LAYOUT(size_t, leaf_object_key)
OF_LAYOUT(size_t, leaf_component_key)
OF_LAYOUT(uint64_t, leaf_dtype_code)

uint64_t leaf_width_of(uint64_t a) { return WORD(leaf_width_of, NUMBER(a)); }
bool leaf_is_product(uint64_t a, uint64_t b, uint64_t c) { return TRUTH(leaf_is_product, NUMBER(a), NUMBER(b), NUMBER(c)); }
bool leaf_is_whole(uint64_t a, uint64_t b) { return TRUTH(leaf_is_whole, NUMBER(a), NUMBER(b)); }
uint64_t leaf_count_of(uint64_t a, uint64_t b) { return WORD(leaf_count_of, NUMBER(a), NUMBER(b)); }
bool leaf_pointer_length(uint64_t a, uint64_t b) { return TRUTH(leaf_pointer_length, NUMBER(a), NUMBER(b)); }
bool leaf_coordinate_length(uint64_t a, uint64_t b, uint64_t c) { return TRUTH(leaf_coordinate_length, NUMBER(a), NUMBER(b), NUMBER(c)); }
uint64_t leaf_place(uint64_t a, uint64_t b, uint64_t c) { return WORD(leaf_place, NUMBER(a), NUMBER(b), NUMBER(c)); }

size_t leaf_skip(const uint8_t *s, size_t n, uint64_t left) { return WORD(leaf_skip, LENT(s, n), NUMBER(left)); }
bool leaf_same(const uint8_t *a, size_t m, const uint8_t *b, size_t n) { return TRUTH(leaf_same, LENT(a, m), LENT(b, n)); }
size_t leaf_order(const uint8_t *a, size_t m, const uint8_t *b, size_t n) { return WORD(leaf_order, LENT(a, m), LENT(b, n)); }
bool leaf_no_twice(const uint8_t *m, size_t length, const size_t *left, size_t lefts, const size_t *size, size_t sizes, size_t n, uint16_t *ix, size_t room) {
    return TRUTH(leaf_no_twice, LENT(m, length), LENT(left, lefts), LENT(size, sizes), NUMBER(n), WRITTEN(ix, room));
}
bool leaf_type_fits(const uint8_t *k, size_t n, uint64_t code) { return TRUTH(leaf_type_fits, LENT(k, n), NUMBER(code)); }
bool leaf_dense_length(uint64_t n, const uint64_t *shape, size_t rank, uint64_t unit) {
    return TRUTH(leaf_dense_length, NUMBER(n), LENT(shape, rank), NUMBER(unit));
}

size_t leaf_float(uint8_t *out, size_t room, uint32_t n) { return WORD(leaf_float, WRITTEN(out, room), NUMBER(n)); }

typedef struct {
    uint64_t number, component;
} ruling;
typedef struct {
    uint64_t number, one, two;
} three;
ruling leaf_judge(uint64_t code, const uint64_t *shape, size_t rank, const uint64_t *parts, size_t n) {
    STRUCT(ruling, leaf_judge, NUMBER(code), LENT(shape, rank), LENT(parts, n))
}
three leaf_frame(uint64_t layout, const uint8_t *file, size_t n) { STRUCT(three, leaf_frame, NUMBER(layout), LENT(file, n)) }
three leaf_accept(uint64_t layout, const uint8_t *file, size_t n) { STRUCT(three, leaf_accept, NUMBER(layout), LENT(file, n)) }

zt_answer zt_read(const uint8_t *file, size_t length, uint64_t *table, size_t room) { STRUCT(zt_answer, zt_read, LENT(file, length), WRITTEN(table, room)) }
zt_answer zt_read_as(uint64_t layout, const uint8_t *file, size_t length, uint64_t *table, size_t room) {
    STRUCT(zt_answer, zt_read_as, NUMBER(layout), LENT(file, length), WRITTEN(table, room))
}
zt_bytes zt_account(uint64_t layout, const uint8_t *file, size_t length, uint64_t *work, size_t room) {
    STRUCT(zt_bytes, zt_account, NUMBER(layout), LENT(file, length), WRITTEN(work, room))
}
zt_panel_text zt_panel(uint64_t layout, const uint8_t *file, size_t length, uint64_t *work, size_t room, uint8_t *text, size_t text_room) {
    STRUCT(zt_panel_text, zt_panel, NUMBER(layout), LENT(file, length), WRITTEN(work, room), WRITTEN(text, text_room))
}
zt_changes zt_diff(uint64_t first_layout, const uint8_t *first, size_t first_length, uint64_t second_layout, const uint8_t *second, size_t second_length,
                   uint64_t *work, size_t work_room, uint64_t *list, size_t list_room) {
    STRUCT(zt_changes, zt_diff, NUMBER(first_layout), LENT(first, first_length), NUMBER(second_layout), LENT(second, second_length), WRITTEN(work, work_room),
           WRITTEN(list, list_room))
}
zt_range zt_view(const uint8_t *file, size_t length, const uint64_t *table, size_t room, uint64_t objects, uint64_t components, uint64_t index) {
    STRUCT(zt_range, zt_view, LENT(file, length), LENT(table, room), NUMBER(objects), NUMBER(components), NUMBER(index))
}
zt_finding zt_find(const uint8_t *file, size_t length, const uint64_t *table, size_t room, uint64_t objects, uint64_t components, uint64_t index) {
    STRUCT(zt_finding, zt_find, LENT(file, length), LENT(table, room), NUMBER(objects), NUMBER(components), NUMBER(index))
}
zt_text zt_list(const uint8_t *file, size_t length, const uint64_t *table, size_t room, uint64_t objects, uint64_t components, uint8_t *text, size_t text_room) {
    STRUCT(zt_text, zt_list, LENT(file, length), LENT(table, room), NUMBER(objects), NUMBER(components), WRITTEN(text, text_room))
}
zt_written zt_write(const uint64_t *rows, size_t numbers, uint64_t objects, uint64_t components, uint64_t attributes_place, uint64_t attributes_length,
                    const uint8_t *buffer, size_t buffer_length, uint8_t *out, size_t out_room) {
    STRUCT(zt_written, zt_write, LENT(rows, numbers), NUMBER(objects), NUMBER(components), NUMBER(attributes_place), NUMBER(attributes_length),
           LENT(buffer, buffer_length), WRITTEN(out, out_room))
}
zt_written zt_write_planned(const uint64_t *rows, size_t numbers, uint64_t objects, uint64_t components, uint64_t attributes_place, uint64_t attributes_length,
                            const uint8_t *buffer, size_t buffer_length, const uint64_t *plan, size_t planned, uint64_t ceiling, uint8_t *out, size_t out_room) {
    STRUCT(zt_written, zt_write_planned, LENT(rows, numbers), NUMBER(objects), NUMBER(components), NUMBER(attributes_place), NUMBER(attributes_length),
           LENT(buffer, buffer_length), LENT(plan, planned), NUMBER(ceiling), WRITTEN(out, out_room))
}
zt_answer zt_load(uint64_t *shared, size_t numbers, uint64_t engine, uint64_t layout, const uint8_t *file, size_t length) {
    STRUCT(zt_answer, zt_load, WRITTEN(shared, numbers), NUMBER(engine), NUMBER(layout), LENT(file, length))
}
uint64_t zt_drop(uint64_t *shared, size_t numbers, uint64_t engine) { return WORD(zt_drop, WRITTEN(shared, numbers), NUMBER(engine)); }
zt_held zt_holds(const uint64_t *shared, size_t numbers, uint64_t engine) { STRUCT(zt_held, zt_holds, LENT(shared, numbers), NUMBER(engine)) }
zt_range zt_engine_view(const uint64_t *shared, size_t numbers, uint64_t engine, const uint8_t *file, size_t length, uint64_t index) {
    STRUCT(zt_range, zt_engine_view, LENT(shared, numbers), NUMBER(engine), LENT(file, length), NUMBER(index))
}
zt_text zt_engine_list(const uint64_t *shared, size_t numbers, uint64_t engine, const uint8_t *file, size_t length, uint8_t *text, size_t text_room) {
    STRUCT(zt_text, zt_engine_list, LENT(shared, numbers), NUMBER(engine), LENT(file, length), WRITTEN(text, text_room))
}
zt_merged zt_merge(uint64_t first_layout, const uint8_t *first, size_t first_length, uint64_t second_layout, const uint8_t *second, size_t second_length,
                   uint64_t *rows, size_t rows_room, uint8_t *out, size_t out_room) {
    STRUCT(zt_merged, zt_merge, NUMBER(first_layout), LENT(first, first_length), NUMBER(second_layout), LENT(second, second_length), WRITTEN(rows, rows_room),
           WRITTEN(out, out_room))
}
zt_rescued zt_rescue(uint64_t layout, const uint8_t *file, size_t length, uint64_t *rows, size_t rows_room, uint64_t *list, size_t list_room, uint8_t *out, size_t out_room) {
    STRUCT(zt_rescued, zt_rescue, NUMBER(layout), LENT(file, length), WRITTEN(rows, rows_room), WRITTEN(list, list_room), WRITTEN(out, out_room))
}
zt_explanation zt_explain(uint64_t layout, const uint8_t *file, size_t length, uint64_t room) {
    STRUCT(zt_explanation, zt_explain, NUMBER(layout), LENT(file, length), NUMBER(room))
}
zt_text zt_sentence(uint64_t layout, const uint8_t *file, size_t length, uint64_t room, uint8_t *text, size_t text_room) {
    STRUCT(zt_text, zt_sentence, NUMBER(layout), LENT(file, length), NUMBER(room), WRITTEN(text, text_room))
}
