/*
 * A model file as the box's firmware takes it: mapped, judged, read into the box's table; then the panel's lines, and one component's bytes through the view, by its
 * index or by name. The lines are the listing, or with --summary the panel's whole text, with what the f32 numbers show and where the file's bytes are.
 * usage: firmware [--summary] PATH [INDEX | OBJECT COMPONENT]. Exit status 0: ready; 1: refused; 2: usage, no file, no room, or no such component.
 *
 *     library/archive zt
 *     host/cc -std=gnu99 -Wall -Wextra -Werror -Iinclude -o firmware examples/firmware/firmware.c target/staticlib/libzt.a
 */
#include "zt.h"
#include <errno.h>
#include <fcntl.h>
#include <inttypes.h>
#include <stdio.h>
#include <stdlib.h>
#include <string.h>
#include <sys/file.h>
#include <sys/mman.h>
#include <sys/stat.h>
#include <unistd.h>

/* A box has no heap: its table and the panel's text are as large as its largest model needs, and a model that needs more is refused as ROOM. */
enum { ROOM = 8192 };
static uint64_t table[ROOM];
static uint8_t text[1 << 18];

typedef struct {
    const uint8_t *at; /* null for an empty file, which zt.h allows */
    size_t length;
} model_file;

/*
 * The file in memory as it lies on disk, whatever its size: nothing is copied. A pipe or a device has no length to map, so only a regular file will do. What
 * is mapped must not change, and if it were cut, reading it would end in SIGBUS: the shared lock, held until this process ends, keeps out whoever takes an
 * exclusive one before writing. It binds nobody else: where strangers write, copy the file, or have it replaced by rename only.
 */
static int map_file(const char *path, model_file *file) {
    struct stat facts;
    int fd = open(path, O_RDONLY | O_NONBLOCK); /* a FIFO without a writer isn't waited for */
    if (fd < 0 || fstat(fd, &facts) != 0 || (S_ISREG(facts.st_mode) && flock(fd, LOCK_SH | LOCK_NB) != 0)) {
        perror(path);
        return 0;
    }
    if (!S_ISREG(facts.st_mode)) {
        fprintf(stderr, "%s: no regular file\n", path);
        return 0;
    }
    if (fstat(fd, &facts) != 0) { /* its length now that it is locked */
        perror(path);
        return 0;
    }
    file->at = NULL;
    file->length = (size_t)facts.st_size;
    if (file->length > 0) {
        void *at = mmap(NULL, file->length, PROT_READ, MAP_PRIVATE, fd, 0);
        if (at == MAP_FAILED) {
            perror(path);
            return 0;
        }
        file->at = at;
    }
    return 1;
}

static int refused(zt_answer answer) {
    printf("refused %" PRIu64 " %" PRIu64 " %" PRIu64 "\n", answer.number, answer.object, answer.component);
    return 1;
}

static int show_lines(uint64_t number, uint64_t length) {
    if (number != ZT_ACCEPTED) {
        fprintf(stderr, "the panel has no room for this text\n");
        return 0;
    }
    fwrite(text, 1, (size_t)length, stdout);
    return 1;
}

/* The panel shows what the table says of the file that was judged: nothing is read a second way. */
static int show_listing(model_file file, zt_answer answer) {
    zt_text lines = zt_list(file.at, file.length, table, ROOM, answer.objects, answer.components, text, sizeof text);
    return show_lines(lines.number, lines.length);
}

/* The same with findings and the account. The call reads the file itself: the table is lent as its working room, ends as zeros, and is filled anew for the view. */
static int show_summary(model_file file) {
    zt_panel_text lines = zt_panel(ZT_LAYOUT_1_2, file.at, file.length, table, ROOM, text, sizeof text);
    zt_read(file.at, file.length, table, ROOM);
    return show_lines(lines.number, lines.length);
}

/* An index is decimal digits and nothing else, and fits; strtoull alone takes blanks, a sign, and no digit at all. */
static int read_index(const char *word, uint64_t *index) {
    char *end;
    if (word[0] < '0' || word[0] > '9') return 0;
    errno = 0;
    *index = strtoull(word, &end, 10);
    return errno == 0 && *end == '\0';
}

/* Whether a name, at two numbers of a row, is this word: lengths first, then bytes, since names don't end with a zero. */
static int is_named(model_file file, const uint64_t *name, const char *word) {
    size_t length = strlen(word);
    return name[1] == length && memcmp(file.at + name[0], word, length) == 0;
}

/* The component of that name in the object of that name: its index among all components, or their count if there is none. */
static uint64_t find_component(model_file file, zt_answer answer, const char *object, const char *component) {
    const uint64_t *components = table + ZT_OBJECT_WIDTH * answer.objects;
    for (uint64_t i = 0; i < answer.components; i++) {
        const uint64_t *row = components + ZT_COMPONENT_WIDTH * i;
        const uint64_t *owner = table + ZT_OBJECT_WIDTH * row[ZT_COMPONENT_OWNER];
        if (is_named(file, row + ZT_COMPONENT_NAME, component) && is_named(file, owner + ZT_OBJECT_NAME, object)) return i;
    }
    return answer.components;
}

/* What the box would do with a layer's weights: walk them where they lie. Here they are added up, byte by byte. */
static int walk_component(model_file file, zt_answer answer, uint64_t index) {
    zt_range range = zt_view(file.at, file.length, table, ROOM, answer.objects, answer.components, index);
    uint64_t sum = 0;
    if (range.number != ZT_ACCEPTED) {
        fprintf(stderr, "no such component\n");
        return 0;
    }
    for (uint64_t i = 0; i < range.length; i++) sum += file.at[range.offset + i];
    printf("component %" PRIu64 ": %" PRIu64 " bytes from %" PRIu64 ", sum %" PRIu64 "\n", index, range.length, range.offset, sum);
    return 1;
}

int main(int count, char **words) {
    model_file file;
    zt_answer answer;
    uint64_t index = 0;
    int summary = count > 1 && strcmp(words[1], "--summary") == 0;
    count -= summary;
    words += summary;
    if (count < 2 || count > 4 || (count == 3 && !read_index(words[2], &index))) {
        fprintf(stderr, "usage: firmware [--summary] PATH [INDEX | OBJECT COMPONENT]\n");
        return 2;
    }
    if (!map_file(words[1], &file)) return 2;
    /* The lamp's question, which needs no table. zt_read asks it again, and tells where the fault is. */
    uint64_t verdict = zt_accept(file.at, file.length);
    answer = zt_read(file.at, file.length, table, ROOM);
    if (verdict != ZT_ACCEPTED || answer.number != ZT_ACCEPTED) return refused(answer);
    if (summary ? !show_summary(file) : !show_listing(file, answer)) return 2;
    if (count == 4) index = find_component(file, answer, words[2], words[3]);
    if (count > 2 && !walk_component(file, answer, index)) return 2;
    return fflush(stdout) == 0 ? 0 : 2;
}
