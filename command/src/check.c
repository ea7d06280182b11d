/* zt check: a line for each file, or one JSON array; every file is looked at, whatever became of those before. */
#include "commands.h"
#include "json.h"
#include "model.h"
#include <string.h>

static void print_verdict(const char *path, fault what) {
    print_escaped(&out, (const uint8_t *)path, strlen(path));
    print_words(&out, ": ");
    if (what.number == ZT_ACCEPTED) print_words(&out, "sound\n");
    else print_refused(&out, what);
}

static void json_unread(const char *path) {
    json_key(1, "", "file");
    json_words(path);
    json_key(0, " ", "sound");
    print_words(&out, "null");
    json_key(0, " ", "trouble");
    json_words(last_trouble);
}

static int check_file(const char *path, uint64_t layout, int json, int first) {
    model of;
    int status = model_open(&of, path, layout);
    if (json) print_words(&out, first ? "[\n{" : ",\n{");
    if (status == DONE && json) json_verdict(path, fault_of(&of));
    if (status == DONE && !json) print_verdict(path, fault_of(&of));
    if (status == DONE) status = model_close(&of, of.answer.number == ZT_ACCEPTED ? DONE : REFUSED);
    else if (json) json_unread(path);
    if (json) print_words(&out, "}");
    return status;
}

int check_files(const arguments *given) {
    int worst = DONE;
    for (int i = 0; i < given->count; i++) {
        int status = check_file(given->operands[i], given->layout, given->json, i == 0);
        if (status > worst) worst = status;
    }
    if (given->json) print_words(&out, "\n]\n");
    return worst;
}
