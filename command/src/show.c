/* zt show: objects and components for people, in columns; attributes by place and length only, since to look inside would be a second reading. */
#include "commands.h"
#include "grid.h"
#include "rows.h"
#include <string.h>

static void titles(grid *in, size_t indent, const char *const *words, int count) {
    row_begin(in, indent);
    for (int i = 0; i < count; i++) cell_words(in, words[i]);
    row_end(in);
}

static void object(grid *in, const model *of, const uint64_t *row) {
    row_begin(in, 0);
    cell_text(in, text_of(of, row + ZT_OBJECT_NAME));
    cell_text(in, text_of(of, row + ZT_OBJECT_FORMAT));
    cell_list(in, row + ZT_OBJECT_SHAPE, row[ZT_OBJECT_RANK]);
    cell_range(in, row[ZT_OBJECT_ATTRIBUTES], row[ZT_OBJECT_ATTRIBUTES_LENGTH]);
    row_end(in);
}

static void component(grid *in, const model *of, const uint64_t *row) {
    row_begin(in, 2);
    cell_text(in, text_of(of, row + ZT_COMPONENT_NAME));
    cell_words(in, zt_dtype_name(row[ZT_COMPONENT_DTYPE]));
    cell_text(in, text_of(of, row + ZT_COMPONENT_TYPE));
    cell_number(in, row[ZT_COMPONENT_OFFSET]);
    cell_number(in, row[ZT_COMPONENT_LENGTH]);
    cell_text(in, text_of(of, row + ZT_COMPONENT_DIGEST));
    row_end(in);
}

static void rows(grid *objects, grid *components, const model *of) {
    static const char *const object_titles[] = {"object", "format", "shape", "attributes"};
    static const char *const component_titles[] = {"component", "dtype", "type", "offset", "length", "digest"};
    uint64_t next = 0;
    titles(objects, 0, object_titles, 4);
    titles(components, 2, component_titles, 6);
    for (uint64_t i = 0; i < of->answer.objects; i++) {
        object(objects, of, object_row(of, i));
        for (uint64_t j = 0; j < object_row(of, i)[ZT_OBJECT_COMPONENTS]; j++) component(components, of, component_row(of, next++));
    }
}

static void print_model(const model *of) {
    grid objects = {{0}, 0, 0, 0}, components = {{0}, 0, 0, 0};
    print_escaped(&out, (const uint8_t *)of->file.path, strlen(of->file.path));
    print_counted(&out, ": bytes ", of->file.length, "");
    print_counted(&out, ", objects ", of->answer.objects, "");
    print_counted(&out, ", components ", of->answer.components, "");
    print_counted(&out, ", manifest ", manifest_length(of), "");
    print_counted(&out, " bytes at ", of->answer.start, "");
    if (attributes_of(of).present) {
        print_counted(&out, ", attributes ", of->answer.size, "");
        print_counted(&out, " bytes at ", of->answer.place, "");
    }
    print_words(&out, "\n\n");
    rows(&objects, &components, of);
    objects.printing = components.printing = 1;
    rows(&objects, &components, of);
}

static void json_model(const model *of) {
    print_words(&out, "{");
    json_verdict(of->file.path, fault_of(of));
    json_number(0, " ", "length", of->file.length);
    json_range("manifest", of->answer.start, manifest_length(of));
    json_range("attributes", of->answer.place, of->answer.size);
    json_objects(of, 1);
    print_words(&out, "}\n");
}

int show_file(const arguments *given) {
    model of;
    int status = model_open_sound(&of, given->operands[0], given->layout, given->json);
    if (status != DONE) return status;
    if (given->json) json_model(&of);
    else print_model(&of);
    return model_close(&of, DONE);
}
