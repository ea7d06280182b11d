/* Objects, components and ranges as JSON. */
#include "rows.h"

static void json_optional(const char *key, text of) {
    json_key(0, " ", key);
    if (of.present) json_text(of.at, of.length);
    else print_words(&out, "null");
}

void json_range(const char *key, uint64_t place, uint64_t length) {
    json_key(0, " ", key);
    if (!place && !length) {
        print_words(&out, "null");
        return;
    }
    print_words(&out, "{");
    json_number(1, "", "offset", place);
    json_number(0, " ", "length", length);
    print_words(&out, "}");
}

static void json_name(text name) {
    json_key(1, "", "name");
    json_text(name.at, name.length);
}

static void json_shape(const uint64_t *row) {
    json_key(0, " ", "shape");
    print_words(&out, "[");
    for (uint64_t i = 0; i < row[ZT_OBJECT_RANK]; i++) {
        print_words(&out, i ? ", " : "");
        print_number(&out, row[ZT_OBJECT_SHAPE + i]);
    }
    print_words(&out, "]");
}

static void json_component(const model *of, const uint64_t *row, int full) {
    print_words(&out, "{");
    json_name(text_of(of, row + ZT_COMPONENT_NAME));
    json_key(0, " ", "dtype");
    json_words(zt_dtype_name(row[ZT_COMPONENT_DTYPE]));
    if (full) json_optional("type", text_of(of, row + ZT_COMPONENT_TYPE));
    json_number(0, " ", "offset", row[ZT_COMPONENT_OFFSET]);
    json_number(0, " ", "length", row[ZT_COMPONENT_LENGTH]);
    if (full) json_optional("digest", text_of(of, row + ZT_COMPONENT_DIGEST));
    print_words(&out, "}");
}

static void json_object(const model *of, const uint64_t *row, uint64_t component, int full) {
    print_words(&out, "{");
    json_name(text_of(of, row + ZT_OBJECT_NAME));
    json_optional("format", text_of(of, row + ZT_OBJECT_FORMAT));
    if (full) json_shape(row);
    if (full) json_range("attributes", row[ZT_OBJECT_ATTRIBUTES], row[ZT_OBJECT_ATTRIBUTES_LENGTH]);
    json_key(0, " ", "components");
    print_words(&out, "[");
    for (uint64_t i = 0; i < row[ZT_OBJECT_COMPONENTS]; i++) {
        print_words(&out, i ? ",\n    " : "\n    ");
        json_component(of, component_row(of, component + i), full);
    }
    print_words(&out, "]}");
}

void json_objects(const model *of, int full) {
    uint64_t component = 0;
    json_key(0, " ", "objects");
    print_words(&out, "[");
    for (uint64_t i = 0; i < of->answer.objects; i++) {
        print_words(&out, i ? ",\n  " : "\n  ");
        json_object(of, object_row(of, i), component, full);
        component += object_row(of, i)[ZT_OBJECT_COMPONENTS];
    }
    print_words(&out, "]");
}
