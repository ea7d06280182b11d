/* The numbers that a check compares. Of lengths they follow from shape, format, dtype and type of the object, by document 01's rules. */
#include "explain.h"
#include "arguments.h"
#include "items.h"
#include "model.h"
#include "stream.h"
#include <string.h>

enum { HEADER = 8, INDEX_WIDTH = 8, TEXT_MOST = 64 };

/* By storage code. */
static const struct {
    const char *first_name; /* in layout 1.0 */
    uint64_t width;
} dtypes[] = {{"float64", 8}, {"float32", 4}, {"float16", 2}, {"bfloat16", 2}, {"int64", 8},  {"int32", 4}, {"int16", 2},
              {"int8", 1},    {"uint64", 8},  {"uint32", 4},  {"uint16", 2},   {"uint8", 1}, {"bool", 1}};

uint64_t dtype_of(const uint8_t *at, size_t length, uint64_t layout) {
    uint64_t code = 0;
    for (; code <= ZT_BOOL; code++) {
        const char *name = layout == ZT_LAYOUT_1_0 ? dtypes[code].first_name : zt_dtype_name(code);
        if (strlen(name) == length && memcmp(name, at, length) == 0) break;
    }
    return code;
}

/* What a length is to be: a number, or a multiple of it; `over` if 64 bits don't hold it. */
typedef struct {
    int multiple, over;
    uint64_t number;
} asked;

static void multiply(asked *by, uint64_t factor) {
    if (factor && by->number > UINT64_MAX / factor) by->over = 1;
    by->number *= factor;
}

/* A zero makes the product 0, whatever came before it. */
static asked shape_product(const item *shape) {
    asked product = {0, 0, 1};
    item side;
    for (uint64_t i = 0; element_at(&side, shape, i); i++) {
        if (side.argument == 0) return (asked){0, 0, 0};
        multiply(&product, side.argument);
    }
    return product;
}

/* Bytes of one number of a component, and of one logical element: 0 where its type isn't listed, which then has no ratio. */
typedef struct {
    uint64_t width, element;
} widths;

static int widths_of(widths *into, const item *object, const item *component, uint64_t layout) {
    item dtype, type;
    uint64_t code;
    if (!field_at(&dtype, layout == ZT_LAYOUT_1_0 ? object : component, "dtype") || dtype.major != TEXT || dtype.open) return 0;
    code = dtype_of(dtype.content, (size_t)dtype.argument, layout);
    if (code > ZT_BOOL) return 0;
    *into = (widths){dtypes[code].width, dtypes[code].width};
    if (layout == ZT_LAYOUT_1_0 || !field_at(&type, component, "type") || type.major != TEXT) return 1;
    if (is_text(&type, "complex64") || is_text(&type, "complex128")) into->element *= 2;
    else if (!is_text(&type, "f8_e4m3fn") && !is_text(&type, "f8_e5m2") && !is_text(&type, "f8_e4m3fnuz") && !is_text(&type, "f8_e5m2fnuz"))
        into->element = 0;
    return 1;
}

/* Numbers of 8 bytes, so many for each of the values; a multiple of 8 where the values' type tells no number of them. */
static int asked_of_index(asked *into, const item *object, const item *components, uint64_t each, uint64_t layout) {
    item values, length;
    widths of;
    if (!field_at(&values, components, "values") || !field_at(&length, &values, "length") || !widths_of(&of, object, &values, layout)) return 0;
    *into = (asked){of.element == 0, 0, INDEX_WIDTH};
    if (of.element == 0) return 1;
    multiply(into, each);
    multiply(into, length.argument / of.element);
    return 1;
}

/* What the format asks of the length of the component at fault. */
static int length_asked(asked *into, const item *holders, const item *name, uint64_t layout) {
    const item *object = holders + OBJECT, *components = holders + COMPONENTS;
    item shape, rows;
    widths of;
    if (!field_at(&shape, object, "shape")) return 0;
    if (is_text(name, "indices")) return asked_of_index(into, object, components, 1, layout);
    if (is_text(name, "coords")) return asked_of_index(into, object, components, elements(&shape), layout);
    if (is_text(name, "indptr")) {
        *into = (asked){0, 0, INDEX_WIDTH};
        if (!element_at(&rows, &shape, 0)) return 0;
        into->over = rows.argument == UINT64_MAX;
        multiply(into, rows.argument + 1);
        return 1;
    }
    if (!widths_of(&of, object, holders + COMPONENT, layout)) return 0;
    *into = (asked){1, 0, of.element ? of.element : of.width};
    if (is_text(name, "values") || of.element == 0) return 1;
    *into = shape_product(&shape);
    multiply(into, of.element);
    return 1;
}

static void print_length(const refused *of, const item *found, const item *root) {
    item holders[HOLDERS], name;
    asked rule;
    const uint8_t *text = of->file->at + of->why.component_name;
    if (!holders_of(holders, root, found->from)) return;
    name = (item){text, text, text + of->why.component_name_length, TEXT, of->why.component_name_length, 0};
    if (!length_asked(&rule, holders, &name, of->layout)) return;
    print_counted(&out, "  length ", found->argument, "; asked: ");
    if (rule.over) print_words(&out, "a number that 64 bits don't hold\n");
    else print_counted(&out, rule.multiple ? "a multiple of " : "", rule.number, "\n");
}

static void print_bounds(const refused *of, const item *offset, const item *root) {
    item holders[HOLDERS], length;
    if (!holders_of(holders, root, offset->from) || !field_at(&length, holders + COMPONENT, "length")) return;
    print_counted(&out, "  offset ", offset->argument, "");
    print_counted(&out, ", length ", length.argument, ", end ");
    if (length.argument > UINT64_MAX - offset->argument) print_words(&out, "above 2^64 - 1");
    else print_number(&out, offset->argument + length.argument);
    print_counted(&out, "; asked: offset at least 64, end at most ", (uint64_t)(root->from - of->file->at), ", the manifest start\n");
}

/* "  rank 9; asked: at most 8", a line. */
static void print_asked(const char *what, uint64_t found, const char *rule, uint64_t number) {
    print_counted(&out, what, found, "; asked: ");
    print_counted(&out, rule, number, "\n");
}

static void print_count(const refused *of, const item *found) {
    const char *holder = of->layout == ZT_LAYOUT_1_0 ? "  tensors " : "  objects ";
    if (found->major == ARRAY) print_asked("  rank ", elements(found), "at most ", ZT_RANK_MOST);
    else if (of->why.object_name) print_asked("  components ", elements(found) / 2, "at most ", ZT_COMPONENTS_MOST);
    else print_asked(holder, elements(found) / 2, "at most ", ZT_OBJECTS_MOST);
}

static void print_kind(const item *found) {
    static const char *const kinds[] = {"an unsigned integer", "a negative integer", "a byte string",  "text",
                                        "an array",            "a map",              "a tagged value", "a float or simple value"};
    print_words(&out, "  found ");
    print_words(&out, kinds[found->major]);
    print_words(&out, found->major == TEXT && found->open ? " in chunks\n" : "\n");
}

/* A whole text, as listings print it; of a long one the front. */
static void print_text(const item *found) {
    int cut = found->argument > TEXT_MOST;
    if (found->major != TEXT || found->open) return;
    print_words(&out, "  text ");
    print_escaped(&out, found->content, cut ? TEXT_MOST : (size_t)found->argument);
    print_words(&out, cut ? " ..\n" : "\n");
}

/* Of a refusal whose span is an item of the manifest. */
static void print_item(const refused *of, const item *found, const item *root) {
    switch (of->why.number) {
    case ZT_KIND: print_kind(found); break;
    case ZT_COUNT: print_count(of, found); break;
    case ZT_ALIGN: print_asked("  offset ", found->argument, "a multiple of ", ALIGNMENT); break;
    case ZT_BOUNDS: print_bounds(of, found, root); break;
    case ZT_RANK: print_asked("  rank ", elements(found), "", 2); break;
    case ZT_LENGTH: print_length(of, found, root); break;
    default: print_text(found); break;
    }
}

void print_compared(const refused *of) {
    const uint8_t *span = of->file->at + of->why.place;
    uint64_t frame = HEADER + behind_manifest(of->layout), length = of->file->length;
    item found, root;
    switch (of->why.number) {
    case ZT_SHORT: print_asked("  length ", length, "at least ", frame); break;
    case ZT_BIG: print_asked("  manifest size ", little(span), "at most ", ZT_MANIFEST_MOST); break;
    case ZT_FIT: print_asked("  manifest size ", little(span), "at least 1, at most ", length - frame); break;
    case ZT_ROOM: print_asked("  room ", of->room, "at least ", of->why.room); break;
    default:
        if (of->why.number <= ZT_DEEP || !manifest_at(&root, of->file, of->layout) || !item_at(&found, span, root.to)) break;
        print_item(of, &found, &root);
    }
}
