/* What else a refused file may be. Guesses, each marked as one. */
#include "explain.h"
#include "items.h"
#include "stream.h"
#include <string.h>

enum { HEADER = 8 };
static const char magic[] = "ZTEN1000";

static void hint(const char *words, const char *more, const char *end) {
    print_words(&out, "  hint: ");
    print_words(&out, words);
    print_words(&out, more);
    print_words(&out, end);
    print_words(&out, "\n");
}

static int begins_with(const input *file, const char *words) {
    return file->length >= strlen(words) && memcmp(file->at, words, strlen(words)) == 0;
}

/* A safetensors file begins with the length of a JSON object, which follows. */
static int is_safetensors(const input *file) { return file->length > HEADER && little(file->at) <= file->length - HEADER && file->at[HEADER] == '{'; }

static const char *layout_name(uint64_t layout) { return layout == ZT_LAYOUT_1_0 ? "1.0" : "1.2.0"; }

/* Sound in the other layout, or at least of its frame and one well-formed manifest. */
static int hint_layout(const refused *of, uint64_t other) {
    uint64_t number = zt_accept_as(other, of->file->at, of->file->length);
    if (number != ZT_ACCEPTED && number <= ZT_DEEP) return 0;
    hint(number == ZT_ACCEPTED ? "it is sound as layout " : "its frame is that of layout ", layout_name(other), "; --layout says which is meant");
    return 1;
}

/* Objects or dtypes by the other layout's names, in this one's frame. */
static void hint_names(const refused *of, uint64_t other) {
    const uint8_t *span = of->file->at + of->why.place;
    item root, found, field;
    if (!manifest_at(&root, of->file, of->layout) || !item_at(&found, span, root.to)) return;
    if (of->why.number == ZT_MISSING && !of->why.object_name && field_at(&field, &found, other == ZT_LAYOUT_1_0 ? "tensors" : "objects"))
        hint("the root has the fields of layout ", layout_name(other), " in a frame that isn't that layout's");
    if (of->why.number == ZT_DTYPE && dtype_of(found.content, (size_t)found.argument, other) <= ZT_BOOL)
        hint("that is a dtype's name in layout ", layout_name(other), "");
}

/* The frame's end is missing: in layout 1.0 that is the manifest's size, so that any number may stand in its place. */
static int has_no_end(const refused *of) { return of->layout == ZT_LAYOUT_1_0 || of->why.number <= ZT_FOOTER; }

void print_hints(const refused *of) {
    const input *file = of->file;
    uint64_t other = of->layout == ZT_LAYOUT_1_0 ? ZT_LAYOUT_1_2 : ZT_LAYOUT_1_0;
    if (of->why.number == ZT_MISSING || of->why.number == ZT_DTYPE) hint_names(of, other);
    if (of->why.number > ZT_FIT) return;
    if (begins_with(file, "GGUF")) hint("it begins as a GGUF file does", "", "");
    else if (!begins_with(file, magic) && is_safetensors(file)) hint("it begins as a safetensors file does", "", "");
    else if (begins_with(file, magic) && !hint_layout(of, other) && has_no_end(of))
        hint("it begins as a .zt file does, and doesn't end as one: perhaps it was cut short", "", "");
}
