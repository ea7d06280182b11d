/* What is said of a refusal: number, name, indices and words, for people and as JSON. */
#include "json.h"
#include "refusal.h"
#include <stdio.h>
#include <string.h>

/* The words of zt.h are 1.2.0's: in layout 1.0 the frame is 16 bytes, and an index role can't be anything but u64. */
static const char *words_of(fault what) {
    if (what.layout == ZT_LAYOUT_1_0 && what.number == ZT_SHORT) return "file under 16 bytes";
    if (what.layout == ZT_LAYOUT_1_0 && what.number == ZT_FIT) return "manifest size 0 or over file length - 16";
    if (what.layout == ZT_LAYOUT_1_0 && what.number == ZT_ROLE) return "needed role absent";
    return zt_refusal_words(what.number);
}

/* Whoever forgot to say the layout, or said the wrong one, is told so. */
static const char *other_words(fault what) {
    if (!what.sound_as_other) return "";
    return what.layout == ZT_LAYOUT_1_0 ? "; it is sound as layout 1.2.0" : "; it is sound as layout 1.0, which --layout 1.0 and import read";
}

void print_refused(stream *to, fault what) {
    print_words(to, "refused ");
    print_number(to, what.number);
    print_words(to, " ");
    print_words(to, zt_refusal_name(what.number));
    print_words(to, ", object ");
    print_number(to, what.object);
    print_words(to, ", component ");
    print_number(to, what.component);
    print_words(to, ": ");
    print_words(to, words_of(what));
    print_words(to, other_words(what));
    print_words(to, "\n");
}

int say_refused(const char *path, fault what) {
    flush(&out);
    print_words(&err, "zt: ");
    print_escaped(&err, (const uint8_t *)path, strlen(path));
    print_words(&err, ": ");
    print_refused(&err, what);
    flush(&err);
    return REFUSED;
}

const char *why_of(uint64_t number) {
    switch (number) {
    case ZT_KIND: return "known value of another kind, or chunked text in a known place";
    case ZT_KEY: return "a key or name isn't whole text";
    case ZT_TEXT: return "name, format, type or digest isn't UTF-8";
    case ZT_COUNT: return "over 1024 objects, 16 components an object or rank 8";
    case ZT_DTYPE: return "not one of the 13 dtypes";
    case ZT_ENCODING: return "present and not raw";
    default: return zt_refusal_words(number);
    }
}

void json_verdict(const char *path, fault what) {
    char words[256];
    json_key(1, "", "file");
    json_words(path);
    json_key(0, " ", "sound");
    print_words(&out, what.number == ZT_ACCEPTED ? "true" : "false");
    if (what.number == ZT_ACCEPTED) return;
    json_key(0, " ", "refusal");
    print_words(&out, "{");
    json_number(1, "", "number", what.number);
    json_key(0, " ", "name");
    json_words(zt_refusal_name(what.number));
    json_number(0, " ", "object", what.object);
    json_number(0, " ", "component", what.component);
    json_key(0, " ", "words");
    snprintf(words, sizeof words, "%s%s", words_of(what), other_words(what));
    json_words(words);
    print_words(&out, "}");
}
