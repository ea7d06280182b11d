/* Words about numbers, and the library's version: the companion of the proved calls, in plain C. c/check holds the words against zt.h's own. */
#include "zt.h"

typedef struct {
    const char *name, *words;
} refusal;

static const refusal refusals[] = {
    {"ACCEPTED", "no fault"},
    {"SHORT", "file under 24 bytes"},
    {"HEADER", "first 8 wrong"},
    {"FOOTER", "last 8 wrong"},
    {"BIG", "manifest size over the limit, 16,777,216"},
    {"FIT", "manifest size 0 or over file length - 24"},
    {"CBOR", "malformed, ended early, or bytes left over"},
    {"DEEP", "an item at depth 33 begins"},
    {"KIND", "known value of another kind; chunked text in a known place"},
    {"KEY", "key of a root, object or component map, or a name, isn't whole text"},
    {"TEXT", "name, format, type or digest isn't UTF-8 (RFC 3629)"},
    {"TWICE", "a known field or a name repeated"},
    {"MISSING", "required field absent"},
    {"VERSION", "text not two or three runs of 1 to 9 digits joined by dots, or a run but \"0\" that begins with 0"},
    {"MAJOR", "major isn't 1"},
    {"COUNT", "a limit passed: 1,024 objects, 16 components an object, rank 8; written: a last blob that ends above 2^40"},
    {"DTYPE", "not one of the 13"},
    {"ENCODING", "present and not \"raw\""},
    {"TYPE", "listed type over another dtype"},
    {"ALIGN", "offset not a multiple of 64"},
    {"BOUNDS", "offset under 64, or offset + length over the manifest start"},
    {"RANK", "sparse_csr not of rank 2"},
    {"ROLE", "needed role absent, or index role not plain u64"},
    {"LENGTH", "length rule broken"},
    {"ROOM", "lent table or output too short"},
    {"ROW", "writer's rows unsound"},
    {"INDEX", "row outside count or table, or range not inside the file"},
    {"PLAN", "placement plan refused; the object's index is the first row at fault, or the count of rows where offsets are left over"},
    {"BUSY", "an engine that has a file loaded loads"},
};
static const refusal no_refusal = {"UNKNOWN", "no refusal has this number"};

static const char *const dtypes[] = {"f64", "f32", "f16", "bf16", "i64", "i32", "i16", "i8", "u64", "u32", "u16", "u8", "bool"};

static const refusal *of(uint64_t number) { return number < sizeof refusals / sizeof *refusals ? refusals + number : &no_refusal; }

const char *zt_library_version(void) { return ZT_LIBRARY_VERSION; }
const char *zt_refusal_name(uint64_t number) { return of(number)->name; }
const char *zt_refusal_words(uint64_t number) { return of(number)->words; }
const char *zt_dtype_name(uint64_t code) { return code < sizeof dtypes / sizeof *dtypes ? dtypes[code] : "unknown"; }
