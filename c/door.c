/*
 * The header against the library, number by number, field by field and argument by argument, on values that are all different. C99 and C++. The proofs speak of
 * numbers, and of arguments and results in an order; that zt.h gives them the same names in the same order is shown here and nowhere else.
 */
#include "zt.h"
#include <stdio.h>
#include <string.h>

static int wrong = 0;

static void same(const char *what, uint64_t got, uint64_t expected) {
    if (got == expected) return;
    fprintf(stderr, "%s is %llu, and should be %llu\n", what, (unsigned long long)got, (unsigned long long)expected);
    wrong = 1;
}
#define SAME(got, expected) same(#got, (uint64_t)(got), (uint64_t)(expected))

/* The refusals, each with document 01's number. */
static void numbers(void) {
    SAME(ZT_ACCEPTED, 0), SAME(ZT_SHORT, 1), SAME(ZT_HEADER, 2), SAME(ZT_FOOTER, 3), SAME(ZT_BIG, 4), SAME(ZT_FIT, 5), SAME(ZT_CBOR, 6);
    SAME(ZT_DEEP, 7), SAME(ZT_KIND, 8), SAME(ZT_KEY, 9), SAME(ZT_TEXT, 10), SAME(ZT_TWICE, 11), SAME(ZT_MISSING, 12), SAME(ZT_VERSION, 13);
    SAME(ZT_MAJOR, 14), SAME(ZT_COUNT, 15), SAME(ZT_DTYPE, 16), SAME(ZT_ENCODING, 17), SAME(ZT_TYPE, 18), SAME(ZT_ALIGN, 19), SAME(ZT_BOUNDS, 20);
    SAME(ZT_RANK, 21), SAME(ZT_ROLE, 22), SAME(ZT_LENGTH, 23), SAME(ZT_ROOM, 24), SAME(ZT_ROW, 25), SAME(ZT_INDEX, 26), SAME(ZT_PLAN, 27), SAME(ZT_BUSY, 28);
}

/* The columns and widths of rows, the limits, the storage codes and the layouts, each with its number in documents 01 and 02. */
static void columns(void) {
    SAME(ZT_OBJECT_NAME, 0), SAME(ZT_OBJECT_NAME_LENGTH, 1), SAME(ZT_OBJECT_RANK, 2), SAME(ZT_OBJECT_SHAPE, 3), SAME(ZT_OBJECT_FORMAT, 11);
    SAME(ZT_OBJECT_FORMAT_LENGTH, 12), SAME(ZT_OBJECT_ATTRIBUTES, 13), SAME(ZT_OBJECT_ATTRIBUTES_LENGTH, 14), SAME(ZT_OBJECT_COMPONENTS, 15);
    SAME(ZT_OBJECT_WIDTH, 16);
    SAME(ZT_COMPONENT_NAME, 0), SAME(ZT_COMPONENT_NAME_LENGTH, 1), SAME(ZT_COMPONENT_DTYPE, 2), SAME(ZT_COMPONENT_TYPE, 3);
    SAME(ZT_COMPONENT_TYPE_LENGTH, 4), SAME(ZT_COMPONENT_OFFSET, 5), SAME(ZT_COMPONENT_LENGTH, 6), SAME(ZT_COMPONENT_DIGEST, 7);
    SAME(ZT_COMPONENT_DIGEST_LENGTH, 8), SAME(ZT_COMPONENT_OWNER, 9), SAME(ZT_COMPONENT_ENTRY, 10), SAME(ZT_COMPONENT_ENTRY_LENGTH, 11);
    SAME(ZT_COMPONENT_WIDTH, 12);
    SAME(ZT_NUMBERS(3, 7), 132), SAME(ZT_TABLE_MOST, 212992);
    SAME(ZT_OBJECTS_MOST, 1024), SAME(ZT_COMPONENTS_MOST, 16), SAME(ZT_RANK_MOST, 8), SAME(ZT_MANIFEST_MOST, 16777216);
    SAME(ZT_F64, 0), SAME(ZT_F32, 1), SAME(ZT_F16, 2), SAME(ZT_BF16, 3), SAME(ZT_I64, 4), SAME(ZT_I32, 5), SAME(ZT_I16, 6), SAME(ZT_I8, 7);
    SAME(ZT_U64, 8), SAME(ZT_U32, 9), SAME(ZT_U16, 10), SAME(ZT_U8, 11), SAME(ZT_BOOL, 12);
    SAME(ZT_LAYOUT_1_2, 0), SAME(ZT_LAYOUT_1_0, 1);
}

enum { OBJECTS = 3, COMPONENTS = 7, NUMBERS = ZT_NUMBERS(OBJECTS, COMPONENTS) };

/* What the rows point at. Names are one letter; the blobs stand behind the letters. */
static const uint8_t buffer[] = "ABCabcdefg_complex64\xA1\x61k\x01\xA2\x61k\x01\x61l\x02-0123456789012345678901234567890123456789";
enum { NAMES = 0, PARTS = 3, FORMAT = 10, TYPE = 11, MAP = 20, MAP_LENGTH = 4, ROOT = 24, ROOT_LENGTH = 7, BLOB = 32 };

/* Objects of 1, 2 and 4 components, of another format than document 01's, each component of i8 and one byte longer than the one before. */
static void fill(uint64_t *rows) {
    static const uint64_t owned[OBJECTS] = {1, 2, 4};
    uint64_t *row = rows;
    uint64_t i, j, at = 0;
    memset(rows, 0, NUMBERS * sizeof *rows);
    for (i = 0; i < OBJECTS; i++, row += ZT_OBJECT_WIDTH) {
        row[ZT_OBJECT_NAME] = NAMES + i, row[ZT_OBJECT_NAME_LENGTH] = 1;
        row[ZT_OBJECT_RANK] = 1, row[ZT_OBJECT_SHAPE] = 40 + i;
        row[ZT_OBJECT_FORMAT] = FORMAT, row[ZT_OBJECT_FORMAT_LENGTH] = 1;
        row[ZT_OBJECT_COMPONENTS] = owned[i];
    }
    /* the second object's attributes */
    rows[ZT_OBJECT_WIDTH + ZT_OBJECT_ATTRIBUTES] = MAP, rows[ZT_OBJECT_WIDTH + ZT_OBJECT_ATTRIBUTES_LENGTH] = MAP_LENGTH;
    for (i = 0; i < OBJECTS; i++)
        for (j = 0; j < owned[i]; j++, at++, row += ZT_COMPONENT_WIDTH) {
            row[ZT_COMPONENT_NAME] = PARTS + at, row[ZT_COMPONENT_NAME_LENGTH] = 1;
            row[ZT_COMPONENT_DTYPE] = ZT_I8;
            row[ZT_COMPONENT_OFFSET] = BLOB + at, row[ZT_COMPONENT_LENGTH] = 11 + at;
            row[ZT_COMPONENT_OWNER] = i;
            row[ZT_COMPONENT_ENTRY] = UINT64_MAX, row[ZT_COMPONENT_ENTRY_LENGTH] = UINT64_MAX - at; /* which the writer doesn't look at */
        }
}

static uint64_t rows[NUMBERS], table[NUMBERS + 1];
static uint8_t out[4096], text[512];

/* An accepted writing, reading, view and listing: every field and every argument. */
static void accepted(void) {
    zt_written w;
    zt_answer a;
    zt_range r;
    zt_text t;
    uint64_t start;
    fill(rows);
    w = zt_write(rows, NUMBERS, OBJECTS, COMPONENTS, ROOT, ROOT_LENGTH, buffer, sizeof buffer - 1, out, sizeof out);
    SAME(w.number, ZT_ACCEPTED), SAME(w.object, 0), SAME(w.component, 0);
    if (w.number != ZT_ACCEPTED) return;
    start = 64 * COMPONENTS + 17; /* the last of seven blobs is 17 bytes from the seventh multiple of 64 */
    SAME(w.length, start + 16 + (out[w.length - 16] + 256u * out[w.length - 15]));
    SAME(zt_accept(out, w.length), ZT_ACCEPTED);
    SAME(zt_accept(out, w.length - 1), ZT_FOOTER);

    table[NUMBERS] = 5;
    a = zt_read(out, w.length, table, NUMBERS + 1);
    SAME(table[NUMBERS], 5);
    SAME(a.number, ZT_ACCEPTED), SAME(a.object, 0), SAME(a.component, 0);
    SAME(a.objects, OBJECTS), SAME(a.components, COMPONENTS), SAME(a.start, start), SAME(a.size, ROOT_LENGTH);
    SAME(memcmp(out + a.place, buffer + ROOT, ROOT_LENGTH), 0);
    SAME(a.place > start && a.place + a.size <= w.length - 16, 1);
    {
        /* the sixth component's map: three fields, from its key's end to the next entry's key, a letter; the last component's ends the manifest */
        const uint64_t *row = table + ZT_NUMBERS(OBJECTS, 5), *last = table + ZT_NUMBERS(OBJECTS, 6);
        SAME(row[ZT_COMPONENT_ENTRY], row[ZT_COMPONENT_NAME] + 1), SAME(out[row[ZT_COMPONENT_ENTRY]], 0xA3);
        SAME(row[ZT_COMPONENT_ENTRY] + row[ZT_COMPONENT_ENTRY_LENGTH], last[ZT_COMPONENT_NAME] - 1);
        SAME(last[ZT_COMPONENT_ENTRY] + last[ZT_COMPONENT_ENTRY_LENGTH], w.length - 16);
    }
    a = zt_read(out, w.length, table, NUMBERS - 1);
    SAME(a.number, ZT_ROOM), SAME(a.objects, 0), SAME(a.components, 0), SAME(a.start, 0), SAME(a.place, 0), SAME(a.size, 0);

    r = zt_view(out, w.length, table, NUMBERS, OBJECTS, COMPONENTS, 5);
    SAME(r.number, ZT_ACCEPTED), SAME(r.offset, 6 * 64), SAME(r.length, 16);
    SAME(memcmp(out + r.offset, buffer + BLOB + 5, r.length), 0);
    SAME(zt_view(out, w.length, table, NUMBERS, OBJECTS, COMPONENTS, COMPONENTS).number, ZT_INDEX);

    t = zt_list(out, w.length, table, NUMBERS, OBJECTS, COMPONENTS, text, sizeof text);
    SAME(t.number, ZT_ACCEPTED), SAME(t.length, 23 + OBJECTS * 11 + 16 + 6 * 17);
    SAME(memcmp(text, "objects 3 components 7\nobject A _\nblob a i8 64 11\nobject B _\n", 61), 0);
    t = zt_list(out, w.length, table, NUMBERS, OBJECTS, COMPONENTS, text, 60);
    SAME(t.number, ZT_ROOM), SAME(t.length, 0);
}

/* Spoils the dtype of the fifth component, the second of the third object, in the file that was read into the table: where it stands. */
static uint64_t spoil_dtype(void) {
    uint64_t at = table[ZT_NUMBERS(OBJECTS, 4) + ZT_COMPONENT_NAME];
    while (memcmp(out + at, "\x62i8", 3) != 0) at++;
    out[at + 2] = '9';
    return at;
}

/* Refusals whose number, object and component all differ, and are not 0. */
static void refused(void) {
    zt_written w;
    zt_answer a;
    uint64_t length;
    fill(rows);
    /* the third component of the third object gets a type that i8 can't have */
    rows[ZT_NUMBERS(OBJECTS, 5) + ZT_COMPONENT_TYPE] = TYPE, rows[ZT_NUMBERS(OBJECTS, 5) + ZT_COMPONENT_TYPE_LENGTH] = 9;
    w = zt_write(rows, NUMBERS, OBJECTS, COMPONENTS, ROOT, ROOT_LENGTH, buffer, sizeof buffer - 1, out, sizeof out);
    SAME(w.number, ZT_TYPE), SAME(w.object, 2), SAME(w.component, 2), SAME(w.length, 0);
    /* the second component of the third object: number 18, object 2, component 1 */
    fill(rows);
    rows[ZT_NUMBERS(OBJECTS, 4) + ZT_COMPONENT_TYPE] = TYPE, rows[ZT_NUMBERS(OBJECTS, 4) + ZT_COMPONENT_TYPE_LENGTH] = 9;
    w = zt_write(rows, NUMBERS, OBJECTS, COMPONENTS, ROOT, ROOT_LENGTH, buffer, sizeof buffer - 1, out, sizeof out);
    SAME(w.number, ZT_TYPE), SAME(w.object, 2), SAME(w.component, 1), SAME(w.length, 0);
    /* a sound file whose fifth component's dtype is spoilt: DTYPE in object 2, component 1 */
    fill(rows);
    length = zt_write(rows, NUMBERS, OBJECTS, COMPONENTS, ROOT, ROOT_LENGTH, buffer, sizeof buffer - 1, out, sizeof out).length;
    zt_read(out, length, table, NUMBERS);
    spoil_dtype();
    memset(table, 0xA5, sizeof table);
    a = zt_read(out, length, table, NUMBERS);
    SAME(a.number, ZT_DTYPE), SAME(a.object, 2), SAME(a.component, 1);
    SAME(a.objects, 0), SAME(a.components, 0), SAME(a.start, 0), SAME(a.place, 0), SAME(a.size, 0);
    {
        size_t i;
        for (i = 0; i < NUMBERS; i++) SAME(table[i], 0xA5A5A5A5A5A5A5A5u);
    }
}

/*
 * A manifest of layout 1.0: a dense tensor of one component, and a sparse_csr one of three, whose pointers' length is the last byte. A letter that could be
 * a digit of the number before it stands as a number too.
 */
#define LAID_AT(offset, length) "\x66offset" offset "\x66length" length
static const uint8_t manifest[] =
    "\xA4\x67version\x63\x31.0\x69generator\x64made\x6A\x61ttributes\xA1\x61k\x01\x67tensors\xA2"
    "\x61m\xA4\x65\x64type\x65int16\x65shape\x81\x03\x66\x66ormat\x65\x64\x65nse\x6A\x63omponents\xA1"
    "\x64\x64\x61ta\xA2" LAID_AT("\x18\x40", "\x06")
    "\x61n\xA5\x65\x64type\x67\x66loat16\x65shape\x82\x02\x05\x66\x66ormat\x6Asparse_csr\x6A\x61ttributes\xA0\x6A\x63omponents\xA3"
    "\x66values\xA2" LAID_AT("\x18\x80", "\x04")
    "\x67indices\xA3\x66\x64igest\x61\x64" LAID_AT("\x18\xC0", "\x10")
    "\x66indptr\xA2" LAID_AT("\x19\x01\x00", "\x18\x18");
enum { TENSORS = 2, PIECES = 4, LAID = ZT_NUMBERS(TENSORS, PIECES) };
enum { MANIFEST = sizeof manifest - 1, FIRST_START = 256 + 24, FIRST = FIRST_START + MANIFEST + 8 };
static uint8_t first[FIRST];

static void lay_first(void) {
    size_t i;
    memset(first, 0, FIRST);
    memcpy(first, "ZTEN1000", 8);
    for (i = 64; i < FIRST_START; i++) first[i] = (uint8_t)i;
    memcpy(first + FIRST_START, manifest, MANIFEST);
    first[FIRST - 8] = (uint8_t)MANIFEST, first[FIRST - 7] = (uint8_t)(MANIFEST >> 8);
}

/* A file of layout 1.0, accepted and refused, and the file that its rows write. */
static void of_a_layout(void) {
    static const uint64_t codes[PIECES] = {ZT_I16, ZT_F16, ZT_U64, ZT_U64}, lengths[PIECES] = {6, 4, 16, 24};
    static const char lines[] = "objects 2 components 4\nobject m dense\nblob data i16 64 6\nobject n sparse_csr\nblob values f16 128 4\nblob indices u64 192 16\n";
    zt_answer a, b;
    zt_written w;
    uint64_t i;
    lay_first();
    SAME(zt_accept_as(ZT_LAYOUT_1_0, first, FIRST), ZT_ACCEPTED);
    /* every number but 1 is 1.2.0, which wants a footer; a 1.2.0 file's footer is no size */
    SAME(zt_accept(first, FIRST), ZT_FOOTER), SAME(zt_accept_as(ZT_LAYOUT_1_2, first, FIRST), ZT_FOOTER);
    SAME(zt_accept_as(2, first, FIRST), ZT_FOOTER), SAME(zt_accept_as(UINT64_MAX, first, FIRST), ZT_FOOTER);
    SAME(zt_read_as(2, first, FIRST, table, LAID).number, ZT_FOOTER);
    SAME(zt_accept_as(ZT_LAYOUT_1_0, first, 15), ZT_SHORT), SAME(zt_accept_as(ZT_LAYOUT_1_0, first, 16), ZT_FIT);

    table[LAID] = 5;
    a = zt_read_as(ZT_LAYOUT_1_0, first, FIRST, table, LAID + 1);
    SAME(table[LAID], 5);
    SAME(a.number, ZT_ACCEPTED), SAME(a.object, 0), SAME(a.component, 0), SAME(a.objects, TENSORS), SAME(a.components, PIECES);
    SAME(a.start, FIRST_START), SAME(a.size, 4), SAME(memcmp(first + a.place, "\xA1\x61k\x01", 4), 0);
    SAME(table[ZT_OBJECT_WIDTH + ZT_OBJECT_ATTRIBUTES], 0), SAME(table[ZT_OBJECT_WIDTH + ZT_OBJECT_ATTRIBUTES_LENGTH], 0);
    for (i = 0; i < PIECES; i++) {
        const uint64_t *row = table + ZT_NUMBERS(TENSORS, i);
        SAME(row[ZT_COMPONENT_DTYPE], codes[i]), SAME(row[ZT_COMPONENT_OFFSET], 64 * (i + 1)), SAME(row[ZT_COMPONENT_LENGTH], lengths[i]);
        SAME(row[ZT_COMPONENT_TYPE], 0), SAME(row[ZT_COMPONENT_TYPE_LENGTH], 0), SAME(row[ZT_COMPONENT_OWNER], i > 0);
        SAME(first[row[ZT_COMPONENT_ENTRY]], i == 2 ? 0xA3 : 0xA2);
    }
    SAME(zt_list(first, FIRST, table, LAID, TENSORS, PIECES, text, sizeof text).number, ZT_ACCEPTED);
    SAME(memcmp(text, lines, sizeof lines - 1), 0);

    w = zt_write(table, LAID, TENSORS, PIECES, a.place, a.size, first, FIRST, out, sizeof out);
    SAME(w.number, ZT_ACCEPTED), SAME(zt_accept(out, w.length), ZT_ACCEPTED), SAME(zt_accept_as(ZT_LAYOUT_1_0, out, w.length), ZT_BIG);
    b = zt_read_as(ZT_LAYOUT_1_2, out, w.length, rows, LAID);
    SAME(b.number, ZT_ACCEPTED), SAME(b.objects, TENSORS), SAME(b.components, PIECES), SAME(b.start, FIRST_START), SAME(b.size, 4);
    for (i = 0; i < PIECES; i++) {
        const uint64_t *row = rows + ZT_NUMBERS(TENSORS, i);
        SAME(row[ZT_COMPONENT_DTYPE], codes[i]), SAME(row[ZT_COMPONENT_LENGTH], lengths[i]);
        SAME(memcmp(out + row[ZT_COMPONENT_OFFSET], first + 64 * (i + 1), lengths[i]), 0);
    }

    /* one byte of pointers less: LENGTH in object 1, component 2 */
    first[FIRST - 9] = 23;
    memset(table, 0xA5, sizeof table);
    SAME(zt_accept_as(ZT_LAYOUT_1_0, first, FIRST), ZT_LENGTH);
    a = zt_read_as(ZT_LAYOUT_1_0, first, FIRST, table, LAID);
    SAME(a.number, ZT_LENGTH), SAME(a.object, 1), SAME(a.component, 2);
    SAME(a.objects, 0), SAME(a.components, 0), SAME(a.start, 0), SAME(a.place, 0), SAME(a.size, 0);
    for (i = 0; i < LAID; i++) SAME(table[i], 0xA5A5A5A5A5A5A5A5u);
}

/* The whole of what two engines share, by what each call leaves: the first engine's rows from 0 on, the second's up to 65,536, then the states. */
static uint64_t shared[ZT_SHARED];
enum { TABLE = 65536 };

static void two_engines(void) {
    zt_answer a, b;
    zt_held h;
    zt_range r;
    zt_text t;
    uint64_t length, i;
    SAME(ZT_SHARED, 65552);
    fill(rows);
    length = zt_write(rows, NUMBERS, OBJECTS, COMPONENTS, ROOT, ROOT_LENGTH, buffer, sizeof buffer - 1, out, sizeof out).length;
    lay_first();
    memset(shared, 0, sizeof shared);

    /* engine 0: the file of three objects; engine 1: the file of layout 1.0 */
    a = zt_load(shared, ZT_SHARED, 0, ZT_LAYOUT_1_2, out, length);
    SAME(a.number, ZT_ACCEPTED), SAME(a.object, 0), SAME(a.component, 0), SAME(a.objects, OBJECTS), SAME(a.components, COMPONENTS);
    SAME(a.start, 64 * COMPONENTS + 17), SAME(a.size, ROOT_LENGTH), SAME(memcmp(out + a.place, buffer + ROOT, ROOT_LENGTH), 0);
    b = zt_load(shared, ZT_SHARED, 1, ZT_LAYOUT_1_0, first, FIRST);
    SAME(b.number, ZT_ACCEPTED), SAME(b.objects, TENSORS), SAME(b.components, PIECES), SAME(b.start, FIRST_START), SAME(b.size, 4);
    zt_read(out, length, table, NUMBERS);
    SAME(memcmp(shared, table, NUMBERS * sizeof *table), 0);
    zt_read_as(ZT_LAYOUT_1_0, first, FIRST, table, LAID);
    SAME(memcmp(shared + TABLE - LAID, table, LAID * sizeof *table), 0);
    for (i = NUMBERS; i < TABLE - LAID; i++) SAME(shared[i], 0);
    {
        const uint64_t states[] = {1, NUMBERS, OBJECTS, COMPONENTS, a.start, a.place, a.size, 0, 1, LAID, TENSORS, PIECES, b.start, b.place, b.size, 1};
        SAME(memcmp(shared + TABLE, states, sizeof states), 0);
    }
    SAME(zt_load(shared, ZT_SHARED, 0, ZT_LAYOUT_1_2, out, 0).number, ZT_BUSY), SAME(zt_load(shared, ZT_SHARED, 1, ZT_LAYOUT_1_0, first, FIRST).number, ZT_BUSY);

    h = zt_holds(shared, ZT_SHARED, 0);
    SAME(h.number, ZT_ACCEPTED), SAME(h.place, 0), SAME(h.numbers, NUMBERS), SAME(h.objects, OBJECTS), SAME(h.components, COMPONENTS), SAME(h.start, a.start);
    SAME(h.attributes_place, a.place), SAME(h.attributes_length, a.size);
    h = zt_holds(shared, ZT_SHARED, 1);
    SAME(h.number, ZT_ACCEPTED), SAME(h.place, TABLE - LAID), SAME(h.numbers, LAID), SAME(h.objects, TENSORS), SAME(h.components, PIECES);
    SAME(h.start, b.start), SAME(h.attributes_place, b.place), SAME(h.attributes_length, b.size);

    r = zt_engine_view(shared, ZT_SHARED, 0, out, length, 5);
    SAME(r.number, ZT_ACCEPTED), SAME(r.offset, 6 * 64), SAME(r.length, 16);
    r = zt_engine_view(shared, ZT_SHARED, 1, first, FIRST, 2);
    SAME(r.number, ZT_ACCEPTED), SAME(r.offset, 192), SAME(r.length, 16);
    SAME(zt_engine_view(shared, ZT_SHARED, 1, first, FIRST, PIECES).number, ZT_INDEX);
    t = zt_engine_list(shared, ZT_SHARED, 1, first, FIRST, text, sizeof text);
    SAME(t.number, ZT_ACCEPTED), SAME(memcmp(text, "objects 2 components 4\nobject m dense\n", 38), 0);
    SAME(zt_engine_list(shared, ZT_SHARED, 1, first, FIRST, text, t.length).length, t.length);
    SAME(zt_engine_list(shared, ZT_SHARED, 1, first, FIRST, text, t.length - 1).number, ZT_ROOM);

    /* one more number, one less, a third engine, a state that no calls leave */
    SAME(zt_load(shared, ZT_SHARED - 1, 0, 0, out, length).number, ZT_INDEX), SAME(zt_drop(shared, ZT_SHARED - 1, 0), ZT_INDEX);
    SAME(zt_load(shared, ZT_SHARED, 2, 0, out, length).number, ZT_INDEX), SAME(zt_drop(shared, ZT_SHARED, UINT64_MAX), ZT_INDEX);
    SAME(zt_holds(shared, ZT_SHARED, 2).number, ZT_INDEX), SAME(zt_holds(shared, 0, 0).number, ZT_INDEX);
    shared[TABLE + 1] += 1;
    SAME(zt_drop(shared, ZT_SHARED, 1), ZT_INDEX), SAME(zt_engine_list(shared, ZT_SHARED, 1, first, FIRST, text, sizeof text).number, ZT_INDEX);
    shared[TABLE + 1] -= 1;

    /* the second drops, and again, which does nothing; then the first */
    SAME(zt_drop(shared, ZT_SHARED, 1), ZT_ACCEPTED), SAME(zt_drop(shared, ZT_SHARED, 1), ZT_ACCEPTED);
    for (i = NUMBERS; i < TABLE; i++) SAME(shared[i], 0);
    SAME(shared[TABLE], 1), SAME(shared[TABLE + 8], 0), SAME(zt_holds(shared, ZT_SHARED, 1).numbers, 0);
    SAME(zt_engine_view(shared, ZT_SHARED, 1, first, FIRST, 0).number, ZT_INDEX);
    SAME(zt_drop(shared, ZT_SHARED, 0), ZT_ACCEPTED);
    for (i = 0; i < ZT_SHARED; i++) SAME(shared[i], 0);
}

/* What changed: the file of all columns beside itself, beside itself with two bytes of a blob changed, and beside the file of layout 1.0. */
static void what_changed(void) {
    static uint64_t work[NUMBERS + NUMBERS], list[41];
    static uint8_t changed[sizeof out];
    zt_changes c;
    uint64_t length, i;
    fill(rows);
    length = zt_write(rows, NUMBERS, OBJECTS, COMPONENTS, ROOT, ROOT_LENGTH, buffer, sizeof buffer - 1, out, sizeof out).length;
    lay_first();
    SAME(ZT_ENTRY_WIDTH, 8);
    c = zt_diff(ZT_LAYOUT_1_2, out, length, ZT_LAYOUT_1_2, out, length, work, NUMBERS + NUMBERS, list, 0);
    SAME(c.number, ZT_ACCEPTED), SAME(c.file, 0), SAME(c.object, 0), SAME(c.component, 0), SAME(c.entries, 0);

    /* the sixth component, the third of the third object, has 16 bytes at 6 * 64 */
    memcpy(changed, out, length);
    changed[6 * 64 + 3] ^= 1, changed[6 * 64 + 9] ^= 1;
    list[16] = 77;
    c = zt_diff(ZT_LAYOUT_1_2, out, length, ZT_LAYOUT_1_2, changed, length, work, NUMBERS + NUMBERS, list, 16);
    SAME(c.number, ZT_ACCEPTED), SAME(c.entries, 2), SAME(list[16], 77);
    {
        const uint64_t entries[] = {3, 2, 2, 0, 0, 32, 0, 0, 4, 2, 2, 2, 2, 32, 3, 2};
        SAME(memcmp(list, entries, sizeof entries), 0);
    }
    for (i = 0; i < NUMBERS + NUMBERS; i++) SAME(work[i], 0);
    c = zt_diff(ZT_LAYOUT_1_2, out, length, ZT_LAYOUT_1_2, changed, length, work, NUMBERS + NUMBERS, list, 15);
    SAME(c.number, ZT_ROOM), SAME(c.file, 0), SAME(c.entries, 2), SAME(list[0], 3);
    c = zt_diff(ZT_LAYOUT_1_2, out, length, ZT_LAYOUT_1_2, changed, length, work, NUMBERS + NUMBERS - 1, list, 16);
    SAME(c.number, ZT_ROOM), SAME(c.file, 0), SAME(c.entries, 0);

    c = zt_diff(ZT_LAYOUT_1_2, out, length, ZT_LAYOUT_1_0, first, FIRST, work, NUMBERS + NUMBERS, list, 40);
    SAME(c.number, ZT_ACCEPTED), SAME(c.entries, 5);
    {
        const uint64_t entries[] = {1, 0, 0, 0, 0, 0, 0, 0, 1, 1, 0, 0, 0, 0, 0, 0, 1, 2, 0, 0, 0, 0, 0, 0, 2, 0, 0, 0, 0, 0, 0, 0, 2, 0, 1, 0, 0, 0, 0, 0};
        SAME(memcmp(list, entries, sizeof entries), 0);
    }

    /* a file's own refusal, the first's before the second's */
    c = zt_diff(ZT_LAYOUT_1_2, out, 7, ZT_LAYOUT_1_0, first, 0, work, 0, list, 0);
    SAME(c.number, ZT_SHORT), SAME(c.file, 1), SAME(c.entries, 0);
    c = zt_diff(ZT_LAYOUT_1_2, out, length, ZT_LAYOUT_1_0, first, 0, work, 0, list, 0);
    SAME(c.number, ZT_SHORT), SAME(c.file, 2);
}

/* The file of three objects, then the one of layout 1.0, in one; and each of the answer's fields. */
static void two_in_one(void) {
    enum { BOTH = ZT_NUMBERS(OBJECTS + TENSORS, COMPONENTS + PIECES) };
    static uint64_t lent[BOTH + 1];
    static uint8_t both[8192];
    zt_merged m;
    zt_answer a;
    uint64_t length, i;
    fill(rows);
    length = zt_write(rows, NUMBERS, OBJECTS, COMPONENTS, ROOT, ROOT_LENGTH, buffer, sizeof buffer - 1, out, sizeof out).length;
    lay_first();
    memset(lent, 0xA5, sizeof lent);
    memset(both, 0xA5, sizeof both);
    m = zt_merge(ZT_LAYOUT_1_2, out, length, ZT_LAYOUT_1_0, first, FIRST, lent, BOTH, both, sizeof both);
    SAME(m.number, ZT_ACCEPTED), SAME(m.file, 0), SAME(m.object, 0), SAME(m.component, 0);
    SAME(both[m.length - 1], '0'), SAME(both[m.length], 0xA5);
    for (i = 0; i < BOTH; i++) SAME(lent[i], 0);
    SAME(lent[BOTH], 0xA5A5A5A5A5A5A5A5u);
    a = zt_read(both, m.length, lent, BOTH);
    SAME(a.number, ZT_ACCEPTED), SAME(a.objects, OBJECTS + TENSORS), SAME(a.components, COMPONENTS + PIECES);
    SAME(a.size, ROOT_LENGTH), SAME(memcmp(both + a.place, buffer + ROOT, ROOT_LENGTH), 0);

    /* rows and output one short, with the length that is needed; the same name twice; either file refused, with where */
    length = m.length;
    m = zt_merge(ZT_LAYOUT_1_0, first, FIRST, ZT_LAYOUT_1_2, NULL, 0, lent, BOTH, both, sizeof both);
    SAME(m.number, ZT_SHORT), SAME(m.file, 2), SAME(m.length, 0);
    SAME(zt_merge(ZT_LAYOUT_1_0, first, FIRST, ZT_LAYOUT_1_0, first, FIRST, lent, 0, both, 0).number, ZT_TWICE);
    first[FIRST - 9] = 23;
    m = zt_merge(ZT_LAYOUT_1_0, first, FIRST, ZT_LAYOUT_1_2, NULL, 0, lent, BOTH, both, sizeof both);
    SAME(m.number, ZT_LENGTH), SAME(m.file, 1), SAME(m.object, 1), SAME(m.component, 2), SAME(m.length, 0);
    lay_first();
    i = zt_write(rows, NUMBERS, OBJECTS, COMPONENTS, ROOT, ROOT_LENGTH, buffer, sizeof buffer - 1, out, sizeof out).length;
    m = zt_merge(ZT_LAYOUT_1_2, out, i, ZT_LAYOUT_1_0, first, FIRST, lent, BOTH - 1, both, length);
    SAME(m.number, ZT_ROOM), SAME(m.file, 0), SAME(m.object, 0), SAME(m.component, 0), SAME(m.length, length);
    m = zt_merge(ZT_LAYOUT_1_2, out, i, ZT_LAYOUT_1_0, first, FIRST, lent, BOTH, both, length - 1);
    SAME(m.number, ZT_ROOM), SAME(m.length, length);
    SAME(zt_merge(ZT_LAYOUT_1_2, out, i, ZT_LAYOUT_1_0, first, FIRST, lent, BOTH, both, length).number, ZT_ACCEPTED);
}

/* What is sound of the file of layout 1.0, whole and with one tensor refused; and each of the answer's fields. */
static void what_is_sound(void) {
    static const uint64_t gone[ZT_DROPPED_WIDTH] = {1, ZT_LENGTH, 2};
    static uint64_t lent[LAID + 1], list[ZT_DROPPED_WIDTH + 1];
    static uint8_t sound[4096];
    zt_rescued r;
    zt_answer a;
    uint64_t i, length;
    SAME(ZT_DROPPED_WIDTH, 3), SAME(ZT_DROPPED_OBJECT, 0), SAME(ZT_DROPPED_NUMBER, 1), SAME(ZT_DROPPED_COMPONENT, 2);
    lay_first();
    memset(lent, 0xA5, sizeof lent), memset(list, 0xA5, sizeof list), memset(sound, 0xA5, sizeof sound);
    r = zt_rescue(ZT_LAYOUT_1_0, first, FIRST, lent, LAID, list, 0, sound, sizeof sound);
    SAME(r.number, ZT_ACCEPTED), SAME(r.object, 0), SAME(r.component, 0), SAME(r.kept, TENSORS), SAME(r.dropped, 0);
    a = zt_read_as(ZT_LAYOUT_1_0, first, FIRST, table, LAID);
    SAME(r.length, zt_write(table, LAID, TENSORS, PIECES, a.place, a.size, first, FIRST, out, sizeof out).length);
    SAME(memcmp(sound, out, r.length), 0), SAME(sound[r.length], 0xA5);
    for (i = 0; i < LAID; i++) SAME(lent[i], 0);
    SAME(lent[LAID], 0xA5A5A5A5A5A5A5A5u), SAME(list[0], 0xA5A5A5A5A5A5A5A5u);

    /* the second tensor is a byte short; the first is kept, with the root's attributes */
    first[FIRST - 9] = 23;
    memset(lent, 0xA5, sizeof lent), memset(sound, 0xA5, sizeof sound);
    r = zt_rescue(ZT_LAYOUT_1_0, first, FIRST, lent, ZT_NUMBERS(1, 1), list, ZT_DROPPED_WIDTH, sound, sizeof sound);
    SAME(r.number, ZT_ACCEPTED), SAME(r.object, 0), SAME(r.component, 0), SAME(r.kept, 1), SAME(r.dropped, 1);
    for (i = 0; i < ZT_DROPPED_WIDTH; i++) SAME(list[i], gone[i]);
    SAME(list[ZT_DROPPED_WIDTH], 0xA5A5A5A5A5A5A5A5u), SAME(sound[r.length], 0xA5);
    for (i = 0; i < ZT_NUMBERS(1, 1); i++) SAME(lent[i], 0);
    SAME(lent[ZT_NUMBERS(1, 1)], 0xA5A5A5A5A5A5A5A5u);
    length = r.length;
    a = zt_read(sound, length, table, LAID);
    SAME(a.number, ZT_ACCEPTED), SAME(a.objects, 1), SAME(a.components, 1), SAME(a.size, 4), SAME(sound[table[ZT_OBJECT_NAME]], 'm');

    /* each room one short, with what would have been answered; a file that is refused, with its rows made zeros all the same */
    list[0] = 7, sound[0] = 7;
    r = zt_rescue(ZT_LAYOUT_1_0, first, FIRST, lent, ZT_NUMBERS(1, 1) - 1, list, ZT_DROPPED_WIDTH, sound, length);
    SAME(r.number, ZT_ROOM), SAME(r.object, 0), SAME(r.component, 0), SAME(r.kept, 1), SAME(r.dropped, 1), SAME(r.length, length);
    r = zt_rescue(ZT_LAYOUT_1_0, first, FIRST, lent, ZT_NUMBERS(1, 1), list, ZT_DROPPED_WIDTH - 1, sound, length);
    SAME(r.number, ZT_ROOM), SAME(r.dropped, 1), SAME(r.length, length);
    r = zt_rescue(ZT_LAYOUT_1_0, first, FIRST, lent, ZT_NUMBERS(1, 1), list, ZT_DROPPED_WIDTH, sound, length - 1);
    SAME(r.number, ZT_ROOM), SAME(r.kept, 1), SAME(r.length, length), SAME(list[0], 7), SAME(sound[0], 7);
    lent[0] = 7;
    r = zt_rescue(ZT_LAYOUT_1_2, first, FIRST, lent, LAID, list, ZT_DROPPED_WIDTH, sound, sizeof sound);
    SAME(r.number, ZT_FOOTER), SAME(r.object, 0), SAME(r.component, 0), SAME(r.kept, 0), SAME(r.dropped, 0), SAME(r.length, 0);
    SAME(lent[0], 0), SAME(list[0], 7), SAME(sound[0], 7);
}

/* Why a file is refused, in numbers that are all different, and as a line; the same for another layout, and for too little room. */
static void why_refused(void) {
    zt_explanation e;
    zt_text t;
    char line[128];
    uint64_t length, object_name, component_name, at;
    size_t said;
    fill(rows);
    /* longer names for the third object and its second component: Cabcd and efg_ */
    rows[ZT_NUMBERS(2, 0) + ZT_OBJECT_NAME_LENGTH] = 5, rows[ZT_NUMBERS(OBJECTS, 4) + ZT_COMPONENT_NAME_LENGTH] = 4;
    length = zt_write(rows, NUMBERS, OBJECTS, COMPONENTS, ROOT, ROOT_LENGTH, buffer, sizeof buffer - 1, out, sizeof out).length;
    zt_read(out, length, table, NUMBERS);
    object_name = table[ZT_NUMBERS(2, 0) + ZT_OBJECT_NAME], component_name = table[ZT_NUMBERS(OBJECTS, 4) + ZT_COMPONENT_NAME];

    /* sound, with room enough, one number short, and as a file of layout 1.0, whose size would be the footer */
    e = zt_explain(ZT_LAYOUT_1_2, out, length, NUMBERS);
    SAME(e.number, ZT_ACCEPTED), SAME(e.object, 0), SAME(e.component, 0), SAME(e.object_name, 0), SAME(e.object_name_length, 0);
    SAME(e.component_name, 0), SAME(e.component_name_length, 0), SAME(e.place, 0), SAME(e.length, 0), SAME(e.room, 0);
    e = zt_explain(ZT_LAYOUT_1_2, out, length, NUMBERS - 1);
    SAME(e.number, ZT_ROOM), SAME(e.place, 0), SAME(e.length, 0), SAME(e.room, NUMBERS);
    e = zt_explain(ZT_LAYOUT_1_0, out, length, NUMBERS);
    SAME(e.number, ZT_BIG), SAME(e.place, length - 8), SAME(e.length, 8), SAME(e.room, 0);
    SAME(zt_explain(ZT_LAYOUT_1_2, out, length - 1, NUMBERS).number, ZT_FOOTER);
    t = zt_sentence(ZT_LAYOUT_1_2, out, length, NUMBERS, text, sizeof text);
    SAME(t.number, ZT_ACCEPTED), SAME(t.length, 9), SAME(memcmp(text, "accepted\n", 9), 0);
    t = zt_sentence(ZT_LAYOUT_1_2, out, length, NUMBERS - 1, text, sizeof text);
    SAME(t.number, ZT_ACCEPTED), SAME(t.length, 58), SAME(memcmp(text, "refused 24 ROOM: lent table too short; 132 numbers needed\n", 58), 0);
    SAME(zt_sentence(ZT_LAYOUT_1_0, out, length, NUMBERS, text, sizeof text).number, ZT_ACCEPTED), SAME(memcmp(text, "refused 4 BIG: ", 15), 0);
    SAME(zt_sentence(ZT_LAYOUT_1_2, out, length - 1, NUMBERS, text, sizeof text).number, ZT_ACCEPTED), SAME(memcmp(text, "refused 3 FOOTER: ", 18), 0);

    at = spoil_dtype();
    e = zt_explain(ZT_LAYOUT_1_2, out, length, 0);
    SAME(e.number, ZT_DTYPE), SAME(e.object, 2), SAME(e.component, 1), SAME(e.object_name, object_name), SAME(e.object_name_length, 5);
    SAME(e.component_name, component_name), SAME(e.component_name_length, 4), SAME(e.place, at), SAME(e.length, 3), SAME(e.room, 0);
    sprintf(line, "refused 16 DTYPE: not one of the 13 dtypes; object Cabcd; component efg_; bytes %d to %d\n", (int)at, (int)at + 2);
    said = strlen(line);
    memset(text, 0xA5, sizeof text);
    t = zt_sentence(ZT_LAYOUT_1_2, out, length, 0, text, said - 1);
    SAME(t.number, ZT_ROOM), SAME(t.length, 0), SAME(text[0], 0xA5);
    t = zt_sentence(ZT_LAYOUT_1_2, out, length, 0, text, said);
    SAME(t.number, ZT_ACCEPTED), SAME(t.length, said), SAME(memcmp(text, line, said), 0), SAME(text[said], 0xA5);
}

int main(void) {
    numbers();
    columns();
    accepted();
    refused();
    of_a_layout();
    two_engines();
    what_changed();
    two_in_one();
    what_is_sound();
    why_refused();
    return wrong;
}
