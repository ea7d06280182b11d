/*
 * Radenvyth's reading and writing of .zt files (zTensor 1.2.0, and 1.0 to be read), for C99 and C++: the acceptance check, the table, the view, the listing,
 * and the writer; findings, account and panel; what changed, merging and rescue; why a file is refused; two engines with one table. Link libzt.a or
 * libzt.so, libraries for x86-64 Linux. examples/firmware and examples/maker are whole programs over it, zt(3) is its manual page; this is the shortest
 * program, which refuses to judge what doesn't fit:
 *
 *     #include "zt.h"
 *     #include <stdio.h>
 *
 *     static uint8_t file[65536 + 1];
 *
 *     int main(void) {
 *         size_t length = fread(file, 1, sizeof file, stdin);
 *         if (ferror(stdin) || length == sizeof file) {
 *             fputs("can't be read, or over 65,536 bytes\n", stderr);
 *             return 2;
 *         }
 *         uint64_t refusal = zt_accept(file, length);
 *         if (refusal == ZT_ACCEPTED) puts("accepted");
 *         else printf("refused %d\n", (int)refusal);
 *         return refusal != ZT_ACCEPTED;
 *     }
 */
#ifndef ZT_H
#define ZT_H

#include <stddef.h>
#include <stdint.h>

#ifdef __cplusplus
extern "C" {
#endif

/* The version of this header; zt_library_version() says the library's. Neither is the file format's version, which is 1.2.0. */
#define ZT_LIBRARY_VERSION "1.0.0"
#define ZT_LIBRARY_VERSION_MAJOR 1
#define ZT_LIBRARY_VERSION_MINOR 0
#define ZT_LIBRARY_VERSION_PATCH 0

/* Document 01's refusal numbers, with its words. A file has the first fault in 01's order. */
enum zt_refusal {
    ZT_ACCEPTED = 0,  /* no fault */
    ZT_SHORT = 1,     /* file under 24 bytes */
    ZT_HEADER = 2,    /* first 8 wrong */
    ZT_FOOTER = 3,    /* last 8 wrong */
    ZT_BIG = 4,       /* manifest size over the limit, 16,777,216 */
    ZT_FIT = 5,       /* manifest size 0 or over file length - 24 */
    ZT_CBOR = 6,      /* malformed, ended early, or bytes left over */
    ZT_DEEP = 7,      /* an item at depth 33 begins */
    ZT_KIND = 8,      /* known value of another kind; chunked text in a known place */
    ZT_KEY = 9,       /* key of a root, object or component map, or a name, isn't whole text */
    ZT_TEXT = 10,     /* name, format, type or digest isn't UTF-8 (RFC 3629) */
    ZT_TWICE = 11,    /* a known field or a name repeated */
    ZT_MISSING = 12,  /* required field absent */
    ZT_VERSION = 13,  /* text not two or three runs of 1 to 9 digits joined by dots, or a run but "0" that begins with 0 */
    ZT_MAJOR = 14,    /* major isn't 1 */
    ZT_COUNT = 15,    /* a limit passed: 1,024 objects, 16 components an object, rank 8; written: a last blob that ends above 2^40 */
    ZT_DTYPE = 16,    /* not one of the 13 */
    ZT_ENCODING = 17, /* present and not "raw" */
    ZT_TYPE = 18,     /* listed type over another dtype */
    ZT_ALIGN = 19,    /* offset not a multiple of 64 */
    ZT_BOUNDS = 20,   /* offset under 64, or offset + length over the manifest start */
    ZT_RANK = 21,     /* sparse_csr not of rank 2 */
    ZT_ROLE = 22,     /* needed role absent, or index role not plain u64 */
    ZT_LENGTH = 23,   /* length rule broken */
    ZT_ROOM = 24,     /* lent table or output too short */
    ZT_ROW = 25,      /* writer's rows unsound */
    ZT_INDEX = 26,    /* row outside count or table, or range not inside the file */
    ZT_PLAN = 27,     /* placement plan refused; the object's index is the first row at fault, or the count of rows where offsets are left over */
    ZT_BUSY = 28      /* an engine that has a file loaded loads */
};

/*
 * Bytes of stack to have free for any call. Measured, not proved: the deepest use seen on files at every limit lies below it, and the tests measure
 * it anew (c/stack.c). zt_merge takes the most: while it holds the names of both files, it reads each, which takes as many again.
 */
#define ZT_STACK 52224

/* Document 01's limits, and how many numbers the largest table has. */
#define ZT_OBJECTS_MOST 1024
#define ZT_COMPONENTS_MOST 16 /* of one object */
#define ZT_RANK_MOST 8
#define ZT_MANIFEST_MOST 16777216
#define ZT_TABLE_MOST ZT_NUMBERS(ZT_OBJECTS_MOST, ZT_OBJECTS_MOST * ZT_COMPONENTS_MOST)

/*
 * A table: a row of ZT_OBJECT_WIDTH numbers for each object, then one of ZT_COMPONENT_WIDTH for each component, both in the manifest's order, so the row
 * of component i begins at table + ZT_NUMBERS(objects, i). A text is a place in the file and a length: an object's name is
 * the row[ZT_OBJECT_NAME_LENGTH] bytes from file + row[ZT_OBJECT_NAME]. Names are UTF-8 without a zero at their end, and may hold any character, so compare
 * lengths, then bytes; no name stands twice among the objects, nor among one object's components. Attributes are the bytes of one CBOR map. Where an optional
 * text or map is absent, both its numbers are 0.
 */
#define ZT_OBJECT_WIDTH 16
#define ZT_COMPONENT_WIDTH 12
/* The numbers that the rows of so many objects and components take. */
#define ZT_NUMBERS(objects, components) (ZT_OBJECT_WIDTH * (objects) + ZT_COMPONENT_WIDTH * (components))

/* The columns of an object's row. */
enum zt_object_column {
    ZT_OBJECT_NAME = 0,
    ZT_OBJECT_NAME_LENGTH = 1,
    ZT_OBJECT_RANK = 2,
    ZT_OBJECT_SHAPE = 3, /* the first of eight dimensions; those from the rank on are 0 */
    ZT_OBJECT_FORMAT = 11,
    ZT_OBJECT_FORMAT_LENGTH = 12,
    ZT_OBJECT_ATTRIBUTES = 13,
    ZT_OBJECT_ATTRIBUTES_LENGTH = 14,
    ZT_OBJECT_COMPONENTS = 15 /* how many it has */
};

/* The columns of a component's row. */
enum zt_component_column {
    ZT_COMPONENT_NAME = 0,
    ZT_COMPONENT_NAME_LENGTH = 1,
    ZT_COMPONENT_DTYPE = 2, /* a zt_dtype */
    ZT_COMPONENT_TYPE = 3,  /* the logical type, a text */
    ZT_COMPONENT_TYPE_LENGTH = 4,
    ZT_COMPONENT_OFFSET = 5, /* its bytes in the file: zt_view answers these two, where they lie inside the file */
    ZT_COMPONENT_LENGTH = 6,
    ZT_COMPONENT_DIGEST = 7, /* a text, whose truth isn't checked */
    ZT_COMPONENT_DIGEST_LENGTH = 8,
    ZT_COMPONENT_OWNER = 9,  /* the index of its object */
    ZT_COMPONENT_ENTRY = 10, /* its map in the manifest, the whole CBOR item; zt_write doesn't look at it */
    ZT_COMPONENT_ENTRY_LENGTH = 11
};

/* Storage codes. */
enum zt_dtype {
    ZT_F64 = 0,
    ZT_F32 = 1,
    ZT_F16 = 2,
    ZT_BF16 = 3,
    ZT_I64 = 4,
    ZT_I32 = 5,
    ZT_I16 = 6,
    ZT_I8 = 7,
    ZT_U64 = 8,
    ZT_U32 = 9,
    ZT_U16 = 10,
    ZT_U8 = 11,
    ZT_BOOL = 12
};

/*
 * Of every call here: it ends and answers, whatever the bytes, numbers and counts are. Only what is lent is touched: file[0] to file[length - 1], which
 * need no alignment, and a table, text, list, working room or output as far as its room; numbers are aligned as uint64_t asks. A pointer may be null where
 * its length or room is 0, and must point to that many bytes or numbers else. What is lent to be written must not overlap what is read. No memory is
 * allocated, nothing is kept from one call to the next, and calls may run at the same time, also on the same file.
 *
 * What is lent must not change during a call, by another thread or process, and the file not between zt_read and the calls that go by its table. A mapped
 * file that someone cuts ends the caller with SIGBUS: lock it, copy it, or have files replaced by rename only, as the command zt does
 * (examples/firmware takes a lock).
 *
 * Of C the library calls memcpy, memmove, memset, memcmp and bcmp at most; it has no data that is written to and needs no start-up code. It is for x86-64, with
 * the System V calling convention, and its code is position independent.
 *
 * Indices of objects and components start at 0, and 0 also stands for none: only the number tells whether a refusal belongs to an object at all (1 to 7 don't).
 */

/* Whether these bytes are a sound .zt file: ZT_ACCEPTED, or the first refusal, ZT_SHORT to ZT_LENGTH. Never ZT_ROOM, since nothing is written. */
uint64_t zt_accept(const uint8_t *file, size_t length);

/* What zt_read answers. All but the first three are 0 on refusal. */
typedef struct {
    uint64_t number;            /* ZT_ACCEPTED or the refusal */
    uint64_t object, component; /* where it is, from 0 on; 0 also where there is none. The component's index is in its object */
    uint64_t objects, components;
    uint64_t start;             /* the manifest start */
    uint64_t place, size;       /* the root's attributes, 0 and 0 if absent */
} zt_answer;

/*
 * The file read into a lent table of `room` numbers. Needs ZT_NUMBERS(objects, components), at most ZT_TABLE_MOST, else ZT_ROOM. A refusal leaves the
 * table as it was; numbers beyond the rows stay. The table must not overlap the file, and must be aligned as uint64_t asks.
 */
zt_answer zt_read(const uint8_t *file, size_t length, uint64_t *table, size_t room);

/*
 * A file's layout, said by the caller: document 000's, 1.2.0, or document 001's, 1.0, which field boxes hold (Request 05 of document 02). Every number
 * but 1 says 1.2.0. A 1.0 file has no footer, its manifest's size stands in its last 8 bytes, the root's objects are `tensors`, a tensor has a `dtype`
 * with long names such as float32, and a component has `offset`, `length`, `encoding` and `digest` alone.
 */
enum zt_layout { ZT_LAYOUT_1_2 = 0, ZT_LAYOUT_1_0 = 1 };

/*
 * zt_accept for a layout. A 1.0 file is ZT_SHORT under 16 bytes and ZT_FIT with a manifest of 0 bytes or over file length - 16; it is never ZT_FOOTER or
 * ZT_TYPE, and ZT_ROLE only where a needed role is absent.
 */
uint64_t zt_accept_as(uint64_t layout, const uint8_t *file, size_t length);

/*
 * zt_read for a layout. The rows of a 1.0 file are those of 1.2.0: a component's code is u64 for indices and indptr of a sparse_csr and coords of a
 * sparse_coo, and its tensor's for all else; types and objects' attributes are absent. zt_view, zt_list and zt_write go by the table and take no layout:
 * with the 1.0 file as buffer, zt_write makes a 1.2.0 file of such rows, or answers ZT_BIG, ZT_COUNT for a last blob that would end above 2^40, or
 * ZT_ROOM. What is unknown in 1.0, `generator` and a tensor's `attributes` among it, has no row and isn't carried over.
 */
zt_answer zt_read_as(uint64_t layout, const uint8_t *file, size_t length, uint64_t *table, size_t room);

/* Where a component lies: ZT_ACCEPTED, its offset and its length; or ZT_INDEX, 0 and 0. */
typedef struct {
    uint64_t number, offset, length;
} zt_range;

/* The component at `index` among all components, by a table that zt_read filled; any other table, any counts and any index are answered too. */
zt_range zt_view(const uint8_t *file, size_t length, const uint64_t *table, size_t room, uint64_t objects, uint64_t components, uint64_t index);

/* What a component's numbers show. */
enum zt_finding_kind {
    ZT_FINDING_NONE = 0,     /* none is due: the storage isn't f32, there is a type, or the length is no multiple of 4 */
    ZT_FINDING_EMPTY = 1,    /* no bytes */
    ZT_FINDING_ONLY_NAN = 2, /* NaNs and nothing else */
    ZT_FINDING_SPAN = 3      /* numbers, and perhaps NaNs */
};

/* ZT_ACCEPTED and the finding; or ZT_INDEX and zeros. The smallest and the largest are the f32's bits, 0 unless there are numbers. */
typedef struct {
    uint64_t number, finding, smallest, largest, nans;
} zt_finding;

/*
 * The finding of the component at `index` among all components, by any table, as zt_view. Its bytes are f32, the least significant first. Both infinities are
 * numbers; -0 and +0 are equal, and of equal numbers the first met is answered. Every byte of the component is read.
 */
zt_finding zt_find(const uint8_t *file, size_t length, const uint64_t *table, size_t room, uint64_t objects, uint64_t components, uint64_t index);

/* Where the bytes of a file are. The verdict's number, object and component; and for a file that is accepted how many bytes are the frame's and the manifest's, lie in at
   least one component, and lie between the first 8 bytes and the manifest in none: together the file's length. All four are 0 on refusal. */
typedef struct {
    uint64_t number, object, component, frame, manifest, inside, between;
} zt_bytes;

/*
 * The account of a file. The lent room needs as many numbers as zt_read's table, else ZT_ROOM; the whole of it ends as zeros, whatever the answer. Components that share bytes
 * count them once.
 */
zt_bytes zt_account(uint64_t layout, const uint8_t *file, size_t length, uint64_t *work, size_t room);

/* ZT_ACCEPTED and the length of a listing or a sentence; or ZT_INDEX or ZT_ROOM, and 0. */
typedef struct {
    uint64_t number, length;
} zt_text;

/*
 * The listing, by a table that zt_read filled, put into a lent text of `text_room` bytes. ZT_ROOM, if that is too little, and ZT_INDEX leave the text as it
 * was; bytes beyond the listing stay. ZT_INDEX is given unless all rows lie in the table, names, formats and blobs lie inside the file, each storage code is
 * one of the 13 and the objects' counts add up to the components. No more is checked: a table goes with the file that it was read from, and with another
 * file's bytes it may be listed with other names. The text must overlap neither the file nor the table.
 *
 * A listing is never longer than 3 bytes for each byte of the manifest, whose length is `length - 16 - start` (`length - 8 - start` in layout 1.0), so at
 * most 3 * ZT_MANIFEST_MOST: a byte of a text is printed as 3 at most, and the words around texts are shorter than three times what the manifest has around
 * them. Worked out from the format, and seen in the tests, not proved.
 */
zt_text zt_list(const uint8_t *file, size_t length, const uint64_t *table, size_t room, uint64_t objects, uint64_t components, uint8_t *text,
                size_t text_room);

/* The verdict's number, object and component, and the text's length; ZT_ROOM if either room is too short. The length is 0 on refusal. */
typedef struct {
    uint64_t number, object, component, length;
} zt_panel_text;

/*
 * The panel's text of a file: its listing, where a finding is due (zt_find) with " empty", " nan N" or " min X max Y nan N" at the end of a component's line, and a last line
 * "bytes frame F manifest M inside I between B" (zt_account). X and Y are decimal, nine significant digits, as "%.8e" prints them in the C locale. The lent room needs as many
 * numbers as zt_read's table, and the whole of it ends as zeros; the text is untouched on refusal. Every byte of a component whose finding is due is read, twice.
 */
zt_panel_text zt_panel(uint64_t layout, const uint8_t *file, size_t length, uint64_t *work, size_t room, uint8_t *text, size_t text_room);

/* Numbers of an entry of zt_diff's list. */
#define ZT_ENTRY_WIDTH 8

/* What zt_diff answers: ZT_ACCEPTED and how many entries; a file's refusal, with `file` 1 for the first or 2 for the second; or ZT_ROOM, with `file` 0. */
typedef struct {
    uint64_t number, file, object, component, entries;
} zt_changes;

/*
 * What changed between two files, each of its own layout; they may be the same bytes. An entry of the list is ZT_ENTRY_WIDTH numbers: its kind, the object's index in the first and in
 * the second, the component's index in its object in the first and in the second, what differs, a position, a count. Numbers that a kind doesn't use are 0.
 *   1, 2  object only in the first, only in the second
 *   3     object in both that differs; it is followed by its entries of kinds 4 and 5, then 6
 *   4     component in both that differs; with 32, `position` is the first byte of the blob that differs and `count` how many do, those past the shorter one's end included
 *   5, 6  component only in the first, only in the second
 * What differs is a sum: 1 shape, 2 format, 4 component names, 8 dtypes, 16 logical types (absent and empty differ), 32 bytes; of a kind 3 the whole object's, of a kind 4 that
 * component's. Objects and components are matched by name. The first's objects come in their order, then the kind 2s in the second's order; attributes, digests and order don't count.
 * The first file's refusal comes first, then the second's, then ZT_ROOM: with `entries` 0 if `work` has fewer numbers than both files' tables together (2 * ZT_TABLE_MOST always
 * serve), with `entries` as many as there are if the list has room for fewer. The whole of `work` ends as zeros, whatever the answer; the list is untouched unless the answer is
 * ZT_ACCEPTED, and beyond its entries. The list must overlap neither file nor `work`.
 */
zt_changes zt_diff(uint64_t first_layout, const uint8_t *first, size_t first_length, uint64_t second_layout, const uint8_t *second, size_t second_length,
                   uint64_t *work, size_t work_room, uint64_t *list, size_t list_room);

/* What zt_write answers: ZT_ACCEPTED and the file's length; or the refusal, where it is, and 0. */
typedef struct {
    uint64_t number, object, component, length;
} zt_written;

/*
 * A whole file, from rows as zt_read fills them (document 01, "The writer"), whose places, offsets and root attributes point into `buffer`; absent
 * attributes are 0 and 0. Blobs go to the next multiple of 64 in row order, the manifest after them. Refused, before a byte is written: ZT_ROW for rows that
 * are unsound, ZT_COUNT for a last blob that would end above 2^40, ZT_BIG for a manifest over the limit, whatever zt_read would refuse that file with,
 * and ZT_ROOM. Bytes beyond the file stay. `out` must overlap neither the rows nor the buffer; rows must be aligned as uint64_t asks.
 */
zt_written zt_write(const uint64_t *rows, size_t numbers, uint64_t objects, uint64_t components, uint64_t attributes_place, uint64_t attributes_length,
                    const uint8_t *buffer, size_t buffer_length, uint8_t *out, size_t out_room);

/*
 * The same with each blob where a plan says (document 02, Request 02): `plan` holds `planned` offsets, one for each component's row, in any order. Accepted
 * if each is a multiple of 64 and at least 64, no two blobs that aren't empty share a byte, and every end is at most `ceiling`, itself at most 2^40. The
 * manifest follows the greatest end (8 if there is no row); bytes in no blob are 0. Refused in this order: ZT_ROW; ZT_PLAN with the row where the object's
 * index stands (a ceiling above 2^40 is row 0, offsets left over the count of rows); ZT_BIG; what zt_read would refuse; ZT_ROOM.
 * Whatever reads the file gets the plan's offsets back, one for each row, in row order.
 * A plan that rises takes one pass over the rows; any other may take the square of their number, since nothing is lent to sort in.
 */
zt_written zt_write_planned(const uint64_t *rows, size_t numbers, uint64_t objects, uint64_t components, uint64_t attributes_place, uint64_t attributes_length,
                            const uint8_t *buffer, size_t buffer_length, const uint64_t *plan, size_t planned, uint64_t ceiling, uint8_t *out, size_t out_room);

/* What zt_merge answers: ZT_ACCEPTED, or ZT_ROOM, and the merged file's length; or a refusal, which file it is about (1 or 2, or 0 for the merged one), where it is, and 0. */
typedef struct {
    uint64_t number, file, object, component, length;
} zt_merged;

/*
 * Two files, each of its layout, into one of 1.2.0 (document 02, Request 10): the first's objects, then the second's, as zt_write writes them; root attributes are the first's if it
 * has any, else the second's. The first file's refusal, then the second's; then of the merged file ZT_COUNT (2^40 bytes), ZT_BIG, ZT_COUNT (1,024 objects), ZT_TWICE; last
 * ZT_ROOM, for the output or for rows under ZT_NUMBERS of both files' objects and components together. The output is untouched on refusal; the whole of the lent rows ends as
 * zeros, whatever the answer. `rows` and `out` must overlap neither each other nor the files.
 */
zt_merged zt_merge(uint64_t first_layout, const uint8_t *first, size_t first_length, uint64_t second_layout, const uint8_t *second, size_t second_length,
                   uint64_t *rows, size_t rows_room, uint8_t *out, size_t out_room);

/* Numbers of an entry of zt_rescue's list, and which is which. */
#define ZT_DROPPED_WIDTH 3
#define ZT_DROPPED_OBJECT 0
#define ZT_DROPPED_NUMBER 1
#define ZT_DROPPED_COMPONENT 2

/* What zt_rescue answers: ZT_ACCEPTED, or ZT_ROOM, with how many objects are kept and dropped and the rescued file's length; or a refusal, with object and component 0, and zeros. */
typedef struct {
    uint64_t number, object, component, kept, dropped, length;
} zt_rescued;

/*
 * What is sound of a file of a layout, into one of 1.2.0 (document 02, Request 14): the objects that pass their own checks, in order, and the root attributes, as zt_write writes them. Each other
 * object gets an entry of ZT_DROPPED_WIDTH numbers in the list, in order: its index in the file, and the number and component that zt_read_as would have given had it come first.
 * Refused are what zt_read_as refuses up to the objects' names, repeats included; then what is kept, with ZT_COUNT (2^40 bytes) or ZT_BIG; last ZT_ROOM, for rows under ZT_NUMBERS of the kept objects and
 * components (ZT_TABLE_MOST always serve), a list under ZT_DROPPED_WIDTH times the dropped ones, or an output under the file. List and output are untouched on refusal and beyond what is put
 * there; the whole of the lent rows ends as zeros, whatever the answer. `rows`, `list` and `out` must overlap neither each other nor the file.
 */
zt_rescued zt_rescue(uint64_t layout, const uint8_t *file, size_t length, uint64_t *rows, size_t rows_room, uint64_t *list, size_t list_room, uint8_t *out, size_t out_room);

/* What zt_explain answers; see there. */
typedef struct {
    uint64_t number, object, component;
    uint64_t object_name, object_name_length, component_name, component_name_length; /* the text's bytes, as in rows; 0 and 0 if not given */
    uint64_t place, length;                                                          /* the span at fault */
    uint64_t room;                                                                   /* with ZT_ROOM: numbers needed */
} zt_explanation;

/*
 * Why a file of a layout is refused (document 02, Request 08): zt_read_as's number, object and component for a table of `room` numbers, none of which is lent; the names that they belong to; and the bytes at
 * fault, from the file's start, of a value or key the whole item. All 0 for a file that is accepted with room enough.
 */
zt_explanation zt_explain(uint64_t layout, const uint8_t *file, size_t length, uint64_t room);

/*
 * The same as one line of text: `refused N WORD: WHY`, the object's and the component's names as zt_list shows them, the bytes at fault or the numbers needed, and a newline; `accepted` and a newline for a file
 * that is accepted with room enough. 0 and the line's length, also for a file that is refused; ZT_ROOM, 0 and an untouched text where it doesn't fit. Bytes beyond the line stay.
 * A line has at most 256 bytes and 3 for each byte of the two names, whose lengths zt_explain answers: worked out from the words, not proved.
 */
zt_text zt_sentence(uint64_t layout, const uint8_t *file, size_t length, uint64_t room, uint8_t *text, size_t text_room);

/*
 * Two engines and one table (document 02, Request 11). `shared` holds a table of 65,536 numbers, then eight numbers of state for each engine; zeros at first, and `numbers` is
 * ZT_SHARED. Engine 0's rows stand at the table's beginning, engine 1's at its end, so what is free is one piece, and no call of one engine reads or writes the other's rows or
 * changes its state. Of the other, an engine's answers depend on how many numbers it holds, and that only in zt_load. Every call answers ZT_INDEX and changes nothing for an engine
 * above 1, for `numbers` other than ZT_SHARED, and for states that no calls leave. Calls of both engines on one `shared` must not run at the same time.
 */
#define ZT_SHARED 65552

/*
 * A file of a layout loaded for an engine: ZT_BUSY, before the file is looked at, if one is loaded; then zt_read_as's refusal; ZT_ROOM exactly if the free numbers are fewer than
 * ZT_NUMBERS(objects, components). What is refused changes nothing; else the rows and the engine's state are written, and nothing else. `shared` must not overlap the file.
 */
zt_answer zt_load(uint64_t *shared, size_t numbers, uint64_t engine, uint64_t layout, const uint8_t *file, size_t length);

/* The engine's rows and state become zeros, free for both. ZT_ACCEPTED, also where nothing was loaded; or ZT_INDEX. */
uint64_t zt_drop(uint64_t *shared, size_t numbers, uint64_t engine);

/* Where an engine's rows stand in the table and how many numbers they are, and what zt_load answered; all 0 if nothing is loaded, or ZT_INDEX and zeros. */
typedef struct {
    uint64_t number, place, numbers, objects, components, start, attributes_place, attributes_length;
} zt_held;
zt_held zt_holds(const uint64_t *shared, size_t numbers, uint64_t engine);

/* zt_view and zt_list by the engine's rows; ZT_INDEX if it has nothing loaded. The file is the one that was loaded. */
zt_range zt_engine_view(const uint64_t *shared, size_t numbers, uint64_t engine, const uint8_t *file, size_t length, uint64_t index);
zt_text zt_engine_list(const uint64_t *shared, size_t numbers, uint64_t engine, const uint8_t *file, size_t length, uint8_t *text, size_t text_room);

/*
 * Words about numbers: plain C, library/words.c, no part of what is proved. The installed libraries hold it; beside the archive that `library/archive zt` builds,
 * compile it too. Each text ends with a zero, is never null, and stays.
 */
const char *zt_library_version(void);          /* the library's version, "1.0.0" */
const char *zt_refusal_name(uint64_t number);  /* "ACCEPTED", "SHORT" .. as above; "UNKNOWN" for a number that is none */
const char *zt_refusal_words(uint64_t number); /* the words above */
const char *zt_dtype_name(uint64_t code);      /* "f64" .. "bool"; "unknown" for a code over 12 */

#ifdef __cplusplus
}
#endif

#endif
