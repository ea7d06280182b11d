/*
 * The items of a manifest (CBOR, RFC 8949), for what people are told beside a proved answer: names of what was refused, the numbers that a check compares. No
 * part of what is proved, and nothing is decided by it. Bytes that hold no whole item are told as none, so that no byte outside is looked at.
 */
#ifndef ITEMS_H
#define ITEMS_H
#include "input.h"

enum major { UNSIGNED = 0, NEGATIVE = 1, BYTE_STRING = 2, TEXT = 3, ARRAY = 4, MAP = 5, TAG = 6, SIMPLE = 7 };

typedef struct {
    const uint8_t *from, *content, *to; /* its first byte, what follows its head, and what follows it */
    enum major major;
    uint64_t argument; /* 0 of an item whose length is `open` */
    int open;
} item;

/* The holders from the manifest down to an item: root, objects, object, components, component; and what lies deeper isn't asked for. */
enum { ROOT, OBJECTS, OBJECT, COMPONENTS, COMPONENT, HOLDERS };

/* Of each: 1, or 0 if there is none. */
int item_at(item *into, const uint8_t *from, const uint8_t *to);            /* the one that these bytes begin with */
int item_in(item *into, const item *of, const uint8_t *at);                 /* the one from here on that an array holds, or a map: keys and values in turn */
int element_at(item *into, const item *of, uint64_t index);                 /* the same by its index, for short arrays */
int field_at(item *into, const item *of, const char *name);                 /* a map's value, by its key */
int manifest_at(item *into, const input *file, uint64_t layout);            /* a file's manifest, where its frame has one */
int holders_of(item holders[HOLDERS], const item *root, const uint8_t *at); /* all five, of an item that a component's map holds */

uint64_t elements(const item *of); /* how many an array has; of a map keys and values */
int is_text(const item *of, const char *words);
uint64_t little(const uint8_t *at); /* eight bytes of a frame, the least significant first */
#endif
