/* The programs beside which the proved ones stand. Each job answers whether it took its input. */
#ifndef PEERS_H
#define PEERS_H
#include "inputs.h"
#include <stdbool.h>

/* Jobs over an item that fills its input. */
bool c_item(const void *input);          /* RFC 7049's heads, depth at most 32 */
bool c_item_utf8(const void *input);     /* that, and UTF-8 of every text, as its strict mode has it */
bool c_floor(const void *input);         /* a manifest's fields extracted, its texts UTF-8, its names sorted and none twice */
bool libcbor_tokens(const void *input);  /* doesn't look at how items nest */
bool libcbor_tree(const void *input);
bool tinycbor_tokens(const void *input); /* goes into every container */

bool c_utf8(const void *input);  /* a job over a text */
bool c_utf8_bytes(const void *input); /* the same, a byte at a time */
bool c_utf8_words(const void *input); /* the same, the best plain C that we can write; both for -O2 */
bool c_names(const void *input); /* a job over names: sorted, none twice */

/* Jobs over two files, and over the bytes of f32 numbers; for -O2. */
bool c_equal(const void *files); /* the same bytes */
bool c_apart(const void *files); /* each blob's first byte that differs, and how many do: all of them */
void c_copy(uint8_t *to, const uint8_t *from, size_t length); /* sixteen bytes a turn, by plain stores */
bool c_span(const uint8_t *p, size_t length); /* the smallest and the largest number, NaNs counted */

/* For the floor: the end of the item at p, 0 on a fault; and whether n bytes at p are UTF-8. */
const uint8_t *c_skip(const uint8_t *p, const uint8_t *e, int depth);
bool strict_utf8(const uint8_t *p, size_t n);
#endif
