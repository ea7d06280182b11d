/* Decimal numbers that people and tools write: digits and nothing else, no sign, no blank. */
#ifndef DECIMAL_H
#define DECIMAL_H
#include <stddef.h>
#include <stdint.h>

enum decimal { DECIMAL, NOT_DECIMAL, OVER_64_BITS };

/* The number of these bytes, where they are one that 64 bits hold. */
enum decimal decimal_read(uint64_t *into, const void *at, size_t length);
#endif
