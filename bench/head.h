/* The argument of a CBOR head, for every C program here. */
#ifndef HEAD_H
#define HEAD_H
#include <stddef.h>
#include <stdint.h>
#include <string.h>

/* The argument of a head whose initial byte stands before p; 0 on a fault. */
static inline const uint8_t *argument(const uint8_t *p, const uint8_t *e, unsigned low, uint64_t *v) {
    if (low < 24) { *v = low; return p; }
    size_t left = (size_t)(e - p);
    switch (low) {
    case 24: if (left < 1) return 0; *v = p[0]; return p + 1;
    case 25: { uint16_t x; if (left < 2) return 0; memcpy(&x, p, 2); *v = __builtin_bswap16(x); return p + 2; }
    case 26: { uint32_t x; if (left < 4) return 0; memcpy(&x, p, 4); *v = __builtin_bswap32(x); return p + 4; }
    case 27: { uint64_t x; if (left < 8) return 0; memcpy(&x, p, 8); *v = __builtin_bswap64(x); return p + 8; }
    }
    return 0;
}
#endif
