/* One item by RFC 7049, as the function ITEM, which asks TEXT(p, n) of each text; included once for each pair of them. */
/* One function, since split in three it is slower. */
static const uint8_t *ITEM(const uint8_t *p, const uint8_t *e, int depth) {
    uint64_t v;
    if (p == e || depth == 0) return 0;
    unsigned b = *p++, major = b >> 5;
    if ((b & 31) == 31) {
        if (major == 2 || major == 3) {
            for (;;) {
                if (p == e) return 0;
                b = *p++;
                if (b == 0xFF) return p;
                if (b >> 5 != major) return 0;
                p = argument(p, e, b & 31, &v);
                if (!p || v > (uint64_t)(e - p) || !(major == 2 || TEXT(p, v))) return 0;
                p += v;
            }
        }
        if (major == 4 || major == 5) {
            for (;;) {
                if (p == e) return 0;
                if (*p == 0xFF) return p + 1;
                if (!(p = ITEM(p, e, depth - 1))) return 0;
                if (major == 5 && !(p = ITEM(p, e, depth - 1))) return 0;
            }
        }
        return 0;
    }
    p = argument(p, e, b & 31, &v);
    if (!p) return 0;
    switch (major) {
    case 2: return v > (uint64_t)(e - p) ? 0 : p + v;
    case 3: return v > (uint64_t)(e - p) || !TEXT(p, v) ? 0 : p + v;
    case 5: if (v > (uint64_t)(e - p)) return 0; v *= 2; /* fallthrough */
    case 4:
        if (v > 2 * (uint64_t)(e - p)) return 0;
        for (; v; v--) if (!(p = ITEM(p, e, depth - 1))) return 0;
        return p;
    case 6: return ITEM(p, e, depth - 1);
    default: return p;
    }
}
