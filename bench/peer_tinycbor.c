/* TinyCBOR (Debian's libtinycbor-dev where it has it, or its sources). */
#include "peers.h"
#include <cbor.h>

static CborError tokens(CborValue *v) {
    while (!cbor_value_at_end(v)) {
        CborValue inner;
        CborError e;
        if (!cbor_value_is_container(v)) {
            if ((e = cbor_value_advance(v))) return e;
            continue;
        }
        if ((e = cbor_value_enter_container(v, &inner)) || (e = tokens(&inner)) || (e = cbor_value_leave_container(v, &inner))) return e;
    }
    return CborNoError;
}

bool tinycbor_tokens(const void *x) {
    const input *in = x;
    CborParser parser;
    CborValue v;
    return !cbor_parser_init(in->bytes, in->length, 0, &parser, &v) && !tokens(&v) && cbor_value_get_next_byte(&v) == in->bytes + in->length;
}
