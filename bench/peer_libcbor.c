/* libcbor (Debian's libcbor-dev). */
#include "peers.h"
#include <cbor.h>

bool libcbor_tokens(const void *x) {
    const input *in = x;
    size_t at = 0;
    while (at < in->length) {
        struct cbor_decoder_result r = cbor_stream_decode(in->bytes + at, in->length - at, &cbor_empty_callbacks, 0);
        if (r.status != CBOR_DECODER_FINISHED) return false;
        at += r.read;
    }
    return true;
}

bool libcbor_tree(const void *x) {
    const input *in = x;
    struct cbor_load_result r;
    cbor_item_t *item = cbor_load(in->bytes, in->length, &r);
    if (!item) return false;
    cbor_decref(&item);
    return r.read == in->length;
}
