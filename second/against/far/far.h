/*
 * Calls of the x86-64 libraries from a program for another processor: near.c is linked in their place, and each of its functions puts its arguments into shared memory, where
 * server.c, linked with the libraries and run under the kit's emulator, finds them, makes the call, and leaves the answer. A byte in a pipe says that it is the other's turn.
 */
#include <stdint.h>

/* The calls, and how many words each answers. */
#define CALLS(CALL)                                                                                                                                          \
    CALL(leaf_skip, 1) CALL(leaf_utf8, 1) CALL(leaf_version_shape, 1) CALL(leaf_major_one, 1) CALL(leaf_same, 1) CALL(leaf_order, 1) CALL(leaf_is_magic, 1)   \
    CALL(leaf_no_twice, 1) CALL(leaf_root_key, 1) CALL(leaf_object_key, 1) CALL(leaf_component_key, 1) CALL(leaf_is_raw, 1) CALL(leaf_dtype_code, 1)          \
    CALL(leaf_width_of, 1) CALL(leaf_type_fits, 1) CALL(leaf_ratio_of, 1) CALL(leaf_format_code, 1) CALL(leaf_role_code, 1) CALL(leaf_is_product, 1)          \
    CALL(leaf_dense_length, 1) CALL(leaf_is_whole, 1) CALL(leaf_count_of, 1) CALL(leaf_pointer_length, 1) CALL(leaf_coordinate_length, 1) CALL(leaf_place, 1) \
    CALL(leaf_judge, 2) CALL(leaf_frame, 3) CALL(leaf_accept, 3) CALL(zt_accept, 1) CALL(zt_read, 8) CALL(zt_view, 3) CALL(zt_list, 2) CALL(zt_write, 4) \
    CALL(zt_accept_as, 1) CALL(zt_read_as, 8) CALL(zt_find, 5) CALL(zt_account, 7) CALL(zt_panel, 4) CALL(leaf_float, 1) CALL(zt_write_planned, 4)              \
    CALL(zt_load, 8) CALL(zt_drop, 1) CALL(zt_holds, 8) CALL(zt_engine_view, 3) CALL(zt_engine_list, 2) CALL(zt_diff, 5) CALL(zt_merge, 5)                            \
    CALL(zt_rescue, 6) CALL(zt_explain, 10) CALL(zt_sentence, 2)

enum { ARGUMENTS = 13, WORDS = 10, SHARED = 1 << 27 };

typedef struct {
    uint64_t call;                /* its place among CALLS */
    uint64_t lent;                /* bit i: argument i is a place in `data` */
    uint64_t argument[ARGUMENTS]; /* those that a call doesn't have are passed all the same, and not looked at */
    uint64_t word[WORDS];
    _Alignas(16) uint8_t data[];
} message;
