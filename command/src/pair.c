/* Opening and closing of both. */
#include "pair.h"

int pair_open(pair *of, const arguments *given) {
    int status = model_open_sound(&of->first, given->operands[0], given->layout, 0);
    if (status != DONE) return status;
    status = model_open_sound(&of->second, given->operands[1], given->second_layout, 0);
    return status == DONE ? DONE : model_close(&of->first, status);
}

int pair_unchanged(const pair *of) { return input_unchanged(&of->first.file) == DONE ? input_unchanged(&of->second.file) : TROUBLE; }

int pair_close(pair *of, int status) { return model_close(&of->first, model_close(&of->second, status)); }
