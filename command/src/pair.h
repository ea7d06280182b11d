/* Two files, for commands that take a first and a second. */
#ifndef PAIR_H
#define PAIR_H
#include "arguments.h"
#include "model.h"

typedef struct {
    model first, second;
} pair;

/* As model_open_sound of each, the first before the second; nothing is held unless both are. */
int pair_open(pair *of, const arguments *given);

/* DONE; or TROUBLE, which is said: one of them changed meanwhile. */
int pair_unchanged(const pair *of);

/* Gives everything back, as model_close. */
int pair_close(pair *of, int status);
#endif
