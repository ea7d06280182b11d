/* What is said of a refusal. */
#ifndef REFUSAL_H
#define REFUSAL_H
#include "stream.h"
#include "zt.h"

/* The number, ZT_ACCEPTED for none, where it is, the layout by whose rules it is one, and whether the file is sound by the other's. */
typedef struct {
    uint64_t number, object, component, layout;
    int sound_as_other;
} fault;

/* "refused 20 BOUNDS, object 0, component 1: offset under 64, ..", as a line. */
void print_refused(stream *to, fault what);

/* The same of a file, on standard error; answers REFUSED. */
int say_refused(const char *path, fault what);

/* Why an object is refused, ZT_KIND to ZT_LENGTH, in the words of zt_sentence. */
const char *why_of(uint64_t number);

/* The first members of every JSON answer about a file: its path, and whether it is sound, else why not. */
void json_verdict(const char *path, fault what);
#endif
