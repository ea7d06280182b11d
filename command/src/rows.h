/* A model's rows as JSON. */
#ifndef ROWS_H
#define ROWS_H
#include "json.h"
#include "model.h"

/* The member "objects": of each what a listing has; where it is `full`, also shapes, types, digests and the attributes' places. */
void json_objects(const model *of, int full);

/* A member with an offset and a length, null where both are 0. */
void json_range(const char *key, uint64_t place, uint64_t length);
#endif
