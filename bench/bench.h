/* The tables that are printed. */
#ifndef BENCH_H
#define BENCH_H
#include "inputs.h"
#include "timing.h"

extern const program acceptance_check;

/* A large file of a kind, accepted or spoiled: our program beside one strict pass in C and beside another, and how its time grows. */
void grown(large_kind kind, bool spoiled, program ours, program other);

void leaves(void);
void acceptance(void);
void reading(void);
void writing(void);
void finding(void);
void changes(void);
void merging(void);
void rescuing(void);
void explaining(void);
#endif
