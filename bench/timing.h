/* Two programs timed in turns, so that both see the same machine. */
#ifndef TIMING_H
#define TIMING_H
#include <stdbool.h>
#include <stddef.h>

/* A job answers whether it took its input. */
typedef bool job(const void *input);

typedef struct {
    const char *name;
    job *run;
} program;

/* The line above lines of `compare`. */
void heading(const char *what, const char *unit);

/*
 * One line: what it costs us and the peer, the best of several rounds, in ns for each unit of input and in MB of `bytes` a second; and the ratio
 * of times, beside the target, if there is one (0 is none).
 */
void compare(const char *what, program ours, program peer, const void *input, double units, size_t bytes, double target);

/* One line: how many times as long a program takes on one input as on another, which has 1 MiB and is `more` times shorter. */
void grows(program p, const void *large, const void *small, double more);
#endif
