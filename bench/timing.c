#include "timing.h"
#include <stdio.h>
#include <stdlib.h>
#include <time.h>

/* Many short rounds: on a machine that others use too, some of them are undisturbed. */
enum { FEWEST = 5, ROUNDS = 400 };
static const double ROUND = 1e-3, PATIENCE = 1.5; /* seconds of a round of short calls, and for all rounds */

/* The processor's time, as others may have the processor in between. */
static double now(void) {
    struct timespec t;
    clock_gettime(CLOCK_THREAD_CPUTIME_ID, &t);
    return (double)t.tv_sec + 1e-9 * (double)t.tv_nsec;
}

/* Seconds that one of `times` calls takes. */
static double each(program p, const void *input, unsigned times) {
    double start = now();
    for (unsigned i = 0; i < times; i++) {
        if (!p.run(input)) { fprintf(stderr, "%s refused its input\n", p.name); exit(1); }
    }
    return (now() - start) / times;
}

void heading(const char *what, const char *unit) {
#ifdef EMULATED
    (void)unit;
    printf("\n%s\n", what);
    return;
#endif
    printf("\n%-46s %18s %12s | %-18s %18s %12s | ratio\n", what, unit, "", "peer", unit, "");
}

typedef struct {
    program program;
    const void *input;
    double best; /* seconds of a call */
    unsigned times; /* calls in a round */
} contender;

static contender entered(program p, const void *input) {
    return (contender){p, input, 1e9, 1 + (unsigned)(ROUND / each(p, input, 1))};
}

static void round_of(contender *c) {
    double x = each(c->program, c->input, c->times);
    if (x < c->best) c->best = x;
}

static void in_turns(contender *a, contender *b) {
    double start = now();
    for (int i = 0; i < ROUNDS && (i < FEWEST || now() - start < PATIENCE); i++) {
        round_of(a);
        round_of(b);
    }
}

void compare(const char *what, program ours, program peer, const void *input, double units, size_t bytes, double target) {
#ifdef EMULATED
    (void)units, (void)bytes, (void)target;
    each(ours, input, 1);
    each(peer, input, 1);
    printf("%-46s %s and %s take it\n", what, ours.name, peer.name);
    return;
#endif
    contender a = entered(ours, input), b = entered(peer, input);
    in_turns(&a, &b);
    double ratio = a.best / b.best;
    printf("%-46s %15.2f ns %7.0f MB/s | %-18s %15.2f ns %7.0f MB/s | %5.2f", what, 1e9 * a.best / units, (double)bytes / a.best / 1e6, peer.name,
           1e9 * b.best / units, (double)bytes / b.best / 1e6, ratio);
    if (target > 0) printf("  target %.4g%s", target, ratio > target ? ", missed" : "");
    putchar('\n');
}

void grows(program p, const void *large, const void *small, double more) {
    contender a = entered(p, large), b = entered(p, small);
    in_turns(&a, &b);
    double longer = a.best / b.best;
    printf("    %.2f times the bytes of the same in 1 MiB, %.2f times the time: %.2f for each byte\n", more, longer, longer / more);
}
