/*
 * The x86-64 side: see far.h. Standard input is the turn, standard output gives it back, the argument is the descriptor of the shared memory.
 * SPOIL=NAME in the environment: the 20th answer of that call is spoiled by a bit, so that a comparison must find a difference.
 */
#include "far.h"
#include <stdlib.h>
#include <string.h>
#include <sys/mman.h>
#include <unistd.h>

typedef struct {
    uint64_t first, second;
} pair;

/* Called as the x86-64 ABI has it: up to two words come back in registers, more of them where a first argument points. */
#define DECLARE(name, words) extern pair name();
#define ENTRY(name, words) {name, words, #name},
CALLS(DECLARE)
static const struct {
    pair (*function)();
    int words;
    const char *name;
} calls[] = {CALLS(ENTRY)};
enum { SPOILED = 20 };

int main(int count, char **words) {
    message *m = mmap(0, SHARED, PROT_READ | PROT_WRITE, MAP_SHARED, count == 2 ? atoi(words[1]) : -1, 0);
    const char *spoiled = getenv("SPOIL");
    int answers = 0;
    char turn;
    if (m == MAP_FAILED) return 2;
    while (read(0, &turn, 1) == 1) {
        uint64_t a[ARGUMENTS];
        for (int i = 0; i < ARGUMENTS; i++) a[i] = m->argument[i] + (m->lent >> i & 1 ? (uint64_t)m->data : 0);
        pair (*f)() = calls[m->call].function;
        if (calls[m->call].words > 2) {
            f(m->word, a[0], a[1], a[2], a[3], a[4], a[5], a[6], a[7], a[8], a[9], a[10], a[11], a[12]);
        } else {
            pair p = f(a[0], a[1], a[2], a[3], a[4], a[5], a[6], a[7], a[8], a[9], a[10], a[11], a[12]);
            m->word[0] = p.first;
            m->word[1] = p.second;
        }
        if (spoiled && !strcmp(spoiled, calls[m->call].name) && ++answers == SPOILED) m->word[0] ^= 1;
        if (write(1, &turn, 1) != 1) return 3;
    }
    return 0;
}
