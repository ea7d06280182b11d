#include "bench.h"
#include <stdio.h>

int main(void) {
#ifdef EMULATED
    puts("an emulated processor: its times say nothing of x86-64's and are left out; what is taken, and how the time grows with the bytes, alone");
#else
    puts("processor time, best of up to 400 rounds in turns; the last column is our time over the peer's, and what is asked of it");
#endif
    leaves();
    acceptance();
    reading();
    writing();
    finding();
    changes();
    merging();
    rescuing();
    explaining();
}
