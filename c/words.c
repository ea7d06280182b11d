/* Prints the words of library/words.c: a line for each refusal, from 0 to the first number that is none; then the names of the dtypes. C99 and C++. */
#include "zt.h"
#include <stdio.h>
#include <string.h>

int main(void) {
    uint64_t n, past = 0;
    if (strcmp(zt_library_version(), ZT_LIBRARY_VERSION)) return 1;
    if (strcmp(zt_refusal_name(UINT64_MAX), "UNKNOWN") || strcmp(zt_dtype_name(UINT64_MAX), "unknown")) return 1;
    for (n = 0; strcmp(zt_refusal_name(n), "UNKNOWN"); n++) printf("ZT_%s = %d /* %s */\n", zt_refusal_name(n), (int)n, zt_refusal_words(n));
    for (; strcmp(zt_dtype_name(past), "unknown"); past++) printf("%s = %d\n", zt_dtype_name(past), (int)past);
    return 0;
}
