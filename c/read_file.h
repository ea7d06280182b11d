/* A whole file in memory that has no byte more than the file, so that a tool that watches memory sees one read too many. C99 and C++. */
#ifndef READ_FILE_H
#define READ_FILE_H
#include <stdint.h>
#include <stdio.h>
#include <stdlib.h>

typedef struct {
    uint8_t *at;
    size_t length;
} bytes;

static bytes read_file(const char *path) {
    bytes file;
    long length = -1;
    FILE *in = fopen(path, "rb");
    if (in && !fseek(in, 0, SEEK_END)) length = ftell(in);
    if (length < 0) {
        perror(path);
        exit(2);
    }
    rewind(in);
    file.length = (size_t)length;
    file.at = (uint8_t *)malloc(file.length);
    if (fread(file.at, 1, file.length, in) != file.length) {
        perror(path);
        exit(2);
    }
    fclose(in);
    return file;
}
#endif
