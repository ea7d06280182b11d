/* What the command prints: standard output and standard error, each with a buffer, and the first failure of a write kept. */
#ifndef STREAM_H
#define STREAM_H
#include <stddef.h>
#include <stdint.h>

/* The command's exit status: the worst of what happened. What 1 says where files are compared, and where objects are dropped, has names of its own. */
enum status { DONE = 0, REFUSED = 1, DIFFERENT = 1, DROPPED = 1, TROUBLE = 2 };

typedef struct {
    int descriptor;
    int error; /* errno of the first write that failed; nothing is written after it */
    size_t used;
    uint8_t *buffer; /* of BUFFERED bytes */
} stream;
enum { BUFFERED = 1 << 15 };

extern stream out, err;

void print_bytes(stream *to, const void *at, size_t length);
void print_words(stream *to, const char *words);
void print_number(stream *to, uint64_t number);
void print_counted(stream *to, const char *before, uint64_t number, const char *after);
void print_blanks(stream *to, size_t count);
void flush(stream *of);

/* A text as a listing has it: bytes outside 33 to 126, and the backslash, as a backslash and two hex digits, so that none can pass for a line or move a cursor. */
void print_escaped(stream *to, const uint8_t *at, size_t length);
size_t escaped_length(const uint8_t *at, size_t length);

/* A line on standard error about a file, or, where the path is null, about the command. */
void remark(const char *path, const char *words);

/* The same of what went wrong; answers TROUBLE. */
int trouble(const char *path, const char *words);
int trouble_of(const char *path, int error);                              /* the words of an errno */
int trouble_named(const uint8_t *name, size_t length, const char *words); /* about a name, which may hold a zero */
extern char last_trouble[160];                                            /* the words of the last one about a path, for JSON */

/* Writes what is left and closes standard output: TROUBLE if any of it couldn't be written. */
int finish_output(void);
#endif
