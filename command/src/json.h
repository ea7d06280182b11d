/* JSON on standard output, in ASCII alone: whatever a name holds, the text is valid and moves no cursor. */
#ifndef JSON_H
#define JSON_H
#include <stddef.h>
#include <stdint.h>

/* A text. Names of sound files are UTF-8; of a path, each byte that belongs to no character stands as U+FFFD. */
void json_text(const uint8_t *at, size_t length);
void json_words(const char *words);

/* A member's name and colon, after a comma unless it is the first; `before` is what separates it: a blank, or a new line with its indent. */
void json_key(int first, const char *before, const char *key);
void json_number(int first, const char *before, const char *key, uint64_t number);
#endif
