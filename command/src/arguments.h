/* A command's words: options, which may stand before and after its operands, and operands; "--" ends the options, "-" is an operand. */
#ifndef ARGUMENTS_H
#define ARGUMENTS_H
#include <stdint.h>

/* The options there are; a command names those that it takes. */
enum option {
    TAKES_JSON = 1, TAKES_OUTPUT = 2, NEEDS_OUTPUT = 4, TAKES_ESCAPED = 8, TAKES_LAYOUT = 16, TAKES_PLAN = 32, NEEDS_PAGE = 64, TAKES_ROOM = 128,
    TAKES_LAYOUTS = 256
};

/* The highest ceiling of a plan, document 02's, and what divides every offset. */
#define CEILING_MOST ((uint64_t)1 << 40)
enum { ALIGNMENT = 64 };

typedef struct {
    int json, escaped, help, ceiled;
    const char *output, *plan; /* null if none was named */
    uint64_t layout;           /* a zt_layout; of two files the first's */
    uint64_t second_layout;
    uint64_t ceiling;          /* CEILING_MOST unless one was given: then it is `ceiled` */
    uint64_t page;             /* 0 if none was given */
    uint64_t room;             /* ZT_TABLE_MOST, in which every file's table has room, if none was given */
    int count;
    const char **operands;
} arguments;

typedef struct {
    const char *name, *operands, *summary;
    int options;
    int least, most; /* operands; a most of 0 is no limit */
    int (*run)(const arguments *given);
} command;

/* DONE; or TROUBLE, which was said. Operands are gathered at the front of `words`. */
int arguments_read(arguments *into, const command *of, int count, const char **words);

/* How a command is called: its name, operands and options. */
void print_usage(const command *of);
#endif
