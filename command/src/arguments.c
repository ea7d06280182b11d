/* Options and operands apart. */
#include "arguments.h"
#include "decimal.h"
#include "stream.h"
#include "zt.h"
#include <stdio.h>
#include <string.h>

void print_usage(const command *of) {
    print_words(&out, "zt ");
    print_words(&out, of->name);
    if (of->options & TAKES_JSON) print_words(&out, " [--json]");
    if (of->options & TAKES_LAYOUT) print_words(&out, " [--layout 1.0]");
    if (of->options & TAKES_LAYOUTS) print_words(&out, " [--layout 1.0] [--first-layout 1.0] [--second-layout 1.0]");
    if (of->options & TAKES_ESCAPED) print_words(&out, " [--escaped]");
    if (of->options & TAKES_ROOM) print_words(&out, " [--room N]");
    if (of->options & TAKES_PLAN) print_words(&out, " [--plan PLAN [--ceiling N]]");
    if (of->options & NEEDS_PAGE) print_words(&out, " --page N [--ceiling N]");
    if (of->options & TAKES_OUTPUT) print_words(&out, of->options & NEEDS_OUTPUT ? " -o NEW" : " [-o NEW]");
    print_words(&out, " ");
    print_words(&out, of->operands);
}

static int usage_trouble(const command *of, const char *word, const char *what) {
    char words[160];
    snprintf(words, sizeof words, "%s; zt %s --help says how it is called", what, of->name);
    return trouble(word, words);
}

/* The value of "NAME VALUE" or "NAME=VALUE", for a name of one letter "-nVALUE"; null if the word is none of these. */
static const char *value_of(const char *name, const char *word, const char *next, int *taken) {
    size_t length = strlen(name);
    if (strncmp(word, name, length) != 0) return NULL;
    *taken = word[length] == '\0' ? 2 : 1;
    if (word[length] == '\0') return next ? next : "";
    if (name[1] != '-') return word + length;
    return word[length] == '=' ? word + length + 1 : NULL;
}

static const char *output_named(const char *word, const char *next, int *taken) {
    const char *output = value_of("-o", word, next, taken);
    return output ? output : value_of("--output", word, next, taken);
}

/* What is wrong with an option: its value, or the option itself where it has none, and words; no words if nothing is. */
typedef struct {
    const char *word, *words;
} mistake;

static mistake layout_read(uint64_t *into, const char *named) {
    *into = strcmp(named, "1.0") == 0 ? ZT_LAYOUT_1_0 : ZT_LAYOUT_1_2;
    return (mistake){named, *into == ZT_LAYOUT_1_0 || strcmp(named, "1.2.0") == 0 ? NULL : "no layout: there are 1.0 and 1.2.0"};
}

/* --layout is for every file of a command, the other two for one of two files; answers as option_read. */
static int layouts_read(arguments *into, const command *of, const char *word, const char *next, mistake *wrong) {
    static const struct {
        const char *name;
        int options, first, second;
    } forms[] = {{"--layout", TAKES_LAYOUT | TAKES_LAYOUTS, 1, 1}, {"--first-layout", TAKES_LAYOUTS, 1, 0}, {"--second-layout", TAKES_LAYOUTS, 0, 1}};
    for (int i = 0; i < 3; i++) {
        int taken;
        uint64_t layout;
        const char *value = of->options & forms[i].options ? value_of(forms[i].name, word, next, &taken) : NULL;
        if (!value) continue;
        *wrong = layout_read(&layout, value);
        if (forms[i].first) into->layout = layout;
        if (forms[i].second) into->second_layout = layout;
        return taken;
    }
    return 0;
}

static mistake ceiling_read(arguments *into, const char *named) {
    into->ceiled = 1;
    if (decimal_read(&into->ceiling, named, strlen(named)) == DECIMAL && into->ceiling <= CEILING_MOST) return (mistake){NULL, NULL};
    return (mistake){named, "no ceiling: it is a decimal number of bytes, 1099511627776 (2^40) at most"};
}

/* Offsets are multiples of 64, so that no other page's edges could be kept to without gaps that nobody wants. */
static mistake page_read(arguments *into, const char *named) {
    int decimal = decimal_read(&into->page, named, strlen(named)) == DECIMAL;
    if (decimal && into->page >= ALIGNMENT && into->page % ALIGNMENT == 0 && into->page <= CEILING_MOST) return (mistake){NULL, NULL};
    return (mistake){named, "no page: it is a decimal number of bytes, a multiple of 64, 1099511627776 (2^40) at most"};
}

static mistake room_read(arguments *into, const char *named) {
    return (mistake){named, decimal_read(&into->room, named, strlen(named)) == DECIMAL ? NULL : "no room: it is a decimal number of a table's numbers"};
}

/* One option; answers how many words it takes, 0 if it is none of this command's, and keeps what is wrong with its value. */
static int option_read(arguments *into, const command *of, const char *word, const char *next, mistake *wrong) {
    const char *value;
    int taken = 1, planned = of->options & (TAKES_PLAN | NEEDS_PAGE), layouts;
    if (strcmp(word, "--help") == 0) into->help = 1;
    else if (of->options & TAKES_JSON && strcmp(word, "--json") == 0) into->json = 1;
    else if (of->options & TAKES_ESCAPED && strcmp(word, "--escaped") == 0) into->escaped = 1;
    else if (of->options & TAKES_OUTPUT && (value = output_named(word, next, &taken))) into->output = value;
    else if ((layouts = layouts_read(into, of, word, next, wrong))) taken = layouts;
    else if (of->options & TAKES_PLAN && (value = value_of("--plan", word, next, &taken))) into->plan = value;
    else if (of->options & NEEDS_PAGE && (value = value_of("--page", word, next, &taken))) *wrong = page_read(into, value);
    else if (of->options & TAKES_ROOM && (value = value_of("--room", word, next, &taken))) *wrong = room_read(into, value);
    else if (planned && (value = value_of("--ceiling", word, next, &taken))) *wrong = ceiling_read(into, value);
    else taken = 0;
    if (wrong->words && !*wrong->word) wrong->word = word;
    return taken;
}

/* What the options ask of each other, and of the operands' number. */
static int arguments_fit(const arguments *given, const command *of) {
    if (given->count < of->least) return usage_trouble(of, of->name, "an operand is missing");
    if (of->most && given->count > of->most) return usage_trouble(of, given->operands[of->most], "one operand too many");
    if (of->options & NEEDS_OUTPUT && !given->output) return usage_trouble(of, of->name, "-o NEW is missing");
    if (given->output && !given->output[0]) return usage_trouble(of, of->name, "-o has no path");
    if (of->options & NEEDS_PAGE && !given->page) return usage_trouble(of, of->name, "--page N is missing");
    if (given->plan && !given->plan[0]) return usage_trouble(of, of->name, "--plan has no path");
    if (of->options & TAKES_PLAN && given->ceiled && !given->plan) return usage_trouble(of, of->name, "--ceiling goes with --plan");
    return DONE;
}

int arguments_read(arguments *into, const command *of, int count, const char **words) {
    int ended = 0, at = 0;
    *into = (arguments){.operands = words, .ceiling = CEILING_MOST, .room = ZT_TABLE_MOST};
    while (at < count) {
        const char *word = words[at];
        mistake wrong = {NULL, NULL};
        int taken = 1;
        if (ended || word[0] != '-' || word[1] == '\0') into->operands[into->count++] = word;
        else if (strcmp(word, "--") == 0) ended = 1;
        else taken = option_read(into, of, word, at + 1 < count ? words[at + 1] : NULL, &wrong);
        if (taken == 0) return usage_trouble(of, word, "no such option");
        if (wrong.words) return usage_trouble(of, wrong.word, wrong.words);
        at += taken;
    }
    return into->help ? DONE : arguments_fit(into, of);
}
