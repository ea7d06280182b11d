/* zt COMMAND ..: the list of commands, and what every one of them shares. */
#include "commands.h"
#include "stream.h"
#include "whole.h"
#include "zt.h"
#include <fcntl.h>
#include <signal.h>
#include <stdlib.h>
#include <string.h>
#include <unistd.h>

static const command commands[] = {
    {"check", "FILE..", "whether each file is sound, a line a file", TAKES_JSON | TAKES_LAYOUT, 1, 0, check_files},
    {"explain", "FILE..", "why each file is refused, as a sentence; below it, for people, the bytes and numbers at fault, and hints",
     TAKES_LAYOUT | TAKES_ROOM, 1, 0, explain_files},
    {"list", "FILE", "the listing: objects and their components", TAKES_JSON | TAKES_LAYOUT, 1, 1, list_file},
    {"show", "FILE", "formats, shapes, dtypes, types, places, digests, in columns", TAKES_JSON | TAKES_LAYOUT, 1, 1, show_file},
    {"map", "FILE", "a bar of the file's bytes, and what they belong to", TAKES_JSON | TAKES_LAYOUT, 1, 1, map_file},
    {"panel", "FILE..", "the panel's text: the listing, what the f32 numbers show, and where the bytes are", TAKES_LAYOUT, 1, 0, panel_files},
    {"get", "FILE OBJECT COMPONENT", "one component's bytes", TAKES_OUTPUT | TAKES_ESCAPED | TAKES_LAYOUT, 3, 3, get_component},
    {"copy", "FILE", "the file read and written anew, unknown fields gone, with --plan each component where the plan says",
     TAKES_OUTPUT | NEEDS_OUTPUT | TAKES_PLAN, 1, 1, copy_file},
    {"import", "OLD", "a file of layout 1.0 written as one of 1.2.0; unknown fields, generator and attributes of tensors among them, are not carried over",
     TAKES_OUTPUT | NEEDS_OUTPUT | TAKES_PLAN, 1, 1, import_file},
    {"plan", "FILE", "a plan for copy or import: an offset for each component, a line each, by which it touches as few pages as its length allows",
     TAKES_OUTPUT | TAKES_LAYOUT | NEEDS_PAGE, 1, 1, plan_file},
    {"diff", "FIRST SECOND", "what changed between two files, a line for each object or component; digests and attributes are not compared",
     TAKES_LAYOUTS, 2, 2, diff_files},
    {"merge", "FIRST SECOND", "the first file's objects, then the second's, written as one file",
     TAKES_OUTPUT | NEEDS_OUTPUT | TAKES_LAYOUTS, 2, 2, merge_files},
    {"rescue", "BAD", "the sound objects of a file written anew, and a line for each that is dropped",
     TAKES_OUTPUT | NEEDS_OUTPUT | TAKES_LAYOUT, 1, 1, rescue_file},
};
enum { COMMANDS = sizeof commands / sizeof *commands };

static int print_help(void) {
    for (int i = 0; i < COMMANDS; i++) {
        print_usage(commands + i);
        print_words(&out, "\n        ");
        print_words(&out, commands[i].summary);
        print_words(&out, "\n");
    }
    print_words(&out, "zt --help, zt COMMAND --help, zt --version\n\n"
                      "FILE, FIRST, SECOND, BAD and PLAN may be - for standard input. --json prints JSON; --escaped takes names as listings\n"
                      "print them; -o NEW writes a file, which appears whole or not at all, - for standard output; --layout 1.0 reads files\n"
                      "of older boxes, 1.2.0 those of today, as without it, --first-layout and --second-layout one of two files; --page is\n"
                      "the bytes of a flash page, --ceiling the byte where components must have ended, 2^40 without it; --room explains the\n"
                      "answer to a table of so many numbers; -- ends options. Names and paths are printed with bytes outside 33 to 126, and\n"
                      "the backslash, as \\ and two hex digits.\n"
                      "Status: 0 sound or done, 1 refused, 2 usage, trouble with a file, or no room. 1 is of diff a difference and of rescue\n"
                      "an object dropped, where a refusal is 2.\n");
    return DONE;
}

static int print_version(void) {
    print_words(&out, "zt ");
    print_words(&out, zt_library_version());
    print_words(&out, "\n");
    return DONE;
}

/* For the shell's completion. */
static int print_names(void) {
    for (int i = 0; i < COMMANDS; i++) {
        print_words(&out, commands[i].name);
        print_words(&out, "\n");
    }
    return DONE;
}

static int run(const command *of, int count, const char **words) {
    arguments given;
    int status = arguments_read(&given, of, count, words);
    if (status != DONE) return status;
    if (!given.help) return of->run(&given);
    print_usage(of);
    print_words(&out, "\n        ");
    print_words(&out, of->summary);
    print_words(&out, "\n");
    return DONE;
}

static int run_words(int count, const char **words) {
    if (count < 2) return trouble(NULL, "a command is missing; zt --help lists them");
    if (strcmp(words[1], "--help") == 0) return print_help();
    if (strcmp(words[1], "--version") == 0) return print_version();
    if (strcmp(words[1], "--commands") == 0) return print_names();
    for (int i = 0; i < COMMANDS; i++)
        if (strcmp(words[1], commands[i].name) == 0) return run(commands + i, count - 2, words + 2);
    return trouble(words[1], "no such command; zt --help lists them");
}

/* A descriptor that is closed would become the next file opened, and what is printed would go there: take its place with one that answers nothing. */
static void hold_descriptors(void) {
    for (int i = 0; i < 3; i++)
        if (fcntl(i, F_GETFD) < 0 && open("/dev/null", i == STDIN_FILENO ? O_WRONLY : O_RDONLY) != i) _exit(TROUBLE);
}

static void ended(int signal_number) {
    whole_remove();
    signal(signal_number, SIG_DFL);
    raise(signal_number);
}

/* A mapped file was cut under us, or the disk had no room after all. */
static void unmapped(int signal_number) {
    static const char words[] = "zt: a file was cut while it was read, or its disk has no room\n";
    (void)signal_number;
    whole_remove();
    if (write(STDERR_FILENO, words, sizeof words - 1) < 0) _exit(TROUBLE);
    _exit(TROUBLE);
}

static void handle(int signal_number, void (*handler)(int)) {
    struct sigaction old, action;
    memset(&action, 0, sizeof action);
    action.sa_handler = handler;
    sigemptyset(&action.sa_mask);
    /* What was ignored when we were started, as nohup does, stays so. */
    if (sigaction(signal_number, NULL, &old) == 0 && old.sa_handler != SIG_IGN) sigaction(signal_number, &action, NULL);
}

int main(int count, char **words) {
    int status, printed;
    hold_descriptors();
    handle(SIGPIPE, SIG_IGN); /* a closed pipe, or a file at the size that a shell allows, is an error of a write, and said */
    handle(SIGXFSZ, SIG_IGN);
    handle(SIGBUS, unmapped);
    handle(SIGINT, ended);
    handle(SIGTERM, ended);
    handle(SIGHUP, ended);
    status = run_words(count, (const char **)words);
    printed = finish_output();
    return printed > status ? printed : status;
}
