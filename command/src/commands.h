/* The commands; main.c has the list of them. */
#ifndef COMMANDS_H
#define COMMANDS_H
#include "arguments.h"

int check_files(const arguments *given);
int explain_files(const arguments *given);
int list_file(const arguments *given);
int show_file(const arguments *given);
int map_file(const arguments *given);
int panel_files(const arguments *given);
int get_component(const arguments *given);
int copy_file(const arguments *given);
int import_file(const arguments *given);
int plan_file(const arguments *given);
int diff_files(const arguments *given);
int merge_files(const arguments *given);
int rescue_file(const arguments *given);
#endif
