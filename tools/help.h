/*
 * The help of the command, and its manual page: one source for both.
 */
#ifndef DESK_HELP_H
#define DESK_HELP_H

#include <stdbool.h>
#include <stdio.h>

/* The line of every command's call. */
void print_usage(FILE *out);

/* All commands, each with a sentence. */
void print_help(FILE *out);

/* One command's help, or false where there is no such command. */
bool print_command_help(FILE *out, const char *command);

/* `usage: varnwalnut trip ..` for one command. */
void print_command_usage(FILE *out, const char *command);

/* The manual page, in man's macros. */
void print_manual(FILE *out);

#endif
