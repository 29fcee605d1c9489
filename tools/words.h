/*
 * The words of a call: options and operands, numbers and times, each taken strictly. What is wrong ends the
 * program with status 2 and a sentence.
 */
#ifndef DESK_WORDS_H
#define DESK_WORDS_H

#include <stdbool.h>
#include <stddef.h>
#include <stdint.h>

/* The options that there are. Each takes a word. */
enum option { OUTPUT, NUMBER, SVG, NETWORK, OPTIONS };

struct words {
    const char *command;
    const char **operands;
    size_t count;
    const char *option[OPTIONS]; /* NULL where it is not given */
    bool help;
};

/* Takes a call's words apart. `allowed` has a bit for each option that the command knows. `--` ends the
 * options, and a lone `-` is an operand. */
struct words take_words(const char *command, unsigned allowed, size_t count, char **words);

/* Decimal digits, as a number of at most `most`; false for anything else. */
bool read_number(const char *text, size_t length, uint32_t most, uint32_t *number);

enum time { NO_TIME, TICK, BETWEEN_TICKS };

/* A tick's number, or a time HH:MM:SS, which has to be a whole tick. */
enum time read_time(const char *text, size_t length, uint32_t *tick);

/* A number of 32 bits that the call calls `name`. */
uint32_t number_word(const char *name, const char *text);

/* A time that the call calls `name`. */
uint32_t time_word(const char *name, const char *text);

#endif
