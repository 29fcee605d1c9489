/*
 * What the command says to people: refusals as sentences, ticks as clock times.
 */
#ifndef DESK_SAYS_H
#define DESK_SAYS_H

#include "town.h"

#include <stdio.h>

/* A tick is half a minute. */
enum { TICK_SECONDS = 30 };

/* Prints `tick 14 = 00:02:00`: the time since its day began. Days lie end to end, each a period long. */
void print_tick(FILE *out, uint32_t tick, uint32_t period);

/* The same with the day, which is 1 for the day of leaving: `tick 14 = 00:02:00, day 2`. */
void print_tick_and_day(FILE *out, uint32_t tick, uint32_t period);

/* Prints so many ticks as minutes, `7.5 min`. */
void print_minutes(FILE *out, uint32_t ticks);

/* Says on standard error what the library has refused, with the names of its places, and gives the status 1.
 * With the town a border is named by its place, and a tick by its time; it may be NULL. */
int say_refused(uint32_t refusal, const uint32_t places[3], const struct town *town);

/* The same without `refused` and the line's end, for texts of their own. */
void print_refusal(FILE *out, uint32_t refusal, const uint32_t places[3], const struct town *town);

#endif
