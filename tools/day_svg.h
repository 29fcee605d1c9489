/*
 * The picture of a day: how long trips take, whenever they leave. The command and examples/day_picture.c draw
 * by it.
 */
#ifndef DESK_DAY_SVG_H
#define DESK_DAY_SVG_H

#include "varnwalnut.h"

#include <stdio.h>

enum { MOST_DAYS = 8 };

/* What the library has told of one pair of places. */
struct day {
    uint32_t from;
    uint32_t to;
    uint32_t travels[VARNWALNUT_MOST_TICKS];
    uint32_t least; /* the tick of the least travel, and of the most: the first of each */
    uint32_t most;
};

/* A day's travels, from its list of arrivals, one for each tick of the period. */
void fill_day(struct day *day, uint32_t period, const uint32_t *arrivals);

/* Draws a line for each of up to MOST_DAYS pairs. */
void print_days(FILE *out, uint32_t period, const struct day *days, size_t count);

#endif
