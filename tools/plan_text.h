/*
 * A plan as text, one record a line.
 */
#ifndef DESK_PLAN_TEXT_H
#define DESK_PLAN_TEXT_H

#include "town.h"

#include <stdbool.h>
#include <stdio.h>

/* Whether a file's first block says that it begins a plan. Nothing else of it is asked. */
bool looks_like_plan(const struct bytes *file);

/* Prints the records that a file's blocks hold by docs/FORMAT.md, and judges nothing: any bytes will do. With
 * the town, which may be NULL, borders are named by their places. */
void print_plan(FILE *out, const struct bytes *file, const struct town *town);

#endif
