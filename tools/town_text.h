/*
 * A network as text, one record a line, and back. On every file that the library opens the two are inverse:
 * what is shown makes the same bytes, and what is made of a shown text shows the same text.
 */
#ifndef DESK_TOWN_TEXT_H
#define DESK_TOWN_TEXT_H

#include "town.h"

#include <stdio.h>

void print_town(FILE *out, const struct town *town);

/* The tables that a text holds, as varnwalnut_pack_network takes them. Lists grow with the text: how many
 * places or roads there may be is the library's to say. */
struct list {
    uint16_t *start; /* never NULL */
    size_t count;
    size_t room;
};

struct tables {
    uint32_t number;
    uint32_t period;
    uint32_t cells;
    uint32_t hours;
    struct list cell, opens, closes;
    struct list from, to, counts;
    struct list ticks, travels;
};

/* Reads a text; a line of another form ends the program with status 2 and the line's number. */
void read_town(const char *path, const struct bytes *text, struct tables *tables);

void free_tables(struct tables *tables);

/* Has the library pack the tables, into bytes that the caller frees. */
uint32_t pack_tables(const struct tables *tables, struct bytes *network, uint32_t places[3]);

#endif
