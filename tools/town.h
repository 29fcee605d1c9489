/*
 * A network as the library opens it: the tables of varnwalnut_open_network, and what is read off them.
 */
#ifndef DESK_TOWN_H
#define DESK_TOWN_H

#include "files.h"
#include "varnwalnut.h"

struct town {
    uint32_t number;
    uint32_t period;
    uint32_t places;
    uint32_t roads;
    uint32_t cells;
    uint32_t points;
    uint32_t hours;
    uint16_t cell[VARNWALNUT_MOST_PLACES];
    uint16_t opens[VARNWALNUT_MOST_PLACES];
    uint16_t closes[VARNWALNUT_MOST_PLACES];
    uint16_t from[VARNWALNUT_MOST_ROADS];
    uint16_t to[VARNWALNUT_MOST_ROADS];
    uint16_t counts[VARNWALNUT_MOST_ROADS];
    uint16_t ticks[VARNWALNUT_MOST_POINTS];
    uint16_t travels[VARNWALNUT_MOST_POINTS];
};

/* The tables of a network, which the caller frees; NULL where the library refuses it, with the refusal and
 * its places. */
struct town *open_town(const struct bytes *network, uint32_t *refusal, uint32_t places[3]);

/* The place of a border by its index: borders, the places with a road in from another cell, are counted by
 * rising number. An index that no border has gives the count of places. */
uint32_t border_place(const struct town *town, uint32_t index);

#endif
