/*
 * A network as the library opens it. No rule of the format stands here: a file that the library refuses has
 * no tables.
 */
#include "town.h"

#include <stdbool.h>
#include <stdlib.h>

struct town *open_town(const struct bytes *network, uint32_t *refusal, uint32_t places[3])
{
    struct town *town = take_memory(1, sizeof *town);
    uint32_t answer[10];
    *refusal = varnwalnut_open_network(
        network->start, network->length, town->cell, VARNWALNUT_MOST_PLACES, town->opens,
        VARNWALNUT_MOST_PLACES, town->closes, VARNWALNUT_MOST_PLACES, town->from, VARNWALNUT_MOST_ROADS,
        town->to, VARNWALNUT_MOST_ROADS, town->counts, VARNWALNUT_MOST_ROADS, town->ticks,
        VARNWALNUT_MOST_POINTS, town->travels, VARNWALNUT_MOST_POINTS, answer, 10);
    for (size_t i = 0; i < 3; i++) {
        places[i] = answer[i];
    }
    if (*refusal != VARNWALNUT_OK) {
        free(town);
        return NULL;
    }
    town->number = answer[3];
    town->period = answer[4];
    town->places = answer[5];
    town->roads = answer[6];
    town->cells = answer[7];
    town->points = answer[8];
    town->hours = answer[9];
    return town;
}

uint32_t border_place(const struct town *town, uint32_t index)
{
    bool border[VARNWALNUT_MOST_PLACES] = {false};
    for (uint32_t road = 0; road < town->roads; road++) {
        if (town->cell[town->from[road]] != town->cell[town->to[road]]) {
            border[town->to[road]] = true;
        }
    }
    uint32_t place = 0;
    for (uint32_t before = 0; place < town->places; place++) {
        if (border[place] && before++ == index) {
            break;
        }
    }
    return place;
}
