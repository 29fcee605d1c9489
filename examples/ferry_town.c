/*
 * A desk's program: packs Ferry town, a town with rush hours, a ferry and locker halls that open and close.
 *
 *   ferry_town DIR      writes DIR/network.blk, which it never overwrites
 *
 * It prints how long the file is. Its status is 0 where the file is written, 1 where the library refuses, and
 * 2 where the call is wrong or the file cannot be written.
 *
 *   north bank (cell 0)           0 depot    1 station hall   2 bridge, north   3 ferry, north
 *   south bank (cell 1)           4 bridge, south   5 ferry, south   6 market hall   7 harbour hall
 */
#include "varnwalnut.h"

#include <errno.h>
#include <inttypes.h>
#include <stdio.h>
#include <stdlib.h>

enum { PLACES = 8, MOST_ROADS = 40, MOST_POINTS = 1000 };

/* Half minutes: the period is a day of 24 hours. */
enum { MINUTE = 2, HOUR = 120, DAY = 2880 };

/* The tables as varnwalnut_pack_network takes them. */
static uint16_t cells[PLACES] = {0, 0, 0, 0, 1, 1, 1, 1};
static uint16_t opens[PLACES] = {0, 5 * HOUR, 0, 0, 0, 0, 6 * HOUR, 8 * HOUR};
static uint16_t closes[PLACES] = {DAY, 23 * HOUR, DAY, DAY, DAY, DAY, 20 * HOUR, 16 * HOUR};
static uint16_t from[MOST_ROADS], to[MOST_ROADS], points[MOST_ROADS];
static uint16_t ticks[MOST_POINTS], travels[MOST_POINTS];
static uint32_t road_count, point_count;

static void road(uint16_t tail, uint16_t head)
{
    from[road_count] = tail;
    to[road_count] = head;
    road_count += 1;
}

/* A point of the road begun last. */
static void point(uint32_t tick, uint32_t travel)
{
    ticks[point_count] = (uint16_t)tick;
    travels[point_count] = (uint16_t)travel;
    point_count += 1;
    points[road_count - 1] += 1;
}

/* A street that takes as long at every hour, both ways. */
static void street(uint16_t one, uint16_t other, uint32_t minutes)
{
    road(one, other);
    point(0, MINUTE * minutes);
    road(other, one);
    point(0, MINUTE * minutes);
}

/* A road with a rush in the morning and one in the evening. */
static void busy_road(uint16_t tail, uint16_t head, uint32_t minutes, uint32_t morning, uint32_t evening)
{
    road(tail, head);
    point(0, MINUTE * minutes);
    point(6 * HOUR + HOUR / 2, MINUTE * minutes);
    point(7 * HOUR + HOUR / 2, MINUTE * (minutes + morning * 2 / 3));
    point(8 * HOUR, MINUTE * (minutes + morning));
    point(8 * HOUR + HOUR / 2, MINUTE * (minutes + morning));
    point(10 * HOUR, MINUTE * (minutes + 3));
    point(15 * HOUR, MINUTE * (minutes + 4));
    point(16 * HOUR + HOUR / 2, MINUTE * (minutes + evening * 3 / 4));
    point(17 * HOUR + HOUR / 2, MINUTE * (minutes + evening));
    point(19 * HOUR, MINUTE * (minutes + 2));
    point(21 * HOUR, MINUTE * minutes);
}

/* A ferry leaves every so many minutes from the first time to the last, and crosses in so many. Who comes
 * between waits for the next one: the travel falls by a tick with each tick, and then it is full again. */
static void ferry(uint16_t tail, uint16_t head, uint32_t first, uint32_t last, uint32_t every, uint32_t cross)
{
    road(tail, head);
    point(0, first + MINUTE * cross);
    for (uint32_t tick = first; tick <= last; tick += MINUTE * every) {
        uint32_t next = tick == last ? DAY + first : tick + MINUTE * every;
        point(tick, MINUTE * cross);
        point(tick + 1, next - tick - 1 + MINUTE * cross);
    }
}

static void lay_roads(void)
{
    street(0, 1, 4);
    street(0, 2, 6);
    street(1, 2, 5);
    street(0, 3, 5);
    street(1, 3, 8);
    busy_road(2, 4, 9, 33, 16);
    busy_road(4, 2, 9, 12, 36);
    ferry(3, 5, 6 * HOUR, 22 * HOUR, 60, 8);
    ferry(5, 3, 6 * HOUR + HOUR / 2, 22 * HOUR + HOUR / 2, 60, 8);
    street(4, 6, 7);
    street(5, 6, 5);
    street(5, 7, 3);
    busy_road(6, 7, 6, 5, 9);
    busy_road(7, 6, 6, 8, 6);
}

/* The x, which the C libraries of Linux know, opens the file only if there is none. */
static void write_network(const char *folder, const uint8_t *bytes, size_t length)
{
    char path[4096];
    int written = snprintf(path, sizeof path, "%s/network.blk", folder);
    if (written < 0 || (size_t)written >= sizeof path) {
        fprintf(stderr, "ferry_town: the path of network.blk is too long\n");
        exit(2);
    }
    FILE *file = fopen(path, "wbx");
    if (file == NULL && errno == EEXIST) {
        fprintf(stderr, "ferry_town: %s is there already, and is not overwritten\n", path);
        exit(2);
    }
    if (file == NULL) {
        perror(path);
        exit(2);
    }
    size_t count = fwrite(bytes, 1, length, file);
    if (fclose(file) != 0 || count != length) {
        perror(path);
        remove(path);
        exit(2);
    }
}

int main(int count, char **words)
{
    static uint8_t out[VARNWALNUT_NETWORK_BYTES];
    uint32_t answer[4];
    if (count != 2) {
        fprintf(stderr, "usage: ferry_town DIR\n");
        return 2;
    }
    lay_roads();
    uint32_t refusal = varnwalnut_pack_network(
        1912, DAY, PLACES, road_count, 2, point_count, 1, cells, PLACES, opens, PLACES, closes, PLACES,
        from, MOST_ROADS, to, MOST_ROADS, points, MOST_ROADS, ticks, MOST_POINTS, travels, MOST_POINTS,
        out, sizeof out, answer, 4);
    if (refusal != VARNWALNUT_OK) {
        fprintf(stderr, "ferry_town: refusal %" PRIu32 ", place %" PRIu32 "\n", refusal, answer[0]);
        return 1;
    }
    write_network(words[1], out, answer[3]);
    printf("network.blk: %" PRIu32 " bytes\n", answer[3]);
    return 0;
}
