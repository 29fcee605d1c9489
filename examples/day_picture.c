/*
 * A desk's program: draws how long a trip takes, whenever in the day it leaves.
 *
 *   day_picture DIR FROM TO [FROM TO ..]      reads DIR/network.blk and writes a picture in SVG to standard
 *                                             output, with a line for each pair, eight at most
 *
 * Along the picture runs the tick of leaving, as a clock shows it (a tick is half a minute), and upwards the
 * travel in minutes. Its status is 0 where the picture is written, 1 where the library refuses, and 2 where
 * the call is wrong or a file cannot be read or written. The drawing stands in tools/day_svg.c.
 */
#include "day_svg.h"
#include "varnwalnut.h"

#include <inttypes.h>
#include <stdio.h>
#include <stdlib.h>

/* The library allocates nothing: it is lent what the largest town needs. */
static uint8_t network[VARNWALNUT_NETWORK_BYTES + 1];
static uint32_t work[VARNWALNUT_WORK_ENTRIES];
static uint32_t arrivals[VARNWALNUT_MOST_TICKS];
static struct day days[MOST_DAYS];

/* --- the call and its files */

static uint32_t number(const char *text)
{
    char *end;
    unsigned long long value = strtoull(text, &end, 10);
    if (*text < '0' || *text > '9' || *end != '\0' || value > UINT32_MAX) {
        fprintf(stderr, "day_picture: %s is no number of 32 bits\n", text);
        exit(2);
    }
    return (uint32_t)value;
}

/* One byte more than a file may have is enough for the library to see that it is too long. */
static size_t read_network(const char *folder)
{
    char path[4096];
    int length = snprintf(path, sizeof path, "%s/network.blk", folder);
    if (length < 0 || (size_t)length >= sizeof path) {
        fprintf(stderr, "day_picture: the path of network.blk is too long\n");
        exit(2);
    }
    FILE *file = fopen(path, "rb");
    if (file == NULL) {
        perror(path);
        exit(2);
    }
    size_t bytes = fread(network, 1, sizeof network, file);
    if (ferror(file)) {
        perror(path);
        exit(2);
    }
    fclose(file);
    return bytes;
}

/* --- what the library says */

/* A sentence for each refusal of the network; %PRIu32 is its first place. */
static const char *sentence(uint32_t refusal)
{
    switch (refusal) {
    case VARNWALNUT_NETWORK_LENGTH:
        return "its length is zero, no multiple of 512 bytes, or above 558 blocks";
    case VARNWALNUT_NETWORK_SUM:
        return "the check of block %" PRIu32 " is wrong";
    case VARNWALNUT_NETWORK_FIRST:
        return "its first block does not begin a network";
    case VARNWALNUT_NETWORK_LIMITS:
        return "the numbers of its header are outside the limits";
    case VARNWALNUT_NETWORK_SIZE:
        return "its length is not what the header calls for";
    case VARNWALNUT_NETWORK_FORM:
        return "block %" PRIu32 " is not of its form";
    case VARNWALNUT_NETWORK_CELL:
        return "the cell of place %" PRIu32 " is none";
    case VARNWALNUT_NETWORK_HOURS:
        return "the hours of place %" PRIu32 " are none";
    case VARNWALNUT_NETWORK_ROAD:
        return "road %" PRIu32 " has wrong ends or points, or the points do not add up";
    case VARNWALNUT_NETWORK_POINT:
        return "the tick or the travel of point %" PRIu32 " is outside its limits";
    case VARNWALNUT_NETWORK_FIFO:
        return "after point %" PRIu32 " a road overtakes";
    default:
        return "it is refused";
    }
}

static void refused(const struct day *day, uint32_t refusal, uint32_t place)
{
    fprintf(stderr, "day_picture: ");
    if (refusal == VARNWALNUT_PLACE) {
        fprintf(stderr, "the network has no place %" PRIu32, place);
    } else if (refusal == VARNWALNUT_NO_WAY) {
        fprintf(stderr, "no way leads from place %" PRIu32 " to place %" PRIu32, day->from, day->to);
    } else {
        fprintf(stderr, "network.blk: ");
        fprintf(stderr, sentence(refusal), place);
    }
    fprintf(stderr, " (refusal %" PRIu32 ")\n", refusal);
    exit(1);
}

/* Works out one pair's day, and gives the period. */
static uint32_t work_out(size_t network_length, struct day *day)
{
    uint32_t answer[4];
    uint32_t refusal =
        varnwalnut_day_sheet(network, network_length, day->from, day->to, work, VARNWALNUT_WORK_ENTRIES,
                             arrivals, VARNWALNUT_MOST_TICKS, answer, 4);
    if (refusal != VARNWALNUT_OK) {
        refused(day, refusal, answer[0]);
    }
    fill_day(day, answer[3], arrivals);
    return answer[3];
}

int main(int count, char **words)
{
    if (count < 4 || count % 2 != 0 || count > 2 + 2 * MOST_DAYS) {
        fprintf(stderr, "usage: day_picture DIR FROM TO [FROM TO ..]\n");
        return 2;
    }
    size_t pairs = (size_t)(count - 2) / 2;
    for (size_t i = 0; i < pairs; i++) {
        days[i].from = number(words[2 + 2 * i]);
        days[i].to = number(words[3 + 2 * i]);
    }
    size_t network_length = read_network(words[1]);
    uint32_t period = 0;
    for (size_t i = 0; i < pairs; i++) {
        period = work_out(network_length, &days[i]);
    }
    print_days(stdout, period, days, pairs);
    if (fflush(stdout) != 0 || ferror(stdout)) {
        perror("day_picture");
        return 2;
    }
    return 0;
}
