/*
 * A tablet's program: opens a town's network and plan, asks for one trip, and prints it.
 *
 *   tablet DIR FROM TO DEPARTURE      reads DIR/network.blk and DIR/plan.blk
 *
 * It prints the tick of arrival and the roads to take, or why the call was refused.
 */
#include "varnwalnut.h"

#include <inttypes.h>
#include <stdio.h>
#include <stdlib.h>

/* The files and the answer are kept out of the stack: a tablet's threads have small ones. */
static uint8_t network[VARNWALNUT_NETWORK_BYTES + 1];
static uint8_t plan[VARNWALNUT_PLAN_BYTES + 1];
static uint8_t answer[VARNWALNUT_TRIP_BYTES];

/* Reads a file of DIR. One byte more than a file may have is enough for the library to see that it is too
 * long. */
static size_t read_file(const char *folder, const char *name, uint8_t *bytes, size_t room)
{
    char path[4096];
    if (snprintf(path, sizeof path, "%s/%s", folder, name) >= (int)sizeof path) {
        fprintf(stderr, "tablet: the path of %s is too long\n", name);
        exit(2);
    }
    FILE *file = fopen(path, "rb");
    if (file == NULL) {
        perror(path);
        exit(2);
    }
    size_t length = fread(bytes, 1, room, file);
    fclose(file);
    return length;
}

static uint32_t number(const char *text)
{
    char *end;
    unsigned long long value = strtoull(text, &end, 10);
    if (*text < '0' || *text > '9' || *end != '\0' || value > UINT32_MAX) {
        fprintf(stderr, "tablet: %s is no number of 32 bits\n", text);
        exit(2);
    }
    return (uint32_t)value;
}

static uint32_t bytes_to_number(const uint8_t *bytes, size_t count)
{
    uint32_t value = 0;
    while (count > 0) {
        count -= 1;
        value = value * 256 + bytes[count];
    }
    return value;
}

int main(int count, char **words)
{
    if (count != 5) {
        fprintf(stderr, "usage: tablet DIR FROM TO DEPARTURE\n");
        return 2;
    }
    size_t network_length = read_file(words[1], "network.blk", network, sizeof network);
    size_t plan_length = read_file(words[1], "plan.blk", plan, sizeof plan);
    uint32_t refusal =
        varnwalnut_flagged_trip(network, network_length, plan, plan_length, answer, sizeof answer,
                                number(words[2]), number(words[3]), number(words[4]));
    if (refusal == VARNWALNUT_NO_WAY) {
        printf("no way\n");
        return 0;
    }
    if (refusal != VARNWALNUT_OK) {
        printf("refused %" PRIu32 "\n", refusal);
        return 1;
    }
    uint32_t roads = bytes_to_number(answer + 8, 2);
    printf("arrives at tick %" PRIu32 " by %" PRIu32 " roads:", bytes_to_number(answer + 4, 4), roads);
    for (uint32_t i = 0; i < roads; i++) {
        printf(" %" PRIu32, bytes_to_number(answer + 10 + 2 * i, 2));
    }
    printf("\n");
    return 0;
}
