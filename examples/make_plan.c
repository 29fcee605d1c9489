/*
 * A desk's program: makes the plan of a town from its network alone, checks it, and writes it.
 *
 *   make_plan DIR      reads DIR/network.blk and writes DIR/plan.blk, which it never overwrites
 *
 * It prints how long the plan is and that the check accepts it. Its status is 0 where the plan is written, 1
 * where the library refuses, and 2 where the call is wrong or a file cannot be read or written.
 */
#include "varnwalnut.h"

#include <errno.h>
#include <inttypes.h>
#include <stdio.h>
#include <stdlib.h>

static void path_of(char *path, size_t room, const char *folder, const char *name)
{
    int length = snprintf(path, room, "%s/%s", folder, name);
    if (length < 0 || (size_t)length >= room) {
        fprintf(stderr, "make_plan: the path of %s is too long\n", name);
        exit(2);
    }
}

static void *memory(size_t bytes)
{
    void *start = malloc(bytes);
    if (start == NULL) {
        fprintf(stderr, "make_plan: there is too little memory\n");
        exit(2);
    }
    return start;
}

/* One byte more than a file may have is enough for the library to see that it is too long. */
static size_t read_file(const char *path, uint8_t *bytes, size_t room)
{
    FILE *file = fopen(path, "rb");
    if (file == NULL) {
        perror(path);
        exit(2);
    }
    size_t length = fread(bytes, 1, room, file);
    if (ferror(file)) {
        perror(path);
        exit(2);
    }
    fclose(file);
    return length;
}

/* The x, which the C libraries of Linux know, opens the file only if there is none. */
static void write_file(const char *path, const uint8_t *bytes, size_t length)
{
    FILE *file = fopen(path, "wbx");
    if (file == NULL && errno == EEXIST) {
        fprintf(stderr, "make_plan: %s is there already, and is not overwritten\n", path);
        exit(2);
    }
    if (file == NULL) {
        perror(path);
        exit(2);
    }
    size_t written = fwrite(bytes, 1, length, file);
    if (fclose(file) != 0 || written != length) {
        perror(path);
        remove(path);
        exit(2);
    }
}

static void refused(const char *sentence, uint32_t refusal, const uint32_t *places)
{
    fprintf(stderr, "make_plan: %s: refusal %" PRIu32 ", places %" PRIu32 " %" PRIu32 " %" PRIu32 "\n",
            sentence, refusal, places[0], places[1], places[2]);
    exit(1);
}

int main(int count, char **words)
{
    if (count != 2) {
        fprintf(stderr, "usage: make_plan DIR\n");
        return 2;
    }
    char network_path[4096];
    char plan_path[4096];
    path_of(network_path, sizeof network_path, words[1], "network.blk");
    path_of(plan_path, sizeof plan_path, words[1], "plan.blk");

    /* The library allocates nothing: it is lent what the largest town needs. */
    uint8_t *network = memory(VARNWALNUT_NETWORK_BYTES + 1);
    uint32_t *work = memory(VARNWALNUT_WORK_ENTRIES * sizeof *work);
    uint8_t *plan = memory(VARNWALNUT_PLAN_BYTES);
    uint32_t answer[5];

    size_t network_length = read_file(network_path, network, VARNWALNUT_NETWORK_BYTES + 1);
    uint32_t refusal = varnwalnut_make_plan(network, network_length, work, VARNWALNUT_WORK_ENTRIES,
                                            plan, VARNWALNUT_PLAN_BYTES, answer, 4);
    if (refusal != VARNWALNUT_OK) {
        refused("no plan is made of the network", refusal, answer);
    }
    size_t plan_length = answer[3];
    refusal = varnwalnut_check_plan(network, network_length, plan, plan_length, answer, 5);
    if (refusal != VARNWALNUT_OK) {
        refused("the check does not accept the plan", refusal, answer);
    }
    write_file(plan_path, plan, plan_length);
    printf("plan.blk: %zu bytes, accepted\n", plan_length);

    free(plan);
    free(work);
    free(network);
    return 0;
}
