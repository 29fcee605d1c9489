/*
 * A desk's program: makes a town of a road file in the text form of the 9th DIMACS challenge.
 *
 *   import_town TEXT NUMBER DIR      reads TEXT and writes DIR/network.blk, the network with this number, and
 *                                    DIR/plan.blk, its plan; it overwrites neither
 *
 * It prints how long the two files are and that the check accepts the plan. Its status is 0 where both are
 * written, 1 where the library refuses, and 2 where the call is wrong or a file cannot be read or written.
 */
#include "varnwalnut.h"

#include <errno.h>
#include <inttypes.h>
#include <stdio.h>
#include <stdlib.h>

static void path_of(char *path, size_t room, const char *folder, const char *name)
{
    int length = snprintf(path, room, "%s/%s", folder, name);
    if (length < 0 || (size_t)length >= room) {
        fprintf(stderr, "import_town: the path of %s is too long\n", name);
        exit(2);
    }
}

/* Memory of so many bytes, with what the bytes at `start` hold; NULL holds nothing. */
static void *memory(void *start, size_t bytes)
{
    void *moved = realloc(start, bytes);
    if (moved == NULL) {
        fprintf(stderr, "import_town: there is too little memory\n");
        exit(2);
    }
    return moved;
}

/* A whole text: remarks may make it as long as they like. */
static uint8_t *read_text(const char *path, size_t *length)
{
    FILE *file = fopen(path, "rb");
    if (file == NULL) {
        perror(path);
        exit(2);
    }
    size_t room = 65536;
    uint8_t *text = memory(NULL, room);
    size_t count = 0;
    size_t more;
    while ((more = fread(text + count, 1, room - count, file)) > 0) {
        count += more;
        if (count == room) {
            room *= 2;
            text = memory(text, room);
        }
    }
    if (ferror(file)) {
        perror(path);
        exit(2);
    }
    fclose(file);
    *length = count;
    return text;
}

static uint32_t number_of(const char *word)
{
    char *end;
    errno = 0;
    unsigned long long number = strtoull(word, &end, 10);
    if (word[0] < '0' || word[0] > '9' || *end != '\0' || errno != 0 || number > UINT32_MAX) {
        fprintf(stderr, "import_town: %s is no number of 32 bits\n", word);
        exit(2);
    }
    return (uint32_t)number;
}

/* The x, which the C libraries of Linux know, opens the file only if there is none. */
static int write_file(const char *path, const uint8_t *bytes, size_t length)
{
    FILE *file = fopen(path, "wbx");
    if (file == NULL && errno == EEXIST) {
        fprintf(stderr, "import_town: %s is there already, and is not overwritten\n", path);
        return 0;
    }
    if (file == NULL) {
        perror(path);
        return 0;
    }
    size_t written = fwrite(bytes, 1, length, file);
    if (fclose(file) != 0 || written != length) {
        perror(path);
        remove(path);
        return 0;
    }
    return 1;
}

static void refused(const char *sentence, uint32_t refusal, const uint32_t *places)
{
    if (refusal == VARNWALNUT_TEXT_FORM || refusal == VARNWALNUT_TEXT_VALUE) {
        fprintf(stderr, "import_town: %s: refusal %" PRIu32 ", line %" PRIu32 "\n", sentence, refusal,
                places[0]);
    } else {
        fprintf(stderr, "import_town: %s: refusal %" PRIu32 ", places %" PRIu32 " %" PRIu32 " %" PRIu32 "\n",
                sentence, refusal, places[0], places[1], places[2]);
    }
    exit(1);
}

int main(int count, char **words)
{
    if (count != 4) {
        fprintf(stderr, "usage: import_town TEXT NUMBER DIR\n");
        return 2;
    }
    uint32_t number = number_of(words[2]);
    char network_path[4096];
    char plan_path[4096];
    path_of(network_path, sizeof network_path, words[3], "network.blk");
    path_of(plan_path, sizeof plan_path, words[3], "plan.blk");

    /* The library allocates nothing: it is lent what the largest town needs. */
    size_t text_length;
    uint8_t *text = read_text(words[1], &text_length);
    uint8_t *network = memory(NULL, VARNWALNUT_NETWORK_BYTES);
    uint32_t *work = memory(NULL, VARNWALNUT_WORK_ENTRIES * sizeof *work);
    uint8_t *plan = memory(NULL, VARNWALNUT_PLAN_BYTES);
    uint32_t answer[5];

    uint32_t refusal = varnwalnut_import_dimacs(text, text_length, number,
                                                network, VARNWALNUT_NETWORK_BYTES, answer, 4);
    if (refusal != VARNWALNUT_OK) {
        refused("no network is made of the text", refusal, answer);
    }
    size_t network_length = answer[3];
    refusal = varnwalnut_make_plan(network, network_length, work, VARNWALNUT_WORK_ENTRIES,
                                   plan, VARNWALNUT_PLAN_BYTES, answer, 4);
    if (refusal != VARNWALNUT_OK) {
        refused("no plan is made of the network", refusal, answer);
    }
    size_t plan_length = answer[3];
    refusal = varnwalnut_check_plan(network, network_length, plan, plan_length, answer, 5);
    if (refusal != VARNWALNUT_OK) {
        refused("the check does not accept the plan", refusal, answer);
    }

    if (!write_file(network_path, network, network_length)) {
        return 2;
    }
    if (!write_file(plan_path, plan, plan_length)) {
        remove(network_path);
        return 2;
    }
    printf("network.blk: %zu bytes\nplan.blk: %zu bytes, accepted\n", network_length, plan_length);

    free(plan);
    free(work);
    free(network);
    free(text);
    return 0;
}
