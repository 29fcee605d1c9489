/*
 * varnwalnut: everything that the library does, for people who do not write C. A command reads files, has the
 * library answer, and tells the answer; nothing here is proved, and nothing here judges. Its status is 0
 * where the library answered, 1 where it refused, and 2 where the call is wrong or a file cannot be read or
 * written. Each function of the desk is called in one place.
 */
#define _XOPEN_SOURCE 700
#include "varnwalnut.h"

#include "day_svg.h"
#include "files.h"
#include "help.h"
#include "plan_text.h"
#include "progress.h"
#include "says.h"
#include "town.h"
#include "town_text.h"
#include "words.h"

#include <inttypes.h>
#include <signal.h>
#include <stdio.h>
#include <stdlib.h>
#include <string.h>

static struct bytes read_network(const char *path)
{
    return read_file(path, VARNWALNUT_NETWORK_BYTES);
}

static struct bytes read_plan(const char *path)
{
    return read_file(path, VARNWALNUT_PLAN_BYTES);
}

/* What a refusal's places are called is told with the town, if there is one. */
static int refused(uint32_t refusal, const uint32_t places[3], const struct bytes *network)
{
    uint32_t none, nowhere[3];
    struct town *town = open_town(network, &none, nowhere);
    int status = say_refused(refusal, places, town);
    free(town);
    return status;
}

/* A file that was written is named with its length, unless it went to standard output itself. */
static void say_written(const char *path, size_t length)
{
    if (strcmp(path, "-") != 0) {
        printf("%s: %zu bytes\n", path, length);
    }
}

static const char *needed(const struct words *words, enum option option, const char *name)
{
    if (words->option[option] == NULL) {
        print_command_usage(stderr, words->command);
        give_up("%s: %s is missing", words->command, name);
    }
    return words->option[option];
}

/* Where the answer goes: not to the file that is read. */
static const char *output_path(const struct words *words, const char *name)
{
    const char *path = needed(words, OUTPUT, name);
    keep_apart(words->operands[0], path);
    return path;
}

/* --- check */

static uint32_t ask_check(const struct bytes *network, const struct bytes *plan, uint32_t answer[5])
{
    begin_progress("checking the plan");
    uint32_t refusal =
        varnwalnut_check_plan(network->start, network->length, plan->start, plan->length, answer, 5);
    end_progress();
    return refusal;
}

static int check(const struct words *words)
{
    struct bytes network = read_network(words->operands[0]);
    struct bytes plan = read_plan(words->operands[1]);
    uint32_t answer[5];
    uint32_t refusal = ask_check(&network, &plan, answer);
    int status = 0;
    if (refusal == VARNWALNUT_OK) {
        printf("accepted, with %" PRIu64 " finds\n", (uint64_t)answer[4] << 32 | answer[3]);
    } else {
        status = refused(refusal, answer, &network);
    }
    free(network.start);
    free(plan.start);
    return status;
}

/* --- trip */

struct trip {
    uint32_t from, to, leave;
    uint32_t arrivals[VARNWALNUT_MOST_PLACES];
    uint16_t roads[VARNWALNUT_MOST_PLACES];
    uint32_t answer[6]; /* places, arrival, count of roads, open tick */
};

static uint32_t ask_trip(const struct bytes *network, const struct bytes *plan, struct trip *trip)
{
    if (plan == NULL) {
        return varnwalnut_plain_trip_lists(network->start, network->length, trip->from, trip->to, trip->leave,
                                           trip->arrivals, VARNWALNUT_MOST_PLACES, trip->roads,
                                           VARNWALNUT_MOST_PLACES, trip->answer, 6);
    }
    return varnwalnut_flagged_trip_lists(network->start, network->length, plan->start, plan->length,
                                         trip->from, trip->to, trip->leave, trip->arrivals,
                                         VARNWALNUT_MOST_PLACES, trip->roads, VARNWALNUT_MOST_PLACES,
                                         trip->answer, 6);
}

/* The chosen way comes to each of its places at the arrival that the library lists for it, and a van waits
 * nowhere: so a road is left at the tick at which the road before it ended. */
static void print_trip(const struct trip *trip, const struct town *town)
{
    uint32_t tick = trip->leave;
    printf("leaves place %" PRIu32 " at ", trip->from);
    print_tick_and_day(stdout, tick, town->period);
    printf("\n");
    for (uint32_t i = 0; i < trip->answer[4]; i++) {
        uint32_t road = trip->roads[i];
        printf("road %" PRIu32 " from place %u to place %u, ", road, town->from[road], town->to[road]);
        print_tick_and_day(stdout, tick, town->period);
        tick = trip->arrivals[town->to[road]];
        printf(", to ");
        print_tick_and_day(stdout, tick, town->period);
        printf("\n");
    }
    printf("arrives at place %" PRIu32 " at ", trip->to);
    print_tick_and_day(stdout, trip->answer[3], town->period);
    printf(": ");
    print_minutes(stdout, trip->answer[3] - trip->leave);
    printf(" by %" PRIu32 " road%s\n", trip->answer[4], trip->answer[4] == 1 ? "" : "s");
    if (trip->answer[5] != trip->answer[3]) {
        printf("place %" PRIu32 " is shut until ", trip->to);
        print_tick_and_day(stdout, trip->answer[5], town->period);
        printf("\n");
    }
}

static int trip(const struct words *words)
{
    bool planned = words->count == 5;
    const char *const *numbers = words->operands + (planned ? 2 : 1);
    struct trip *trip = take_memory(1, sizeof *trip);
    trip->from = number_word("FROM", numbers[0]);
    trip->to = number_word("TO", numbers[1]);
    trip->leave = time_word("LEAVE", numbers[2]);
    struct bytes network = read_network(words->operands[0]);
    struct bytes plan = {NULL, 0};
    if (planned) {
        plan = read_plan(words->operands[1]);
    }
    uint32_t refusal = ask_trip(&network, planned ? &plan : NULL, trip);
    uint32_t opened, places[3];
    struct town *town = open_town(&network, &opened, places);
    int status = 0;
    if (refusal == VARNWALNUT_OK && town != NULL) {
        print_trip(trip, town);
    } else {
        status = say_refused(refusal, trip->answer, town);
    }
    free(town);
    free(plan.start);
    free(network.start);
    free(trip);
    return status;
}

/* --- plan and import */

static int plan(const struct words *words)
{
    const char *path = output_path(words, "-o PLAN");
    struct bytes network = read_network(words->operands[0]);
    uint32_t *work = take_memory(VARNWALNUT_WORK_ENTRIES, sizeof *work);
    uint8_t *made = take_memory(VARNWALNUT_PLAN_BYTES, 1);
    uint32_t answer[4];
    begin_progress("making the plan");
    uint32_t refusal = varnwalnut_make_plan(network.start, network.length, work, VARNWALNUT_WORK_ENTRIES,
                                            made, VARNWALNUT_PLAN_BYTES, answer, 4);
    end_progress();
    int status = 0;
    if (refusal == VARNWALNUT_OK) {
        write_file(path, made, answer[3]);
        say_written(path, answer[3]);
    } else {
        status = refused(refusal, answer, &network);
    }
    free(made);
    free(work);
    free(network.start);
    return status;
}

static int import(const struct words *words)
{
    const char *path = output_path(words, "-o NETWORK");
    uint32_t number = number_word("N", needed(words, NUMBER, "--number N"));
    struct bytes text = read_file(words->operands[0], WHOLE_FILE);
    uint8_t *made = take_memory(VARNWALNUT_NETWORK_BYTES, 1);
    uint32_t answer[4];
    uint32_t refusal = varnwalnut_import_dimacs(text.start, text.length, number, made,
                                                VARNWALNUT_NETWORK_BYTES, answer, 4);
    int status = 0;
    if (refusal == VARNWALNUT_OK) {
        write_file(path, made, answer[3]);
        say_written(path, answer[3]);
    } else {
        status = say_refused(refusal, answer, NULL);
    }
    free(made);
    free(text.start);
    return status;
}

/* --- show and make */

static int show_network(const struct bytes *file)
{
    uint32_t refusal, places[3];
    struct town *town = open_town(file, &refusal, places);
    if (town == NULL) {
        return say_refused(refusal, places, NULL);
    }
    print_town(stdout, town);
    free(town);
    return 0;
}

/* From 20 on a plan has the right form for its network, whatever it says. */
static int show_judged_plan(const struct bytes *file, const char *path)
{
    struct bytes network = read_network(path);
    uint32_t answer[5], none, nowhere[3];
    uint32_t refusal = ask_check(&network, file, answer);
    struct town *town = open_town(&network, &none, nowhere);
    int status = 0;
    if (town == NULL || (refusal != VARNWALNUT_OK && refusal < VARNWALNUT_CHECK_INSIDE)) {
        status = say_refused(refusal, answer, town);
    } else {
        printf("# the plan's form is right for its network; the check says: ");
        if (refusal == VARNWALNUT_OK) {
            printf("accepted");
        } else {
            printf("refused ");
            print_refusal(stdout, refusal, answer, town);
        }
        printf("\n");
        print_plan(stdout, file, town);
    }
    free(town);
    free(network.start);
    return status;
}

static int show(const struct words *words)
{
    struct bytes file = read_file(words->operands[0], VARNWALNUT_PLAN_BYTES);
    int status = 0;
    if (words->option[NETWORK] != NULL) {
        status = show_judged_plan(&file, words->option[NETWORK]);
    } else if (looks_like_plan(&file)) {
        printf("# nothing of this plan is judged: that needs its network (--network NETWORK, or check)\n");
        print_plan(stdout, &file, NULL);
    } else {
        status = show_network(&file);
    }
    free(file.start);
    return status;
}

static int make(const struct words *words)
{
    const char *path = output_path(words, "-o NETWORK");
    struct bytes text = read_file(words->operands[0], WHOLE_FILE);
    struct tables tables;
    struct bytes network;
    uint32_t places[3];
    read_town(words->operands[0], &text, &tables);
    uint32_t refusal = pack_tables(&tables, &network, places);
    int status = 0;
    if (refusal == VARNWALNUT_OK) {
        write_file(path, network.start, network.length);
        say_written(path, network.length);
    } else {
        status = say_refused(refusal, places, NULL);
    }
    free(network.start);
    free_tables(&tables);
    free(text.start);
    return status;
}

/* --- day */

static uint32_t ask_day(const struct bytes *network, uint32_t *work, struct day *day, uint32_t answer[4])
{
    uint32_t arrivals[VARNWALNUT_MOST_TICKS];
    uint32_t refusal = varnwalnut_day_sheet(network->start, network->length, day->from, day->to, work,
                                            VARNWALNUT_WORK_ENTRIES, arrivals, VARNWALNUT_MOST_TICKS, answer,
                                            4);
    if (refusal == VARNWALNUT_OK) {
        fill_day(day, answer[3], arrivals);
    }
    return refusal;
}

static void print_sheet(const struct day *day, uint32_t period)
{
    for (uint32_t tick = 0; tick < period; tick++) {
        printf("%" PRIu32 " to %" PRIu32 ": leave ", day->from, day->to);
        print_tick(stdout, tick, period);
        printf(", arrive ");
        print_tick_and_day(stdout, tick + day->travels[tick], period);
        printf(", ");
        print_minutes(stdout, day->travels[tick]);
        printf("\n");
    }
}

static void write_picture(const char *path, const struct day *days, size_t count, uint32_t period)
{
    char *text = NULL;
    size_t length = 0;
    FILE *picture = open_memstream(&text, &length);
    if (picture == NULL) {
        give_up("there is too little memory");
    }
    print_days(picture, period, days, count);
    if (fclose(picture) != 0) {
        give_up("there is too little memory");
    }
    write_file(path, text, length);
    say_written(path, length);
    free(text);
}

static int day(const struct words *words)
{
    size_t count = words->count / 2;
    struct day *days = take_memory(count, sizeof *days);
    uint32_t *work = take_memory(VARNWALNUT_WORK_ENTRIES, sizeof *work);
    uint32_t answer[4] = {0};
    int status = 0;
    for (size_t i = 0; i < count; i++) {
        days[i].from = number_word("FROM", words->operands[1 + 2 * i]);
        days[i].to = number_word("TO", words->operands[2 + 2 * i]);
    }
    if (words->option[SVG] != NULL) {
        keep_apart(words->operands[0], words->option[SVG]);
    }
    struct bytes network = read_network(words->operands[0]);
    for (size_t i = 0; i < count && status == 0; i++) {
        uint32_t refusal = ask_day(&network, work, &days[i], answer);
        if (refusal != VARNWALNUT_OK) {
            status = say_refused(refusal, answer, NULL);
        }
    }
    if (status == 0 && words->option[SVG] != NULL) {
        write_picture(words->option[SVG], days, count, answer[3]);
    } else if (status == 0) {
        for (size_t i = 0; i < count; i++) {
            print_sheet(&days[i], answer[3]);
        }
    }
    free(network.start);
    free(work);
    free(days);
    return status;
}

/* --- help and version */

static int version(const struct words *words)
{
    (void)words;
    printf("varnwalnut %s\n", VARNWALNUT_VERSION);
    return 0;
}

static int help(const struct words *words)
{
    if (words->count == 0) {
        print_help(stdout);
    } else if (!print_command_help(stdout, words->operands[0])) {
        give_up("there is no command %s", words->operands[0]);
    }
    return 0;
}

/* --- the call */

struct command {
    const char *name;
    int (*run)(const struct words *words);
    size_t least, most; /* operands */
    size_t step;        /* how many operands more make the next number of them that is right */
    unsigned options;
};

static const struct command COMMANDS[] = {
    {"check", check, 2, 2, 1, 0},
    {"trip", trip, 4, 5, 1, 0},
    {"plan", plan, 1, 1, 1, 1u << OUTPUT},
    {"import", import, 1, 1, 1, 1u << OUTPUT | 1u << NUMBER},
    {"show", show, 1, 1, 1, 1u << NETWORK},
    {"make", make, 1, 1, 1, 1u << OUTPUT},
    {"day", day, 3, 1 + 2 * MOST_DAYS, 2, 1u << SVG},
    {"version", version, 0, 0, 1, 0},
    {"help", help, 0, 1, 1, 0},
};

static int run(const struct command *command, size_t count, char **words)
{
    struct words taken = take_words(command->name, command->options, count, words);
    int status = 0;
    if (taken.help) {
        print_command_help(stdout, command->name);
    } else if (taken.count < command->least || taken.count > command->most ||
               (taken.count - command->least) % command->step != 0) {
        print_command_usage(stderr, command->name);
        status = 2;
    } else {
        status = command->run(&taken);
    }
    free(taken.operands);
    finish_output();
    return status;
}

/* The words that other programs take for these commands too. */
static const char *command_name(const char *word)
{
    if (strcmp(word, "--version") == 0 || strcmp(word, "-V") == 0) {
        return "version";
    }
    return strcmp(word, "--help") == 0 || strcmp(word, "-h") == 0 ? "help" : word;
}

int main(int count, char **words)
{
    /* A file that may not grow further is told as an error of the write. */
    signal(SIGXFSZ, SIG_IGN);
    hold_standard_files();
    if (count < 2) {
        print_usage(stderr);
        return 2;
    }
    if (count == 3 && strcmp(words[1], "help") == 0 && strcmp(words[2], "--man") == 0) {
        print_manual(stdout);
        finish_output();
        return 0;
    }
    const char *name = command_name(words[1]);
    for (size_t i = 0; i < sizeof COMMANDS / sizeof *COMMANDS; i++) {
        if (strcmp(COMMANDS[i].name, name) == 0) {
            return run(&COMMANDS[i], (size_t)count - 2, words + 2);
        }
    }
    print_usage(stderr);
    give_up("there is no command %s", words[1]);
}
