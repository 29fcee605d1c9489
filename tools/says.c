/*
 * What the command says to people: refusals as sentences with their places, and ticks as clock times.
 */
#include "says.h"

#include "varnwalnut_text.h"

#include <inttypes.h>
#include <string.h>

void print_tick(FILE *out, uint32_t tick, uint32_t period)
{
    uint32_t seconds = tick % period * TICK_SECONDS;
    fprintf(out, "tick %" PRIu32 " = %02" PRIu32 ":%02" PRIu32 ":%02" PRIu32, tick, seconds / 3600,
            seconds / 60 % 60, seconds % 60);
}

void print_tick_and_day(FILE *out, uint32_t tick, uint32_t period)
{
    print_tick(out, tick, period);
    fprintf(out, ", day %" PRIu32, tick / period + 1);
}

void print_minutes(FILE *out, uint32_t ticks)
{
    fprintf(out, "%" PRIu32 "%s min", ticks / 2, ticks % 2 == 0 ? "" : ".5");
}

static void print_place(FILE *out, const char *name, uint32_t place, const struct town *town)
{
    if (town != NULL && strcmp(name, "tick") == 0) {
        print_tick(out, place, town->period);
        return;
    }
    fprintf(out, "%s %" PRIu32, name, place);
    if (town != NULL && strcmp(name, "border") == 0) {
        fprintf(out, " = place %" PRIu32, border_place(town, place));
    }
}

void print_refusal(FILE *out, uint32_t refusal, const uint32_t places[3], const struct town *town)
{
    fprintf(out, "%" PRIu32 ": %s", refusal, varnwalnut_refusal_text(refusal));
    const char *before = " (";
    for (uint32_t i = 0; i < 3; i++) {
        const char *name = varnwalnut_refusal_place(refusal, i);
        if (*name != '\0') {
            fprintf(out, "%s", before);
            print_place(out, name, places[i], town);
            before = ", ";
        }
    }
    fprintf(out, "%s", *before == ',' ? ")" : "");
}

int say_refused(uint32_t refusal, const uint32_t places[3], const struct town *town)
{
    fflush(stdout);
    fprintf(stderr, "refused ");
    print_refusal(stderr, refusal, places, town);
    fprintf(stderr, "\n");
    return 1;
}
