/*
 * The picture of a day, in SVG: the tick of leaving along it, as a clock shows it, and the travel in minutes
 * upwards. All numbers are whole, so that every machine draws the same bytes.
 */
#include "day_svg.h"

#include <inttypes.h>

/* The picture's sizes, in its own units. */
enum {
    WIDTH = 960,
    LEFT = 74,
    RIGHT = 930,
    LEGEND_TOP = 66,
    LEGEND_STEP = 22,
    LEGEND_COLUMN = 428,
    PLOT_HEIGHT = 360,
    BELOW = 66
};

/* Colours that the colour-blind tell apart too, and that are dark enough for a thin line on white. */
static const char *const COLOURS[MOST_DAYS] = {"#0072b2", "#d55e00", "#009e73", "#aa4499",
                                               "#b8860b", "#332288", "#882255", "#555555"};

void fill_day(struct day *day, uint32_t period, const uint32_t *arrivals)
{
    day->least = 0;
    day->most = 0;
    for (uint32_t tick = 0; tick < period; tick++) {
        day->travels[tick] = arrivals[tick] - tick;
        if (day->travels[tick] < day->travels[day->least]) {
            day->least = tick;
        }
        if (day->travels[tick] > day->travels[day->most]) {
            day->most = tick;
        }
    }
}

/* --- numbers of the picture */

/* Where the plot lies, and what stands at its right and upper edge. */
struct plot {
    uint32_t top;
    uint32_t period;
    uint32_t highest;
};

/* So many hundredths. */
static void print_hundredths(FILE *out, uint64_t hundredths)
{
    fprintf(out, "%" PRIu64, hundredths / 100);
    if (hundredths % 100 != 0) {
        fprintf(out, ".%02" PRIu64, hundredths % 100);
    }
}

/* A tick's place along the picture. */
static uint64_t along(const struct plot *plot, uint32_t tick)
{
    uint64_t width = RIGHT - LEFT;
    return 100 * LEFT + (100 * width * tick + plot->period / 2) / plot->period;
}

/* A travel's place downwards: more is higher. */
static uint64_t down(const struct plot *plot, uint32_t travel)
{
    uint64_t up = (UINT64_C(100) * PLOT_HEIGHT * travel + plot->highest / 2) / plot->highest;
    return UINT64_C(100) * (plot->top + PLOT_HEIGHT) - up;
}

/* The first step that cuts `whole` into no more than `most` parts; the last one where none does. */
static uint32_t step_of(const uint32_t *steps, size_t count, uint32_t whole, uint32_t most)
{
    for (size_t i = 0; i < count; i++) {
        if ((whole + steps[i] - 1) / steps[i] <= most) {
            return steps[i];
        }
    }
    return steps[count - 1];
}

/* Steps of the clock in ticks: 1, 2, 5, 10, 15 and 30 minutes, 1, 2, 3 and 4 hours. */
static uint32_t clock_step(uint32_t period)
{
    static const uint32_t steps[] = {2, 4, 10, 20, 30, 60, 120, 240, 360, 480};
    return step_of(steps, sizeof steps / sizeof *steps, period, 12);
}

/* Steps of the travel in ticks, from 1 minute to 2 days. */
static uint32_t travel_step(uint32_t travel)
{
    static const uint32_t steps[] = {2,   4,   10,  20,   30,   40,   60,   120,   240,
                                     360, 480, 720, 1440, 2880, 5760, 28800, 288000};
    return step_of(steps, sizeof steps / sizeof *steps, travel, 7);
}

static void print_clock(FILE *out, uint32_t tick)
{
    fprintf(out, "%02" PRIu32 ":%02" PRIu32, tick / 120, tick / 2 % 60);
}

static void print_travel(FILE *out, uint32_t ticks)
{
    fprintf(out, "%" PRIu32 "%s", ticks / 2, ticks % 2 == 0 ? "" : ".5");
}

/* --- the picture */

static void print_head(FILE *out, const struct plot *plot, size_t pairs)
{
    uint32_t height = plot->top + PLOT_HEIGHT + BELOW;
    fprintf(out, "<svg xmlns=\"http://www.w3.org/2000/svg\" width=\"%d\" height=\"%" PRIu32
            "\" viewBox=\"0 0 %d %" PRIu32 "\"\n"
            "     font-family=\"DejaVu Sans, Verdana, Helvetica, sans-serif\" role=\"img\">\n",
            WIDTH, height, WIDTH, height);
    const char *what = pairs == 1 ? "a trip takes" : "trips take";
    fprintf(out, "<title>How long %s, whenever in the day</title>\n", what);
    fprintf(out, "<rect width=\"%d\" height=\"%" PRIu32 "\" fill=\"#ffffff\"/>\n", WIDTH, height);
    fprintf(out, "<text x=\"%d\" y=\"34\" font-size=\"20\" fill=\"#222222\">How long %s, whenever in the day"
            "</text>\n",
            LEFT, what);
}

/* Lines across the plot, each with its travel at the end. */
static void print_travel_lines(FILE *out, const struct plot *plot)
{
    uint32_t step = travel_step(plot->highest);
    for (uint32_t travel = 0; travel <= plot->highest; travel += step) {
        uint64_t at = down(plot, travel);
        fprintf(out, "<path d=\"M%d ", LEFT);
        print_hundredths(out, at);
        fprintf(out, "H%d\" stroke=\"%s\"/>", RIGHT, travel == 0 ? "#777777" : "#e4e4e4");
        fprintf(out, "<text x=\"%d\" y=\"", LEFT - 10);
        print_hundredths(out, at + 450);
        fprintf(out, "\" text-anchor=\"end\">%" PRIu32 "</text>\n", travel / 2);
    }
}

/* Lines down the plot, each with its time at the end. */
static void print_clock_lines(FILE *out, const struct plot *plot)
{
    uint32_t bottom = plot->top + PLOT_HEIGHT;
    uint32_t step = clock_step(plot->period);
    for (uint32_t tick = 0; tick <= plot->period; tick += step) {
        uint64_t at = along(plot, tick);
        fprintf(out, "<path d=\"M");
        print_hundredths(out, at);
        fprintf(out, " %" PRIu32 "V%" PRIu32 "\" stroke=\"%s\"/>", plot->top, bottom + 6,
                tick == 0 ? "#777777" : "#eeeeee");
        fprintf(out, "<text x=\"");
        print_hundredths(out, at);
        fprintf(out, "\" y=\"%" PRIu32 "\" text-anchor=\"middle\">", bottom + 24);
        print_clock(out, tick);
        fprintf(out, "</text>\n");
    }
}

/* Both kinds of lines, and what their numbers are. */
static void print_grid(FILE *out, const struct plot *plot)
{
    uint32_t bottom = plot->top + PLOT_HEIGHT;
    fprintf(out, "<g font-size=\"13\" fill=\"#555555\" stroke=\"none\">\n");
    print_travel_lines(out, plot);
    print_clock_lines(out, plot);
    fprintf(out, "</g>\n<g font-size=\"13\" fill=\"#222222\">\n");
    fprintf(out, "<text x=\"%d\" y=\"%" PRIu32 "\" text-anchor=\"middle\">leaving at</text>\n",
            (LEFT + RIGHT) / 2, bottom + 50);
    fprintf(out, "<text transform=\"translate(22 %" PRIu32 ") rotate(-90)\" text-anchor=\"middle\">"
            "travel in minutes</text>\n</g>\n",
            plot->top + PLOT_HEIGHT / 2);
}

/* Two pairs stand in a row: what they lead from and to, and the least and the most that they take. */
static void print_legend(FILE *out, const struct day *day, size_t place)
{
    uint32_t left = LEFT + (uint32_t)(place % 2) * LEGEND_COLUMN;
    uint32_t at = LEGEND_TOP + (uint32_t)(place / 2) * LEGEND_STEP;
    fprintf(out, "<path d=\"M%" PRIu32 " %" PRIu32 "h26\" stroke=\"%s\" stroke-width=\"4\"/>", left, at - 5,
            COLOURS[place]);
    fprintf(out, "<text x=\"%" PRIu32 "\" y=\"%" PRIu32 "\" font-size=\"14\" fill=\"#222222\">"
            "%" PRIu32 " to %" PRIu32 ": <tspan fill=\"#555555\">",
            left + 36, at, day->from, day->to);
    print_travel(out, day->travels[day->least]);
    if (day->travels[day->least] == day->travels[day->most]) {
        fprintf(out, " min all day");
    } else {
        fprintf(out, " min at ");
        print_clock(out, day->least);
        fprintf(out, ", up to ");
        print_travel(out, day->travels[day->most]);
        fprintf(out, " min at ");
        print_clock(out, day->most);
    }
    fprintf(out, "</tspan></text>\n");
}

/* The line of a day. A tick is left out where the line goes on as it came. At the period's end stands the
 * next day's first tick. */
static void print_line(FILE *out, const struct plot *plot, const struct day *day, size_t place)
{
    fprintf(out, "<path d=\"");
    for (uint32_t tick = 0; tick <= plot->period; tick++) {
        uint32_t here = day->travels[tick % plot->period];
        if (tick > 0 && tick < plot->period) {
            uint32_t before = day->travels[tick - 1];
            uint32_t after = day->travels[(tick + 1) % plot->period];
            if (2 * here == before + after) {
                continue;
            }
        }
        fprintf(out, tick == 0 ? "M" : "L");
        print_hundredths(out, along(plot, tick));
        fprintf(out, " ");
        print_hundredths(out, down(plot, here));
    }
    fprintf(out, "\" fill=\"none\" stroke=\"%s\" stroke-width=\"2\" stroke-linejoin=\"round\"><title>%" PRIu32
            " to %" PRIu32 "</title></path>\n",
            COLOURS[place], day->from, day->to);
}

void print_days(FILE *out, uint32_t period, const struct day *days, size_t count)
{
    uint32_t most = 1;
    for (size_t i = 0; i < count; i++) {
        uint32_t travel = days[i].travels[days[i].most];
        most = travel > most ? travel : most;
    }
    uint32_t step = travel_step(most);
    uint32_t rows = (uint32_t)(count + 1) / 2;
    struct plot plot = {LEGEND_TOP + rows * LEGEND_STEP, period, (most + step - 1) / step * step};
    print_head(out, &plot, count);
    for (size_t i = 0; i < count; i++) {
        print_legend(out, &days[i], i);
    }
    print_grid(out, &plot);
    /* The first pair is drawn last, above the others. */
    for (size_t i = count; i > 0; i--) {
        print_line(out, &plot, &days[i - 1], i - 1);
    }
    fprintf(out, "</svg>\n");
}
