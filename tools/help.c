/*
 * The help of the command and its manual page, from one table: `varnwalnut help` prints it, and the build has
 * `varnwalnut help --man` make the page that is installed.
 */
#include "help.h"

#include "varnwalnut.h"

#include <string.h>

enum { MOST_LINES = 24 };

/* A command: how it is called, a sentence on it, and what else there is to say, a line each. A line that
 * begins with a space is shown as it is. */
struct topic {
    const char *name;
    const char *call;
    const char *sentence;
    const char *lines[MOST_LINES];
};

static const struct topic COMMANDS[] = {
    {"check",
     "check NETWORK PLAN",
     "says whether the plan may be trusted: `accepted`, or the refusal with its place",
     {"Accepted are exactly the plans whose profiles are the true least travels at every tick and whose",
      "flags are enough. Beside the verdict stands how many finds the check made.", NULL}},
    {"trip",
     "trip NETWORK [PLAN] FROM TO LEAVE",
     "tells when a trip arrives and which roads it takes",
     {"LEAVE is a tick's number or a time HH:MM:SS of a whole tick. Without a plan all roads are searched;",
      "with one, those with the flag of the target's cell, which is as good under a plan that `check`",
      "accepts. Each road is told with its ends and its times. Where the target is shut on arrival, the",
      "tick at which it opens is told too.", NULL}},
    {"plan",
     "plan NETWORK -o PLAN",
     "makes the plan of a network",
     {"`check` accepts every plan that is made.", NULL}},
    {"import",
     "import TEXT -o NETWORK --number N",
     "makes a network of a road file in the text form of the 9th DIMACS challenge",
     {"Weights are travels in ticks, the same at every hour; nodes are numbered from 1 in the text and from",
      "0 in the network. N is the network's number, of your choice.", NULL}},
    {"show",
     "show FILE [--network NETWORK]",
     "prints a network or a plan as text, one record a line",
     {"A network is shown only if it opens. No plan can be judged without its network: with --network its",
      "form is judged, and borders are named by their places; without, its records are told as they stand",
      "in the file, and the first line says so.", NULL}},
    {"make",
     "make TEXT -o NETWORK",
     "makes a network of the text that `show` prints",
     {"The text has a line for each record, in this form; # begins a remark:",
      " network NUMBER period TICKS cells CELLS hours 0|1",
      " place [NUMBER] cell CELL [open TICK close TICK]",
      " road [NUMBER] from PLACE to PLACE",
      " point [NUMBER] tick TICK travel TICKS",
      "The network comes first. A road's points stand behind it. Records are numbered from 0 as they come;",
      "a number in brackets may be left out, and if it is there it has to be the one that is due. A place",
      "without hours is open all day. Ticks may be times HH:MM:SS.", NULL}},
    {"day",
     "day NETWORK FROM TO [FROM TO ..] [--svg FILE]",
     "tells a trip's arrival for every tick of the day, or draws it",
     {"Without --svg a line is printed for each tick of leaving. With it a picture of up to eight pairs is",
      "written to FILE.", NULL}},
    {"version", "version", "prints the version", {NULL}},
    {"help",
     "help [COMMAND | --man]",
     "prints help on a command, or on all; with --man the manual page",
     {NULL}},
};

enum { COMMAND_COUNT = sizeof COMMANDS / sizeof *COMMANDS };

static const char *const GENERAL[] = {
    "FILE may be - for standard input, and behind -o or --svg for standard output. -- ends the options.",
    "What -o and --svg name is written to a new file beside it, which then takes its name: a failure loses",
    "nothing. A tick is half a minute; a time counts from the beginning of its day, and day 1 is the day of",
    "leaving.",
    NULL};

static const char *const STATUS[] = {
    "0 where the command answered; 1 where the library refused, with `refused NUMBER: SENTENCE` on standard",
    "error; 2 for a wrong call or a file that cannot be read or written.", NULL};

static const char *const EXAMPLES[] = {
    " varnwalnut import roads.gr -o town.net --number 7",
    " varnwalnut plan town.net -o town.plan",
    " varnwalnut check town.net town.plan",
    " varnwalnut trip town.net town.plan 0 12 08:00:00",
    " varnwalnut day town.net 0 12 12 0 --svg day.svg",
    " varnwalnut show town.net | sed 's/travel 9$/travel 12/' | varnwalnut make - -o other.net",
    NULL};

static const struct topic *find(const char *name)
{
    for (size_t i = 0; i < COMMAND_COUNT; i++) {
        if (strcmp(COMMANDS[i].name, name) == 0) {
            return &COMMANDS[i];
        }
    }
    return NULL;
}

/* --- as help */

static void print_lines(FILE *out, const char *const *lines)
{
    for (; *lines != NULL; lines++) {
        fprintf(out, "%s%s\n", **lines == ' ' ? "   " : "", *lines);
    }
}

void print_usage(FILE *out)
{
    for (size_t i = 0; i < COMMAND_COUNT; i++) {
        fprintf(out, "%s varnwalnut %s\n", i == 0 ? "usage:" : "      ", COMMANDS[i].call);
    }
}

void print_help(FILE *out)
{
    fprintf(out, "varnwalnut %s: routes through small towns whose roads take as long as the hour makes them "
                 "take\n\n",
            VARNWALNUT_VERSION);
    for (size_t i = 0; i < COMMAND_COUNT; i++) {
        fprintf(out, "  varnwalnut %s\n        %s\n", COMMANDS[i].call, COMMANDS[i].sentence);
    }
    fprintf(out, "\n");
    print_lines(out, GENERAL);
    fprintf(out, "\nThe exit status is\n");
    print_lines(out, STATUS);
    fprintf(out, "\n");
    print_lines(out, EXAMPLES);
}

void print_command_usage(FILE *out, const char *command)
{
    const struct topic *topic = find(command);
    fprintf(out, "usage: varnwalnut %s\n", topic == NULL ? "COMMAND .." : topic->call);
}

bool print_command_help(FILE *out, const char *command)
{
    const struct topic *topic = find(command);
    if (topic == NULL) {
        return false;
    }
    fprintf(out, "varnwalnut %s\n    %s.\n", topic->call, topic->sentence);
    if (topic->lines[0] != NULL) {
        fprintf(out, "\n");
        print_lines(out, topic->lines);
    }
    return true;
}

/* --- as a manual page */

/* A line of text for man: no byte of it is taken for a macro or a hyphen that may move. */
static void print_escaped(FILE *out, const char *text)
{
    if (*text == '.' || *text == '\'') {
        fprintf(out, "\\&");
    }
    for (; *text != '\0'; text++) {
        switch (*text) {
        case '\\':
            fprintf(out, "\\e");
            break;
        case '-':
            fprintf(out, "\\-");
            break;
        case '`':
            fprintf(out, "\\(ga");
            break;
        case '\'':
            fprintf(out, "\\(aq");
            break;
        default:
            fputc(*text, out);
        }
    }
    fprintf(out, "\n");
}

static void print_man_lines(FILE *out, const char *const *lines)
{
    bool shown = false;
    for (; *lines != NULL; lines++) {
        bool as_is = **lines == ' ';
        if (as_is != shown) {
            fprintf(out, as_is ? ".nf\n" : ".fi\n");
            shown = as_is;
        }
        print_escaped(out, *lines);
    }
    fprintf(out, shown ? ".fi\n" : "");
}

static void print_man_section(FILE *out, const char *title, const char *const *lines)
{
    fprintf(out, ".SH %s\n", title);
    print_man_lines(out, lines);
}

static void print_man_commands(FILE *out)
{
    fprintf(out, ".SH COMMANDS\n");
    for (size_t i = 0; i < COMMAND_COUNT; i++) {
        const char *const sentence[] = {COMMANDS[i].sentence, NULL};
        fprintf(out, ".TP\n.B ");
        print_escaped(out, COMMANDS[i].call);
        print_man_lines(out, sentence);
        if (COMMANDS[i].lines[0] != NULL) {
            fprintf(out, ".IP\n");
            print_man_lines(out, COMMANDS[i].lines);
        }
    }
}

void print_manual(FILE *out)
{
    fprintf(out, ".TH VARNWALNUT 1 \"\" \"varnwalnut %s\" \"User Commands\"\n", VARNWALNUT_VERSION);
    fprintf(out, ".SH NAME\nvarnwalnut \\- routes through small towns with time\\-dependent roads\n");
    fprintf(out, ".SH SYNOPSIS\n");
    for (size_t i = 0; i < COMMAND_COUNT; i++) {
        fprintf(out, "%s.B varnwalnut\n", i == 0 ? "" : ".br\n");
        print_escaped(out, COMMANDS[i].call);
    }
    print_man_section(out, "DESCRIPTION", GENERAL);
    print_man_commands(out);
    print_man_section(out, "EXIT STATUS", STATUS);
    print_man_section(out, "EXAMPLES", EXAMPLES);
}
