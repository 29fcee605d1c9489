/*
 * Progress by elapsed time. The work is one call of the library, which cannot be asked how far it is: so an
 * alarm rewrites the line each second, by calls that a signal handler may make.
 */
#define _XOPEN_SOURCE 700
#include "progress.h"

#include <signal.h>
#include <stdbool.h>
#include <stdio.h>
#include <string.h>
#include <unistd.h>

static bool shown = false;
static char line[96];
static size_t line_length;
static volatile sig_atomic_t seconds;

/* A terminal that does not take the line loses nothing. */
static void put(const char *text, size_t length)
{
    if (write(STDERR_FILENO, text, length) < 0) {
        return;
    }
}

static void show_seconds(void)
{
    char digits[12];
    size_t at = sizeof digits;
    digits[--at] = 's';
    digits[--at] = ' ';
    int left = seconds;
    do {
        digits[--at] = (char)('0' + left % 10);
        left /= 10;
    } while (left > 0 && at > 0);
    put(line, line_length);
    put(digits + at, sizeof digits - at);
}

static void on_alarm(int signal_number)
{
    (void)signal_number;
    seconds += 1;
    show_seconds();
    alarm(1);
}

void begin_progress(const char *what)
{
    struct sigaction action;
    shown = isatty(STDERR_FILENO) == 1;
    if (!shown) {
        return;
    }
    int length = snprintf(line, sizeof line, "\r\033[K%s: ", what);
    line_length = length < 0 ? 0 : (size_t)length < sizeof line ? (size_t)length : sizeof line - 1;
    seconds = 0;
    memset(&action, 0, sizeof action);
    action.sa_handler = on_alarm;
    action.sa_flags = SA_RESTART;
    sigemptyset(&action.sa_mask);
    sigaction(SIGALRM, &action, NULL);
    show_seconds();
    alarm(1);
}

void end_progress(void)
{
    static const char away[] = "\r\033[K";
    if (shown) {
        alarm(0);
        put(away, sizeof away - 1);
        shown = false;
    }
}
