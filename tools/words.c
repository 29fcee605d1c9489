/*
 * The words of a call. getopt has no long options in POSIX, and its order of words differs from system to
 * system: so options are taken apart here, and may stand before, between and behind the operands.
 */
#include "words.h"

#include "files.h"
#include "says.h"

#include <string.h>

static const struct {
    const char *name;
    char letter;
} NAMES[OPTIONS] = {{"output", 'o'}, {"number", '\0'}, {"svg", '\0'}, {"network", '\0'}};

/* Which option a word is, and where its value begins: behind `=`, behind `-o`, or NULL for the next word. */
static enum option option_of(const char *word, const char **value)
{
    for (int i = 0; i < OPTIONS; i++) {
        size_t length = strlen(NAMES[i].name);
        if (word[1] == '-' && strncmp(word + 2, NAMES[i].name, length) == 0) {
            const char *end = word + 2 + length;
            if (*end == '\0' || *end == '=') {
                *value = *end == '=' ? end + 1 : NULL;
                return (enum option)i;
            }
        }
        if (NAMES[i].letter != '\0' && word[1] == NAMES[i].letter) {
            *value = word[2] == '\0' ? NULL : word + 2;
            return (enum option)i;
        }
    }
    return OPTIONS;
}

static bool is_help(const char *word)
{
    return strcmp(word, "--help") == 0 || strcmp(word, "-h") == 0;
}

/* Takes the option at `at`, and gives how many words it has. */
static size_t take_option(struct words *taken, unsigned allowed, size_t at, size_t count, char **words)
{
    const char *value = NULL;
    enum option option = option_of(words[at], &value);
    size_t used = value == NULL ? 2 : 1;
    if (option == OPTIONS || (allowed & 1u << option) == 0) {
        give_up("%s: there is no option %s; see `varnwalnut help %s`", taken->command, words[at],
                taken->command);
    }
    if (value == NULL && at + 1 == count) {
        give_up("%s: nothing follows %s", taken->command, words[at]);
    }
    if (taken->option[option] != NULL) {
        give_up("%s: --%s is given twice", taken->command, NAMES[option].name);
    }
    taken->option[option] = value == NULL ? words[at + 1] : value;
    return used;
}

struct words take_words(const char *command, unsigned allowed, size_t count, char **words)
{
    struct words taken = {command, take_memory(count, sizeof(char *)), 0, {NULL}, false};
    bool options = true;
    size_t at = 0;
    while (at < count) {
        const char *word = words[at];
        if (!options || word[0] != '-' || word[1] == '\0') {
            taken.operands[taken.count++] = word;
            at += 1;
        } else if (strcmp(word, "--") == 0) {
            options = false;
            at += 1;
        } else if (is_help(word)) {
            taken.help = true;
            at += 1;
        } else {
            at += take_option(&taken, allowed, at, count, words);
        }
    }
    return taken;
}

/* --- numbers and times */

bool read_number(const char *text, size_t length, uint32_t most, uint32_t *number)
{
    uint64_t value = 0;
    for (size_t i = 0; i < length; i++) {
        if (text[i] < '0' || text[i] > '9') {
            return false;
        }
        value = value * 10 + (uint64_t)(text[i] - '0');
        if (value > most) {
            return false;
        }
    }
    *number = (uint32_t)value;
    return length > 0;
}

enum time read_time(const char *text, size_t length, uint32_t *tick)
{
    uint32_t hours, minutes, seconds;
    if (read_number(text, length, UINT32_MAX, tick)) {
        return TICK;
    }
    if (length != 8 || text[2] != ':' || text[5] != ':' || !read_number(text, 2, 99, &hours) ||
        !read_number(text + 3, 2, 59, &minutes) || !read_number(text + 6, 2, 59, &seconds)) {
        return NO_TIME;
    }
    seconds += 3600 * hours + 60 * minutes;
    *tick = seconds / TICK_SECONDS;
    return seconds % TICK_SECONDS == 0 ? TICK : BETWEEN_TICKS;
}

uint32_t number_word(const char *name, const char *text)
{
    uint32_t number = 0;
    if (!read_number(text, strlen(text), UINT32_MAX, &number)) {
        give_up("%s is %s, which is no number from 0 to 4294967295", name, text);
    }
    return number;
}

uint32_t time_word(const char *name, const char *text)
{
    uint32_t tick = 0;
    switch (read_time(text, strlen(text), &tick)) {
    case NO_TIME:
        give_up("%s is %s, which is neither a tick's number nor a time HH:MM:SS", name, text);
    case BETWEEN_TICKS:
        give_up("%s is %s, which lies between two ticks: a tick is %d seconds", name, text, TICK_SECONDS);
    case TICK:
        break;
    }
    return tick;
}
